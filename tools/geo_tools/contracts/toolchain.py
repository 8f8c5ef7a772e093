"""The toolchain, as the tools of this folder call it."""
import shutil
import subprocess

from ..program import NO_ANSWER, NO_PROGRAM, Failed

# the statuses of a call that came to its end: all is well, or something is refused
ENDED = (0, 1)


def version():
    """The line that names the toolchain."""
    if not shutil.which('rt'):
        raise Failed('there is no toolchain: rt, the command of the Rattle kit, is not in the path', NO_PROGRAM)
    done = subprocess.run(['rt', 'version'], stdout=subprocess.PIPE, text=True, check=False)
    if done.returncode or not done.stdout.strip():
        raise Failed('`rt version` ended with status %d' % done.returncode, NO_ANSWER)
    return done.stdout.strip()


def lines(words, folder):
    """What a call of the toolchain prints, on standard error too, line by line as it comes; behind it how it ended, where it came to no end."""
    with subprocess.Popen(['rt', *words], cwd=folder, stdin=subprocess.DEVNULL, stdout=subprocess.PIPE, stderr=subprocess.STDOUT, text=True,
                          errors='replace') as started:
        try:
            for line in started.stdout:
                yield line.rstrip('\n')
        except BaseException:
            # a reader that goes, or an interrupt, ends the call as well
            started.terminate()
            raise
    if started.returncode not in ENDED:
        yield '`rt %s` %s' % (words[0], 'was killed by signal %d' % -started.returncode if started.returncode < 0 else
                              'ended with status %d' % started.returncode)
