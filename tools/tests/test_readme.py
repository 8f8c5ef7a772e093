"""README and the pages say what the commands print: each block that begins with `$ COMMAND` is run, and compared."""
import os
import re
import subprocess
import unittest

from geo_tools.program import ROOT, built_program

# a line of a page for lines that it leaves out
LEFT_OUT = '..'
PAGES = ('README.md', 'docs/REPORT.md', 'docs/AUDIT.md', 'docs/SCRIPT.md', 'docs/STEPS.md', 'docs/LOST.md')


def blocks(text):
    """Each command of a page's indented blocks, and the lines that stand below it."""
    for block in re.findall(r'(?:^    .*\n)+', text, re.M):
        lines = [line[4:] for line in block.splitlines()]
        command, said = None, []
        for line in lines:
            if line.startswith('$ '):
                if command:
                    yield command, said
                command, said = line[2:], []
            elif command:
                said.append(line)
        if command:
            yield command, said


def printed(command):
    """What a person sees of a command at a terminal: the refusal's line once, and nothing of how the program was made."""
    how = {'shell': True, 'cwd': ROOT, 'capture_output': True, 'text': True, 'env': {**os.environ, 'GEO_PROGRAM': built_program()}}
    done = subprocess.run(command, check=False, **how)
    out = done.stdout.splitlines()
    return out + [line for line in done.stderr.splitlines() if line not in out]


def chunks(said):
    """The lines of a quote in pieces, between those that are left out."""
    made = [[]]
    for line in said:
        if line.strip() == LEFT_OUT:
            made.append([])
        else:
            made[-1].append(line)
    return [chunk for chunk in made if chunk]


def is_quoted(lines, said):
    """The pieces stand in these lines, in their order, and are all of them where nothing is left out."""
    if LEFT_OUT not in [line.strip() for line in said]:
        return lines == said
    at = 0
    for chunk in chunks(said):
        while lines[at:at + len(chunk)] != chunk:
            at += 1
            if at > len(lines):
                return False
        at += len(chunk)
    return True


@unittest.skipUnless(built_program(), 'no program: tools/build or tools/compile makes one')
class Quoted(unittest.TestCase):
    def test_what_pages_quote(self):
        count = 0
        for page in PAGES:
            with open(os.path.join(ROOT, page), encoding='utf-8') as file:
                text = file.read()
            for command, said in blocks(text):
                if not said:
                    continue
                with self.subTest('%s: %s' % (page, command)):
                    lines = printed(command)
                    if not is_quoted(lines, said):
                        self.assertEqual(lines, said)
                    count += 1
        self.assertGreater(count, 1)


if __name__ == '__main__':
    unittest.main()
