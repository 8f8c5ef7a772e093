"""Files that several calls may read and write at a time."""
import contextlib
import fcntl
import os


def read(path):
    with open(path, encoding='utf-8') as file:
        return file.read()


def replace(path, text):
    """Writes a file whole, or leaves it as it was."""
    os.makedirs(os.path.dirname(path) or '.', exist_ok=True)
    with open(path + '.new', 'w', encoding='utf-8') as file:
        file.write(text)
    os.replace(path + '.new', path)


@contextlib.contextmanager
def locked(path):
    """Waits until no other call holds this file, and holds it."""
    os.makedirs(os.path.dirname(path) or '.', exist_ok=True)
    with open(path, 'w', encoding='ascii') as lock:
        fcntl.flock(lock, fcntl.LOCK_EX)
        yield
