"""What tests of played drills share: the program, and the heads of drills."""
import io
import os
import tempfile
import unittest
from contextlib import redirect_stderr, redirect_stdout

from geo_tools.__main__ import main
from geo_tools.program import ROOT, built_program

PROGRAM = built_program()
plays = unittest.skipUnless(PROGRAM, 'there is no program: neither GEO_PROGRAM nor a build of this source')


def said(words, text=None):
    """The status of a tool, its output and its complaints; a text is given as a file."""
    out, err = io.StringIO(), io.StringIO()
    with tempfile.TemporaryDirectory() as folder, redirect_stdout(out), redirect_stderr(err):
        if text is not None:
            path = os.path.join(folder, 'x.drill')
            with open(path, 'w', encoding='utf-8') as file:
                file.write(text)
            words = words + [path]
        try:
            status = main(words)
        except SystemExit as ended:
            status = ended.code
        folded = err.getvalue().replace(folder + '/', '')
    return status, out.getvalue(), folded


def content(path):
    """The text of a file of the repository."""
    with open(os.path.join(ROOT, path), encoding='utf-8') as file:
        return file.read()
