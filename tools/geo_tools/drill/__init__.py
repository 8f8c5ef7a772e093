"""Drills: what is to happen, said in an operator's words, and what is expected of it."""


def is_drill(path, text):
    """Whether a file is a drill and no script: its name says so, or a line of it."""
    from .language import is_drill as told
    return told(path, text)


def annotated(text, file, program):
    """The script of a drill, as bytes, with the drill's lines as comments (written.annotated has the form); raises Refused or Failed."""
    from . import written
    from .language import Drill
    from .play import Play
    return written.annotated(Play(Drill(text, file), program).go())
