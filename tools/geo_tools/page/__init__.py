"""The page of a run, for a browser (docs/PAGE.md)."""


def page_of(name, raw, program):
    """The lines of the page of a script."""
    from . import document
    from ..script import Script
    return document.page_of(name, Script(raw), program)
