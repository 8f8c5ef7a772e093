"""Which lines of a drill matter: each is left out in turn."""
from ..program import Failed
from .language import Drill
from .play import Play
from .words import Refused

# lines that do nothing by themselves
NOT_LEFT_OUT = ('#', 'declare', 'expect')


def passes(text, file, program):
    """Whether a drill is accepted, none of its lines is in vain, and each expectation is met."""
    try:
        play = Play(Drill(text, file), program).go()
        return not any(play.differing()) and not any(play.vain())
    except (Refused, Failed):
        return False


def not_needed(text, file, program):
    """The lines without which the drill passes all the same, each with its number."""
    lines, found = text.split('\n'), []
    for it in Drill(text, file).statements:
        if it.word not in NOT_LEFT_OUT and passes('\n'.join(lines[:it.number - 1] + lines[it.number:]), file, program):
            found.append((it.number, it.text))
    return found
