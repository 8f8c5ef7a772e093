"""The script of a drill that was played: as it is stored, or with the drill's own lines as comments, for who shows it."""
from .did import text_of


def script(play):
    """The script: comments as they stand, declarations in the machine's names, and the events that were not idle."""
    lines = []
    heads = iter(play.drill.head.lines)
    for played in play.played:
        it = played.statement
        if it.word == '#':
            lines.append(it.text)
        elif it.word == 'declare':
            lines.append(next(heads))
        else:
            lines += played.events
    # a text that ends in a line feed has an empty line behind it
    if lines and not lines[-1]:
        lines.pop()
    return text_of(lines)


def annotated(play):
    """The script with each line of the drill before its events, and what no event says.

    `#: NUMBER TEXT` is a line of the drill, ` = yes`, ` = NO: ..` or ` = IN VAIN: ..` behind it; `# lost X`, `# returned X`, `# cut X Y`,
    `# mended X Y`, `# held X Y`, `# released X Y` say what happened there; `# name MACHINE OWN`, above all, that a name stands for another.
    """
    drill = play.drill
    causes = {id(played): ' = IN VAIN: ' + cause for played, cause in play.vain()}
    differs = {id(played): ' = NO: ' + seen for played, seen in play.differing()}
    lines = ['# name %s %s' % (machine, own) for machine, own in drill.names.back.items() if machine != own]
    heads = iter(drill.head.lines)
    for played in play.played:
        it = played.statement
        if it.word == '#':
            lines.append(it.text)
        elif it.word == 'declare':
            lines.append(next(heads))
        else:
            verdict = differs.get(id(played), ' = yes') if it.word == 'expect' else causes.get(id(played), '')
            lines.append('#: %d %s%s' % (it.number, it.text, verdict))
            lines += ['# ' + sign for sign in it.signs] + played.events
    if lines and not lines[-1]:
        lines.pop()
    return text_of(lines)
