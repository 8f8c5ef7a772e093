"""What is told of a refusal: a place, what is wrong, the line with carets, what is expected, and the rule."""
from collections import namedtuple

# `rule_of` is 'script', 'audit', 'observation' or 'state', whose page has the rule; `line`, `column` and `width` may be None; columns count from 1
Refusal = namedtuple('Refusal', 'file line column width said near text expected rule_of rule remedy')
Refusal.__new__.__defaults__ = (None,) * len(Refusal._fields)


def visible(text):
    """A line's bytes, read one by one, as text: a byte outside 20 to 7E as \\xHH."""
    return ''.join(one if ' ' <= one <= '~' else '\\x%02X' % ord(one) for one in text)


def words_of(told):
    """The lines that are printed of a refusal."""
    place = [told.file]
    if told.line is not None:
        place.append(str(told.line))
        if told.column is not None:
            place.append(str(told.column))
    lines = [':'.join(place) + ': ' + visible(told.said) + (' (did you mean %s?)' % told.near if told.near else '')]
    if told.text is not None:
        lines.append('  ' + visible(told.text))
        if told.column is not None:
            before = len(visible(told.text[:told.column - 1]))
            under = visible(told.text[told.column - 1:told.column - 1 + (told.width or 1)])
            lines.append('  ' + ' ' * before + '^' * max(1, len(under)))
    if told.expected:
        lines.append('  expected: ' + told.expected)
    if told.remedy:
        lines.append('  ' + told.remedy)
    if told.rule is not None:
        lines.append('  rule %d; its whole text: ./geo why --explain %s%d' % (told.rule, '' if told.rule_of == 'script' else told.rule_of + ' ', told.rule))
    return lines


def document(told):
    """The same as a record, for --json."""
    return {name: value for name, value in told._asdict().items() if value is not None}
