"""Help and the manual page of ./geo, made of commands.txt.

usage: geo help [COMMAND]     what ./geo can be told, or one command
       geo help --man         the manual page: ./geo help --man | man -l -
"""
import os
import re
import sys

HERE = os.path.dirname(os.path.realpath(__file__))
WRONG_WORDS = 2
WIDTH = 32


class Command:
    """A paragraph of commands.txt."""

    def __init__(self, lines):
        self.kind, self.words = lines[0].split(' ', 1)
        self.name = self.words.split(' ')[0]
        self.does = self.page = self.example = ''
        rest = []
        for line in lines[1:]:
            word, _, text = line.partition(' ')
            if word == 'does':
                self.does = text
            elif word == 'page':
                self.page = text
            elif word == 'try':
                self.example = text
            else:
                rest.append(line)
        self.text = ' '.join(rest)


def commands():
    """All of them in the order of the file; options behind."""
    with open(os.path.join(HERE, 'commands.txt'), encoding='utf-8') as file:
        lines = [line.rstrip('\n') for line in file if not line.startswith('#')]
    paragraphs = re.split(r'\n\n+', '\n'.join(lines).strip())
    return [Command(paragraph.split('\n')) for paragraph in paragraphs]


def overview():
    known = commands()
    out = ['geo runs several Apache Pulsar clusters as one written machine: what happens to messages when a region is lost.', '',
           'usage: ./geo COMMAND ..', '']
    for command in known:
        if command.kind == 'option' and out[-1] and not out[-1].startswith('  -'):
            out.append('')
        head = '  ' + command.words
        if len(head) >= WIDTH:
            out.append(head)
            head = ''
        out.append(head.ljust(WIDTH) + command.does)
    out += ['', './geo help COMMAND says more of one. Begin with: ./geo drill drills/region_lost.drill, and README.md.',
            'Without a build the first call compiles the source in one to two minutes, and later ones are quick; tools/build makes a proved program.']
    return '\n'.join(out)


def of_one(command):
    out = ['usage: ./geo ' + command.words if command.kind == 'command' else command.words, '', command.does[0].upper() + command.does[1:] + '.']
    if command.text:
        out.append(command.text)
    if command.example:
        out += ['', 'example: ./geo ' + command.example]
    if command.page:
        out.append('more: docs/%s.md' % command.page)
    return '\n'.join(out)


def manual():
    """The page as man(7) takes it."""
    def plain(text):
        return text.replace('\\', '\\\\').replace('-', '\\-').replace("'", '\\(aq')
    out = ['.TH GEO 1', '.SH NAME', 'geo \\- several Apache Pulsar clusters as one written machine', '.SH SYNOPSIS', '.B ./geo', 'COMMAND ..',
           '.SH DESCRIPTION', 'A script says which clusters, topics and clients there are, and what happens, event by event; geo prints what each '
           'topic, replicator, subscription and client holds at the end.', '.SH COMMANDS']
    is_option = False
    for command in commands():
        if command.kind == 'option' and not is_option:
            out.append('.SH OPTIONS')
            is_option = True
        out += ['.TP', '.B ' + plain(command.words), plain(command.does[0].upper() + command.does[1:] + '.')]
        if command.text:
            out.append(plain(command.text))
    out += ['.SH EXIT STATUS', '0; 2 wrong words; 3 a bad script; 4 and 5 reading and writing failed; 6 too large; 8 no memory; 9 a bad state; 10 a trace '
            'is refused; 66 a file that can\\(aqt be read; 69 no toolchain; 70 the toolchain failed; 71 and 72 of drills.', '.SH FILES',
            'README.md, docs/']
    return '\n'.join(out)


def main(words):
    """`help`, of all or of one."""
    if words == ['--man']:
        print(manual())
        return 0
    words = [word for word in words if word not in ('-h', '--help')]
    if not words:
        print(overview())
        return 0
    found = [command for command in commands() if words[0] in (command.name, *command.words.split(', '))]
    if not found:
        print('geo help: %s is no command; ./geo help lists them' % words[0], file=sys.stderr)
        return WRONG_WORDS
    print(of_one(found[0]))
    return 0
