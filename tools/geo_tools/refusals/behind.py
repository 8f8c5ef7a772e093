"""What ./geo has told behind a refusal: STATUS ANSWER-FILE INPUT-FILE NAME COMMAND .., the answer being the program's own line."""
from . import read, refusal
from .told import words_of


def main(words):
    status, answer, given, name = words[:4]
    raw = b'' if given == '/dev/null' else read(given)
    told = refusal(int(status), read(answer).decode('latin-1'), raw, name, words[4:])
    if told:
        print('\n'.join(words_of(told)))
    return 0
