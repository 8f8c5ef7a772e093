"""The completion of ./geo for a shell, made of commands.txt: geo completion bash, or geo completion zsh."""
import sys

from .help import WRONG_WORDS, commands

SHELLS = ('bash', 'zsh')
BASH = '''_geo() {
    local word=${COMP_WORDS[COMP_CWORD]} before=${COMP_WORDS[1]}
    if [ "$COMP_CWORD" = 1 ]; then
        COMPREPLY=($(compgen -W "%(commands)s %(options)s" -- "$word"))
    elif [ "$before" = help ]; then
        COMPREPLY=($(compgen -W "%(commands)s" -- "$word"))
    elif [ "$before" = completion ]; then
        COMPREPLY=($(compgen -W "%(shells)s" -- "$word"))
    elif [ "${word:0:1}" = - ]; then
        COMPREPLY=($(compgen -W "%(options)s" -- "$word"))
    else
        COMPREPLY=($(compgen -f -- "$word"))
    fi
}
complete -o filenames -F _geo geo ./geo'''
# `words` and `CURRENT` are zsh's: what stands on the line, and which word of it is completed
ZSH = '''_geo() {
    local -a known options
    known=(%(commands)s)
    options=(%(options)s)
    if [[ $PREFIX == -* ]]; then
        _describe -o option options
    elif (( CURRENT == 2 )) || [[ $words[2] == help ]]; then
        _describe command known
    elif [[ $words[2] == completion ]]; then
        compadd %(shells)s
    else
        _files
    fi
}
if (( $+functions[compdef] )); then
    compdef _geo geo
else
    print -u2 'geo: zsh has no completion yet: autoload -U compinit && compinit, and then this again'
fi'''


def described(name, does):
    """A word and what it does, as an element of an array of zsh."""
    return "'%s:%s'" % (name, does.replace("'", "'\\''"))


def completion(shell):
    known = [command for command in commands() if command.kind == 'command']
    options = [(word.strip(','), option.does) for option in commands() if option.kind == 'option' for word in option.words.split(' ') if len(word) > 1]
    if shell == 'bash':
        return BASH % {'commands': ' '.join(command.name for command in known), 'options': ' '.join(word for word, _ in options), 'shells': ' '.join(SHELLS)}
    if shell == 'zsh':
        return ZSH % {'commands': ' '.join(described(command.name, command.does) for command in known),
                      'options': ' '.join(described(*option) for option in options), 'shells': ' '.join(SHELLS)}
    return None


def main(words):
    made = completion(words[0]) if len(words) == 1 else None
    if made is None:
        print('usage: geo completion bash, or geo completion zsh', file=sys.stderr)
        return WRONG_WORDS
    print(made)
    return 0
