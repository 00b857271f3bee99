"""The completion for bash."""

from __future__ import annotations

from shlex import quote

from said import Argument, Command, commands, options

_HEAD = """\
# completion of bahrufaz for bash

# files with one of these endings, and directories; any file where there is none
_bahrufaz_files() {
    local current=$1 ending found
    shift
    compopt -o filenames 2>/dev/null
    for ending in "$@"; do
        mapfile -t found < <(compgen -f -X "!*.$ending" -- "$current")
        COMPREPLY+=("${found[@]}")
    done
    if [ ${#COMPREPLY[@]} -gt 0 ]; then
        mapfile -t found < <(compgen -d -- "$current")
    else
        mapfile -t found < <(compgen -f -- "$current")
    fi
    COMPREPLY+=("${found[@]}")
}

_bahrufaz_words() {
    local current=$1
    shift
    mapfile -t COMPREPLY < <(compgen -W "$*" -- "$current")
}

# sets command; place: how many words after it are neither options nor their values; open: the option that takes the
# words that follow
_bahrufaz_place() {
    local at word
    command='' place=0 open=''
    for ((at = 1; at < COMP_CWORD; at++)); do
        word=${COMP_WORDS[at]}
        case $command:$word in
            :-*) ;;
            :*) command=$word ;;
            MANY) open=$word ;;
            ONE) open='' at=$((at + 1)) ;;
            *:-*) open='' ;;
            *) [ -n "$open" ] || place=$((place + 1)) ;;
        esac
    done
}

_bahrufaz() {
    local current=${COMP_WORDS[COMP_CWORD]} before=${COMP_WORDS[COMP_CWORD - 1]} command place open
    COMPREPLY=()
    _bahrufaz_place
    [[ -z $open || $current == -* ]] || before=$open
    case $command:$before in
"""

_MIDDLE = """\
    esac
    case $command:$place:$current in
"""

_TAIL = """\
    esac
}

complete -F _bahrufaz bahrufaz
"""


def _complete(one: Argument) -> str:
    """What completes the value of an argument."""
    if one.choices:
        return f'_bahrufaz_words "$current" {" ".join(one.choices)}'
    if one.is_file:
        return " ".join(['_bahrufaz_files "$current"', *one.endings])
    return ":"


def _values(command: Command) -> str:
    """The words of a command that its options take after them."""
    lines = ""
    for one in command.options:
        if one.value:
            names = "|".join(f"{command.name}:{option}" for option in one.options)
            lines += f"        {names}) {_complete(one)}; return ;;\n"
    return lines


def _places(command: Command) -> str:
    """The options, and what stands without one, by its place."""
    words = " ".join(option for one in command.options for option in one.options)
    lines = f'        {command.name}:*:-*) _bahrufaz_words "$current" {quote(words)} ;;\n'
    for place, one in enumerate(command.positionals):
        lines += f"        {command.name}:{'*' if one.many else place}:*) {_complete(one)} ;;\n"
    return lines


def _takers(many: bool) -> str:
    """The options that take a value, one or many, as a pattern of case; a word that nobody types where there is none."""
    taken = [(one.name, option) for one in commands() for option in one.options if option.value and option.many == many]
    return "|".join(f"{name}:{word}" for name, option in taken for word in option.options) or "''"


def completion() -> str:
    known = commands()
    first = " ".join([option for one in options() for option in one.options] + [one.name for one in known])
    return (
        _HEAD.replace("MANY", _takers(many=True)).replace("ONE", _takers(many=False))
        + "".join(map(_values, known))
        + _MIDDLE
        + f'        :*) _bahrufaz_words "$current" {quote(first)} ;;\n'
        + "".join(map(_places, known))
        + _TAIL
    )
