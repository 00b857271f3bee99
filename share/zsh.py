"""The completion for zsh."""

from __future__ import annotations

import re

from said import Argument, Command, commands, options

_HEAD = """\
#compdef bahrufaz
# completion of bahrufaz for zsh

_bahrufaz() {
    local curcontext=$curcontext state line
    local -a commands
    commands=(
"""


def _quoted(text: str) -> str:
    return "'" + text.replace("'", "'\\''") + "'"


def _escaped(text: str) -> str:
    """Text within the words of _arguments, where brackets and colons say something."""
    return re.sub(r"([\[\]:\\])", r"\\\1", text)


def _value(one: Argument) -> str:
    """What completes the value of an argument."""
    if one.choices:
        return f"({' '.join(one.choices)})"
    if one.endings:  # (feed) alone at the end would be a qualifier, not a choice
        choice = "|".join(one.endings)
        return f'_files -g "*.{choice}"' if len(one.endings) == 1 else f'_files -g "*.({choice})"'
    return "_files" if one.is_file else " "


def _option(one: Argument) -> list[str]:
    more = ":*-*" if one.many else ""  # words up to the next option
    value = f"{more}:{_escaped(one.value)}:{_value(one)}" if one.value else ""
    return [_quoted(f"{name}[{_escaped(one.help)}]{value}") for name in one.options]


def _positional(place: int, one: Argument) -> str:
    where = "*" if one.many else f"{place + 1}"
    return _quoted(f"{where}:{_escaped(one.value)}:{_value(one)}")


def _command(one: Command) -> str:
    words = [word for option in one.options for word in _option(option)]
    words += [_positional(place, positional) for place, positional in enumerate(one.positionals)]
    lines = " \\\n".join(f"                {word}" for word in words)
    return f"        {one.name})\n            _arguments \\\n{lines} ;;\n"


def completion() -> str:
    known = commands()
    first = " \\\n".join(f"        {word}" for option in options() for word in _option(option))
    return (
        _HEAD
        + "".join(f"        {_quoted(f'{one.name}:{one.summary}')}\n" for one in known)
        + f"    )\n    _arguments -C \\\n{first} \\\n        '1:command:->command' '*::argument:->argument'\n"
        + "    case $state in\n        command) _describe command commands; return ;;\n        argument) ;;\n"
        + "        *) return ;;\n    esac\n    case $line[1] in\n"
        + "".join(map(_command, known))
        + '    esac\n}\n\n_bahrufaz "$@"\n'
    )
