"""The completion for fish."""

from __future__ import annotations

from said import Argument, Command, commands, options


def _quoted(text: str) -> str:
    return "'" + text.replace("\\", "\\\\").replace("'", "\\'") + "'"


def _files(one: Argument) -> str:
    """Arguments that offer files, those with the right endings first."""
    if not one.endings:
        return " -F"
    suffixes = "; ".join(f"__fish_complete_suffix .{ending}" for ending in one.endings)
    return f" -f -k -a {_quoted(f'({suffixes})')}"


def _option(condition: str, one: Argument) -> str:
    names = "".join(f" -l {name[2:]}" if name.startswith("--") else f" -s {name[1:]}" for name in one.options)
    value = ""
    if one.choices:
        value = f" -x -a {_quoted(' '.join(one.choices))}"
    elif one.value:
        value = f" -r{_files(one)}" if one.is_file else " -x"
    return f"complete -c bahrufaz -n {_quoted(condition)}{names}{value} -d {_quoted(one.help)}\n"


def _command(one: Command) -> str:
    condition = f"__fish_seen_subcommand_from {one.name}"
    summary = f"complete -c bahrufaz -n __fish_use_subcommand -f -a {one.name} -d {_quoted(one.summary)}\n"
    files = [
        f"complete -c bahrufaz -n {_quoted(condition)}{_files(positional)}\n"
        for positional in one.positionals
        if positional.is_file
    ]
    return summary + "".join(_option(condition, option) for option in one.options) + "".join(files)


def completion() -> str:
    first = "".join(_option("__fish_use_subcommand", option) for option in options())
    return "# completion of bahrufaz for fish\n" + first + "".join(map(_command, commands()))
