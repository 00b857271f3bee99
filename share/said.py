"""What the command says about itself: its commands, and what each takes. Man page and completions are made from it."""

from __future__ import annotations

import argparse
import sys
from pathlib import Path
from typing import NamedTuple

CHECKOUT = Path(__file__).resolve().parents[1]
sys.path.insert(0, str(CHECKOUT / "python"))

from bahrufaz.arguments import parser  # noqa: E402  (the package of this checkout is meant)

# the endings of the files that an argument of this name takes; any other file may be given too
_ENDINGS = {
    "STORE": ("store", "feed"),
    "PATTERN": ("pat", "bin"),
    "GRAPH": ("feed",),
    "FEED": ("feed",),
    "CSV": ("csv",),
    "FILE": (),
}


class Argument(NamedTuple):
    """An option, or what stands without one."""

    options: tuple[str, ...]
    value: str
    choices: tuple[str, ...]
    help: str
    is_file: bool
    endings: tuple[str, ...]
    optional: bool
    many: bool


class Command(NamedTuple):
    """A command: its name, what it does, an example, and what it takes."""

    name: str
    summary: str
    example: list[str]
    options: list[Argument]
    positionals: list[Argument]


def _argument(action: argparse.Action) -> Argument:
    value = (action.metavar or action.dest).upper() if action.nargs != 0 else ""
    return Argument(
        tuple(action.option_strings),
        value,
        tuple(map(str, action.choices or ())),
        (action.help or "") % {**vars(action), "prog": "bahrufaz"},
        value in _ENDINGS,
        _ENDINGS.get(value, ()),
        action.nargs in ("?", "*"),
        action.nargs in ("+", "*"),
    )


def arguments(of: argparse.ArgumentParser) -> list[Argument]:
    """The arguments of a parser, without its commands and those that its help leaves out."""
    shown = [action for action in of._actions if action.help != argparse.SUPPRESS]
    return [_argument(action) for action in shown if not isinstance(action, argparse._SubParsersAction)]


def _in_place(positionals: list[Argument]) -> list[Argument]:
    """The same, each with what its place may hold: where one may be left out, the next one too."""
    told = list(positionals)
    for place, (one, following) in enumerate(zip(positionals, positionals[1:])):
        if one.optional:
            told[place] = one._replace(endings=one.endings + following.endings)
    return told


def _command(name: str, summary: str, one: argparse.ArgumentParser) -> Command:
    taken = arguments(one)
    return Command(
        name,
        summary,
        [line.strip() for line in (one.epilog or "").splitlines()[1:]],
        [argument for argument in taken if argument.options],
        _in_place([argument for argument in taken if not argument.options]),
    )


def options() -> list[Argument]:
    """The options that stand before any command."""
    return arguments(parser())


def commands() -> list[Command]:
    """The commands in the order of the help."""
    (choice,) = (a for a in parser()._actions if isinstance(a, argparse._SubParsersAction))
    summaries = {action.dest: action.help or "" for action in choice._choices_actions}
    return [_command(name, summaries[name], one) for name, one in choice.choices.items()]
