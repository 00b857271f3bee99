"""The man page: bahrufaz.1.in with the version and the commands put in."""

from __future__ import annotations

import re

from said import CHECKOUT, Argument, Command, commands


def _roff(text: str) -> str:
    """Text in which nothing is taken for a request."""
    text = text.replace("\\", "\\e").replace("-", "\\-")
    return re.sub(r"^([.'])", r"\\&\1", text, flags=re.MULTILINE)


def _argument(one: Argument) -> str:
    value = f" \\fI{_roff(one.value)}\\fR" if one.value else ""
    if one.choices:
        value = " " + "|".join(f"\\fB{_roff(choice)}\\fR" for choice in one.choices)
    names = ", ".join(f"\\fB{_roff(option)}\\fR{value}" for option in one.options) or value.strip()
    return f".TP\n{names}\n{_roff(one.help)}\n"


def _command(one: Command) -> str:
    taken = one.positionals + [option for option in one.options if "--help" not in option.options]
    example = "".join(f"{_roff(line)}\n" for line in one.example)
    return (
        f".SS {one.name}\n{_roff(one.summary[:1].upper() + one.summary[1:])}.\n"
        f".PP\n.nf\n.RS\n{example}.RE\n.fi\n"
        f"{''.join(map(_argument, taken))}"
    )


def page() -> str:
    template = (CHECKOUT / "share" / "bahrufaz.1.in").read_text(encoding="utf-8")
    version = (CHECKOUT / "VERSION").read_text(encoding="utf-8").strip()
    return template.replace("@VERSION@", version).replace("@COMMANDS@\n", "".join(map(_command, commands())))
