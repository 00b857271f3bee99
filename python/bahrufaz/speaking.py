"""What the command says: answers on standard output, what goes wrong on standard error, and its exit status."""

from __future__ import annotations

import codecs
import contextlib
import json
import os
import sys
from typing import Iterable

from . import tables
from .numbers import Refused
from .text import visible_lines

ANSWERED, REFUSED, WRONG_USE = 0, 1, 2
INTERRUPTED = 130


def prepare_streams() -> None:
    """What a terminal cannot show is written as in JSON; files and pipes get UTF-8, as the text forms are."""
    codecs.register_error("as in JSON", _as_in_json)
    if sys.stderr is None:  # closed: what would be said there is not said
        sys.stderr = open(os.devnull, "w", encoding="utf-8")
    for stream in (sys.stdout, sys.stderr):
        if hasattr(stream, "reconfigure"):
            stream.reconfigure(encoding=None if stream.isatty() else "utf-8", errors="as in JSON")


def _as_in_json(error: UnicodeError) -> tuple[str, int]:
    """What cannot be written, in the escapes of JSON."""
    if not isinstance(error, UnicodeEncodeError):
        raise error
    return json.dumps(error.object[error.start : error.end])[1:-1], error.end


def abandon_stdout() -> None:
    """What could not be written is not tried again at the end."""
    with contextlib.suppress(OSError):
        os.dup2(os.open(os.devnull, os.O_WRONLY), sys.stdout.fileno())


def emit(lines: Iterable[str]) -> None:
    """Prints lines as they are made."""
    sys.stdout.writelines(f"{line}\n" for line in lines)


def complain(message: str) -> None:
    _tell(f"bahrufaz: {line}" for line in visible_lines(message).split("\n"))


def _tell(lines: Iterable[str]) -> None:
    """Says lines on standard error; where nobody can hear them, they are not said."""
    try:
        sys.stderr.writelines(f"{line}\n" for line in lines)
        sys.stderr.flush()
    except OSError:
        sys.stderr = open(os.devnull, "w", encoding="utf-8")


def tell_refusal(refused: Refused, as_json: bool) -> None:
    if as_json:
        emit(tables.refusal_json(refused))
    complain(str(refused))
    _tell(f"  {line}" for line in visible_lines(f"{refused.detail}\n{refused.advice}").split("\n") if line)
