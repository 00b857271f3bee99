"""What a command may write over: nothing that it was given, and nothing of another kind, unless it is forced to."""

from __future__ import annotations

import argparse
import os
import sys
from pathlib import Path
from typing import Callable

from . import library
from .dot import PICTURES
from .files import is_special, read_most, write_whole
from .namesfile import NAMES_HEAD, names_path, other_owner
from .numbers import Refused
from .pattern import check_pattern
from .records import MAX_STORE_BYTES
from .report import REPORT_HEAD
from .wrong import Wrong

STDOUT = "-"
# the arguments that name a file to be read
_INPUTS = ("graph", "store", "pattern", "first", "second", "patterns", "file", "nodes", "names")
STORE, PATTERN, NAMES, REPORT = "a store", "a pattern", "a file of names", "a report"
# what the name of a file says that it is, by its ending; the texts are read as such by every command
_TEXTS = {".feed": "the text of a graph", ".pat": "the text of a pattern", ".names": NAMES}
_SAID = {**_TEXTS, ".store": STORE}
_BEGINS = {
    NAMES: (NAMES_HEAD.encode(),),
    REPORT: (REPORT_HEAD.encode(),),
    PICTURES[".dot"]: (b"digraph",),
    PICTURES[".svg"]: (b"<?xml", b"<svg"),
    PICTURES[".png"]: (b"\x89PNG",),
    PICTURES[".pdf"]: (b"%PDF",),
}


def inputs_of(asked: argparse.Namespace) -> list[str]:
    """The files that a command reads, as they are named."""
    named = [getattr(asked, name, None) or [] for name in _INPUTS]
    return [path for one in named for path in ([one] if isinstance(one, str) else one)]


def put(path: str | None, content: bytes | str) -> None:
    """Writes to the file that is named, else to standard output."""
    if path is not None and path != STDOUT:
        write_whole(path, content)
    elif isinstance(content, str):
        sys.stdout.write(content)
    else:
        sys.stdout.buffer.write(content)


def check_bytes(asked: argparse.Namespace, kind: str) -> None:
    """Bytes may be written over bytes of the same kind; their name may not say something else."""
    suffix = Path(asked.output).suffix
    said = _SAID.get(suffix, kind)
    if said != kind:
        raise Wrong(f"{asked.output}: {kind} is to be written, and {suffix} is {said}")
    _check_place(asked.output, kind, asked)
    if asked.output == STDOUT and sys.stdout.isatty():
        raise Wrong(f"the bytes of {kind} are not for a terminal: name a file, or write to a pipe")


def check_text(asked: argparse.Namespace, suffix: str) -> None:
    """A text that someone may have typed is not written over."""
    if asked.output in (None, STDOUT):
        return
    if Path(asked.output).suffix != suffix and not is_special(asked.output):
        raise Wrong(f"{asked.output}: -o names a text, and its name must end in {suffix}")
    _check_place(asked.output, "", asked)


def check_picture(asked: argparse.Namespace) -> None:
    """A picture may be written over one of the same kind."""
    if asked.output in (None, STDOUT):
        return
    kind = PICTURES.get(Path(asked.output).suffix)
    if kind is None and not is_special(asked.output):
        raise Wrong(f"{asked.output}: the name of a picture ends in one of {', '.join(PICTURES)}")
    _check_place(asked.output, kind or "", asked)


def check_report(asked: argparse.Namespace) -> None:
    """A report may be written over a report."""
    if asked.output == STDOUT:
        return
    if Path(asked.output).suffix not in (".html", ".htm") and not is_special(asked.output):
        raise Wrong(f"{asked.output}: the name of a report ends in .html")
    _check_place(asked.output, REPORT, asked)


def check_names(asked: argparse.Namespace) -> None:
    """The names beside a store may be written over names, but not over those of another store."""
    beside = str(names_path(asked.output))
    _check_place(beside, NAMES, asked)
    owner = other_owner(asked.output)
    if owner and not asked.force:
        raise Wrong(f"{beside} has the names of {owner}: name the store otherwise, or give --force to write over them")


def _check_place(path: str, kind: str, asked: argparse.Namespace) -> None:
    """Nothing is there, or something of the kind that no one has given; no kind may be written over."""
    if os.path.isdir(path):
        raise Wrong(f"{path} is a directory")
    if asked.force or not os.path.exists(path) or is_special(path):
        return
    if any(os.path.exists(one) and os.path.samefile(one, path) for one in inputs_of(asked)):
        raise Wrong(f"{path} is read by this command: name another file, or give --force to write over it")
    if not kind:
        raise Wrong(f"{path} is there already: give --force to write over it")
    if not _is(kind, path):
        raise Wrong(f"{path} is there already and is not {kind}: give --force to write over it")


def _is(kind: str, path: str) -> bool:
    data = read_most(path, MAX_STORE_BYTES)
    if kind in _BEGINS:
        return data.startswith(_BEGINS[kind])
    return is_store(data) if kind == STORE else _accepted(check_pattern, data)


def is_store(data: bytes) -> bool:
    """Whether the header of a store or draft is there and right."""
    return _accepted(library.check_header, data)


def _accepted(check: Callable[[bytes], None], data: bytes) -> bool:
    try:
        check(data)
    except Refused:
        return False
    return True
