"""What the commands read: stores, graphs and patterns, from files or from standard input."""

from __future__ import annotations

import argparse
import contextlib
import re
import sys
from pathlib import Path
from typing import Iterator

from . import library
from .files import is_special, read_most
from .graph import Graph
from .names import Names
from .namesfile import NAMES_HEAD, names_path, read_names
from .numbers import Refused
from .pattern import Pattern, check_pattern
from .records import MAX_PATTERN_BYTES, MAX_STORE_BYTES, bytes_said, draft_of
from .store import Store
from .text import MAX_TEXT_BYTES, text_of
from .wrong import Wrong, WrongName, WrongText

STDIN = "-"
_OF_PATTERN = (6, 7, 8, 9, 10)  # refusals that a pattern is the reason of
_LINE = re.compile(r"^\s*(?:(?:label|node|edge|constraint)\s|#)", re.MULTILINE)


def shown(path: str) -> str:
    """A file as messages name it."""
    return "standard input" if path == STDIN else path


def bytes_of(path: str, most: int) -> bytes:
    """The bytes of a file or of standard input, at most one more than there may be."""
    if path != STDIN:
        return read_most(path, most)
    if sys.stdin is None:
        raise Wrong("standard input is closed")
    return sys.stdin.buffer.read(most + 1)


def by_content(path: str) -> bool:
    """Whether what is read has no name that says what it is: standard input, or another pipe."""
    return path == STDIN or is_special(path)


def kind_of(data: bytes) -> str:
    """What the bytes of a file seem to be; nothing if they seem to be nothing known."""
    for check, kind in ((library.check_header, "a store"), (check_pattern, "a pattern")):
        with contextlib.suppress(Refused):
            check(data)
            return kind
    try:
        beginning = data[:4096].decode("utf-8", "strict" if len(data) <= 4096 else "ignore")
    except UnicodeDecodeError:
        return ""
    if beginning.startswith(NAMES_HEAD):
        return "a file of names"
    return "text" if beginning and _LINE.search(beginning) else ""


def is_feed(path: str) -> bool:
    return Path(path).suffix == ".feed"


def is_pat(path: str) -> bool:
    return Path(path).suffix == ".pat"


def _refuse_kind(path: str, kind: str, wanted: str, order: str) -> None:
    """Says what a file is where something else is asked for."""
    hint = f": {order}" if order else ""
    if kind == "text":
        ending = ".pat" if wanted == "a pattern" else ".feed"
        hint = f": name it {Path(path).stem}{ending}"
    raise Wrong(f"{shown(path)} is {kind}, and {wanted} is asked for{hint}")


def order_of(asked: argparse.Namespace) -> str:
    """How the arguments of the command follow one another, where they can be swapped."""
    if not (hasattr(asked, "store") and hasattr(asked, "pattern")):
        return ""
    order = ("PATTERN", "STORE") if asked.command == "pattern" else ("STORE", "PATTERN")
    return f"give them as bahrufaz {asked.command} {' '.join(order)}"


def graph_of(path: str, data: bytes | None = None) -> Graph:
    """The graph of a .feed text."""
    if is_pat(path):
        raise Wrong(f"{path} is the text of a pattern, and a graph is asked for")
    data = bytes_of(path, MAX_TEXT_BYTES) if data is None else data
    if not is_feed(path) and kind_of(data) in ("a store", "a pattern", "a file of names"):
        _refuse_kind(path, kind_of(data), "the text of a graph", "")
    with about(path):
        return Graph.of_text(text_of(data, shown(path)), shown(path))


def store_of(asked: argparse.Namespace, built: bool = True) -> Store:
    """The store that is asked about; the text of a graph is built first, or taken as a draft."""
    path = asked.store
    if is_pat(path):
        _refuse_kind(path, "the text of a pattern", "a store or a .feed file", order_of(asked))
    if not is_feed(path):
        data = bytes_of(path, MAX_TEXT_BYTES if by_content(path) else MAX_STORE_BYTES)
        if not by_content(path) or kind_of(data) != "text":
            return store_of_bytes(path, data, asked)
        graph = graph_of(path, data)
    else:
        graph = graph_of(path)
    with about(path):
        return graph.build() if built else Store(graph.draft(), graph.names)


def store_of_bytes(path: str, data: bytes, asked: argparse.Namespace) -> Store:
    """The store or draft that a file holds, with the names that are asked for."""
    check_store_bytes(path, data, order_of(asked))
    if asked.no_names or (path == STDIN and not asked.names):
        return Store(data, Names())
    if asked.names:
        return Store(data, _names(asked.names, data))
    beside = names_path(path)
    return Store(data, read_names(beside, data) if beside.exists() else None)


def check_store_bytes(path: str, data: bytes, order: str = "") -> None:
    """Refuses what is no store: as something else if it is that, as cut if it is, else with 1."""
    try:
        with about(path):
            library.check_header(data)
    except Refused as refused:
        if kind_of(data):
            _refuse_kind(path, kind_of(data), "a store", order)
        refused.detail = _wrong_length(data)
        raise


def _wrong_length(data: bytes) -> str:
    """Whether a store was cut off, or has something behind it."""
    said = bytes_said(data)
    if said is None or said == len(data):
        return ""
    why = "the file was cut off" if len(data) < said else "something stands behind the store"
    return f"its header says {said:,} bytes, and there are {len(data):,}: {why}"


def _names(path: str, store: bytes) -> Names:
    """The names of a store from a .names file of its own, or from the .feed file it was built from."""
    if not is_feed(path):
        return read_names(path, store)
    graph = graph_of(path)
    if graph.draft() != draft_of(store):
        raise Wrong(f"{path} is not the graph of the store: build the store again from it")
    return graph.names


def pattern_of(path: str, order: str = "") -> Pattern:
    """The pattern of a .pat file, of bytes, or of either on standard input."""
    if is_feed(path):
        _refuse_kind(path, "the text of a graph", "a pattern", order)
    if is_pat(path):
        return Pattern.read(path)
    data = bytes_of(path, MAX_TEXT_BYTES if by_content(path) else MAX_STORE_BYTES)
    kind = kind_of(data)
    if by_content(path) and kind == "text":
        return Pattern.of_text(text_of(data, shown(path)), shown(path))
    if kind not in ("", "a pattern"):
        _refuse_kind(path, kind, "a pattern", order)
    with about("", path):
        return Pattern.of_bytes(data[: MAX_PATTERN_BYTES + 1])


@contextlib.contextmanager
def about(store: str = "", pattern: str = "") -> Iterator[None]:
    """Names the file that a refusal is about."""
    try:
        yield
    except Refused as refused:
        refused.file = refused.file or shown(pattern if refused.number in _OF_PATTERN else store)
        raise


@contextlib.contextmanager
def names_hint(store: Store, path: str) -> Iterator[None]:
    """Where a label is not known because the store has no names, says so."""
    try:
        yield
    except (WrongName, WrongText) as error:
        if store.names.labels or "no label is named" not in str(error):
            raise
        beside = names_path(path).name
        raise Wrong(
            f"{error}\n{shown(path)} has no names, since there is no {beside}: give --names FILE, "
            "or the numbers in label lines of the pattern"
        ) from None
