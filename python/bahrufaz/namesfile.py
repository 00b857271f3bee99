"""The .names file beside a store, which keeps the names of its labels and nodes. docs/FORMATS.md specifies it."""

from __future__ import annotations

import hashlib
import re
from functools import cached_property
from pathlib import Path
from typing import Callable

from .lines import NAME, Line, numbered_lines, tokens_of, unquoted
from .names import Names, Naming
from .records import MAX_LABEL, MAX_NODES
from .text import WORD, aligned, read_text, spelled
from .wrong import Wrong, WrongName, WrongText

NAMES_HEAD = "# names of labels and nodes of one store"
_MOST_LINES = 2 * (MAX_LABEL + MAX_NODES)
_LONG = 1_000  # lines from which on a file is looked into, and not read whole
_PLAIN_NODE = re.compile(rf"node ({WORD}) +([0-9]{{1,5}})")
_ANY_NODE = re.compile(rf"node ({NAME}) +([0-9]{{1,5}})")


def names_path(store: str | Path) -> Path:
    """Where the names of a store stand: world.names for world.store, and draft.bin.names for draft.bin."""
    path = Path(store)
    return path.with_suffix(".names") if path.suffix == ".store" else path.with_name(f"{path.name}.names")


def are_names_of(names: Path, store: Path) -> bool:
    """Whether both files are there, and the one has the names of the other."""
    return names.is_file() and store.is_file() and _sum(store.read_bytes()).encode() in names.read_bytes()


def other_owner(store: str | Path) -> Path | None:
    """The other store whose names stand where those of this one are to stand, if there is such a store.

    world and world.store share world.names.
    """
    path = Path(store)
    other = path.with_suffix("") if path.suffix == ".store" else path.with_name(f"{path.name}.store")
    return other if are_names_of(names_path(store), other) else None


def names_text(names: Names, store: bytes) -> str:
    """The .names file of a store."""
    rows = [
        (f"{naming.what} {spelled(name)}", str(number))
        for naming in (names.labels, names.nodes)
        for number, name in naming.items()
    ]
    head = [NAMES_HEAD, f"store sha256 {_sum(store)}", ""]
    return "\n".join(head + aligned(rows)) + "\n"


def _sum(store: bytes) -> str:
    return hashlib.sha256(store).hexdigest()


def read_names(path: str | Path, store: bytes) -> Names:
    """The names of a store; an error where the file is of another store.

    A long file that has a line for each node in turn is only looked into.
    """
    text = read_text(path)
    if text.count("\n") > _MOST_LINES:
        raise Wrong(f"{path}: a file of names has at most {_MOST_LINES:,} lines")
    lines = text.rstrip("\n").split("\n")
    first = next((place for place, line in enumerate(lines) if line.startswith("node ")), len(lines))
    if len(lines) < _LONG or _node_of(lines[-1])[0] != len(lines) - first - 1:
        return _read_whole(text, str(path), store)
    names = _read_whole("\n".join(lines[:first]), str(path), store)
    names.nodes = _LookedInto(lines[first:], lambda: _read_whole(text, str(path), store).nodes)
    return names


def _node_of(line: str) -> tuple[int, str]:
    """The id and the name that a node line gives; -1 where it is none."""
    found = _ANY_NODE.fullmatch(line)
    if not found:
        return -1, ""
    return int(found[2]), unquoted(found[1], "", 0) if found[1][0] == '"' else found[1]


class _LookedInto(Naming):
    """Names of nodes where they stand in a file, the one of node 0 first; it is read whole if one stands elsewhere."""

    def __init__(self, lines: list[str], read_whole: Callable[[], Naming]):
        self.what = "node"
        self._lines, self._read_whole = lines, read_whole

    @cached_property
    def _whole(self) -> Naming:
        return self._read_whole()

    @property
    def _names(self) -> dict[int, str]:  # type: ignore[override]
        return self._whole._names

    @property
    def _numbers(self) -> dict[str, int]:  # type: ignore[override]
        return self._whole._numbers

    def _name_of(self, number: int) -> str | None:
        if 0 <= number < len(self._lines):
            found, name = _node_of(self._lines[number])
            if found == number:
                return name
        return self._names.get(number)


def _read_whole(text: str, file: str, store: bytes) -> Names:
    names, said = Names(), False
    for number, content in numbered_lines(text):
        if _take_plain_node(content, names.nodes):
            continue
        line = Line(file, number, tokens_of(content, file, number))
        if not line.peek():
            continue
        kind = line.choose(("store", "label", "node"), "store, label or node")
        if kind == "store":
            _check_sum(line, store)
            said = True
        elif kind == "label":
            _take_name(line, names.labels, 1, MAX_LABEL)
        else:
            _take_name(line, names.nodes, 0, MAX_NODES - 1)
        line.end()
    if not said:
        raise WrongText(file, 1, "expected a line 'store sha256 ..', which says whose names these are")
    return names


def _take_plain_node(line: str, nodes: Naming) -> bool:
    """Takes a node line as it mostly is; any other, and a wrong one, is looked at word by word."""
    found = _PLAIN_NODE.fullmatch(line)
    if not found or int(found[2]) >= MAX_NODES:
        return False
    try:
        nodes.add(int(found[2]), found[1])
    except WrongName:
        return False
    return True


def _check_sum(line: Line, store: bytes) -> None:
    line.want("sha256")
    if line.take("the sum of a store").text != _sum(store):
        raise line.error(
            "these are the names of another store: build the store again, or use --names or --no-names"
        )


def _take_name(line: Line, naming: Naming, low: int, high: int) -> None:
    name = line.take(f"the name of a {naming.what}").text
    number = line.whole_number(f"the number of {naming.what} {spelled(name)}", low, high)
    try:
        naming.add(number, name)
    except WrongName as error:
        raise line.error(str(error)) from None
