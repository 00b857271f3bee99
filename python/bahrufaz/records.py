"""Stores, drafts and patterns as bytes: records and their places, as the exact rules have them."""

from __future__ import annotations

import itertools
import struct
import sys
from array import array
from functools import cached_property
from typing import Iterable, Iterator, NamedTuple, Sequence

MAX_NODES = 65_535
MAX_EDGES = 262_144
MAX_CONSTRAINTS = 32
MAX_LABEL = 65_535
MAX_N = 65_535
MIN_VALUE, MAX_VALUE = -(1 << 31), (1 << 31) - 1
MAX_KEY_LABELS = 3
MAX_PATTERN_NODES = 8
MAX_PATTERN_EDGES = 56
MAX_PATTERN_BYTES = 264  # 24 for the header, 16 for each of 8 nodes, 2 for each of 56 edges
MAX_STORE_BYTES = 17_301_928
MAX_CONDITIONS = 2
OPERATORS = ("=", "<", ">", "<=", ">=")  # codes 1 to 5; 0 is none
NO_NODE = 0xFFFF_FFFF  # an unused id of a group
NO_CHOSEN = 255  # an unused chosen node of a plan row

_HEADER = struct.Struct("<12I")
_NODE = struct.Struct("<HHi")
_EDGE = struct.Struct("<II")
_CONSTRAINT = struct.Struct("<4HI")
_GROUP = struct.Struct("<6I")
_RECORD_BYTES = (_NODE.size, _EDGE.size, _CONSTRAINT.size, _GROUP.size, 8)
_PATTERN_HEADER = struct.Struct("<6I")
_PATTERN_NODE = struct.Struct("<H2B2iI")


class Constraint(NamedTuple):
    """S → (l, N): key_labels, label and most."""

    key_labels: tuple[int, ...]
    label: int
    most: int


class Condition(NamedTuple):
    """What a node's value must meet: an operator and a constant."""

    operator: str
    constant: int


class Counts(NamedTuple):
    """How many records each section of a store has."""

    nodes: int
    edges: int
    constraints: int
    groups: int
    entries: int


class Sections:
    """The records of a store whose header is right, a section at a time as they are asked for."""

    def __init__(self, store: bytes):
        self._store, self._words = store, _HEADER.unpack_from(store)

    def _part(self, section: int) -> memoryview:
        return memoryview(self._store)[self._words[6 + section] : self._words[7 + section]]

    @cached_property
    def nodes(self) -> list[tuple[int, int]]:
        return [(label, value) for label, _, value in _NODE.iter_unpack(self._part(0))]

    @cached_property
    def edges(self) -> list[tuple[int, int]]:
        return list(_EDGE.iter_unpack(self._part(1)))  # type: ignore[arg-type]

    @cached_property
    def constraints(self) -> list[Constraint]:
        records = _CONSTRAINT.iter_unpack(self._part(2))
        return [Constraint(tuple(label for label in key if label), label, most) for *key, label, most in records]

    def lists(self) -> Iterator[tuple[int, int]]:
        """The constraint and the length of each list, in group order."""
        words = array("I", self._part(3).tobytes())
        if sys.byteorder == "big":
            words.byteswap()
        return zip(words[0::6], words[5::6])

    def key(self, group: int) -> tuple[int, ...]:
        """The nodes of a group's key."""
        ids = _GROUP.unpack_from(self._part(3), group * _GROUP.size)[1:4]
        return tuple(node for node in ids if node != NO_NODE)


def _header(counts: Sequence[int]) -> bytes:
    """The header that these counts of records force."""
    ends = [_HEADER.size]
    for count, size in zip(counts, _RECORD_BYTES):
        ends.append(ends[-1] + count * size)
    return _HEADER.pack(1, *counts, *ends)


def draft_bytes(
    nodes: Sequence[tuple[int, int]],
    edges: Iterable[tuple[int, int]],
    constraints: Sequence[Constraint],
) -> bytes:
    """The draft of nodes (label, value), edges in any order, and constraints."""
    edges = sorted(edges)
    parts = [_header((len(nodes), len(edges), len(constraints), 0, 0))]
    parts += [_NODE.pack(label, 0, value) for label, value in nodes]
    parts.append(struct.pack(f"<{2 * len(edges)}I", *itertools.chain.from_iterable(edges)))
    for key_labels, label, most in constraints:
        padded = tuple(key_labels) + (0,) * (MAX_KEY_LABELS - len(key_labels))
        parts.append(_CONSTRAINT.pack(*padded, label, most))
    return b"".join(parts)


def draft_of(store: bytes) -> bytes:
    """The draft of a store whose header is right: the same without its index."""
    words = _HEADER.unpack_from(store)
    return _header((*words[1:4], 0, 0)) + store[_HEADER.size : words[9]]


def bytes_said(data: bytes) -> int | None:
    """How long a store is by its header, if this begins like one."""
    if len(data) < _HEADER.size or int.from_bytes(data[:4], "little") != 1:
        return None
    words = _HEADER.unpack_from(data)
    return words[11] if words[6] == _HEADER.size else None


def is_draft(store: bytes) -> bool:
    """Whether a store whose header is right has neither groups nor entries."""
    return counts_of(store)[3:] == (0, 0)


def counts_of(store: bytes) -> Counts:
    """The counts in the header of a store."""
    return Counts(*_HEADER.unpack_from(store)[1:6])


def pattern_bytes(
    nodes: Sequence[tuple[int, Sequence[Condition]]], edges: Iterable[tuple[int, int]]
) -> bytes:
    """A pattern of nodes (label, conditions) and edges in any order."""
    edges = sorted(edges)
    at_edges = _PATTERN_HEADER.size + _PATTERN_NODE.size * len(nodes)
    total = at_edges + 2 * len(edges)
    parts = [_PATTERN_HEADER.pack(1, len(nodes), len(edges), _PATTERN_HEADER.size, at_edges, total)]
    for label, conditions in nodes:
        codes, constants = [0, 0], [0, 0]
        for place, (operator, constant) in enumerate(conditions):
            codes[place], constants[place] = OPERATORS.index(operator) + 1, constant
        parts.append(_PATTERN_NODE.pack(label, *codes, *constants, 0))
    parts += [bytes(edge) for edge in edges]
    return b"".join(parts)


def pattern_of(
    data: bytes,
) -> tuple[list[tuple[int, list[Condition]]], list[tuple[int, int]]]:
    """Nodes and edges of a pattern that breaks no rule."""
    _, p, _, at_nodes, at_edges, total = _PATTERN_HEADER.unpack_from(data)
    nodes = []
    for record in _PATTERN_NODE.iter_unpack(data[at_nodes : at_nodes + _PATTERN_NODE.size * p]):
        label, codes, constants = record[0], record[1:3], record[3:5]
        conditions = [Condition(OPERATORS[c - 1], k) for c, k in zip(codes, constants) if c]
        nodes.append((label, conditions))
    pairs = data[at_edges:total]
    return nodes, list(zip(pairs[0::2], pairs[1::2]))
