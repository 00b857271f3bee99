"""A graph with its constraints: made in code, or read from a .feed file."""

from __future__ import annotations

from pathlib import Path
from typing import Iterable, NamedTuple

from . import feed, library
from .files import write_whole
from .names import Names
from .numbers import Refused
from .records import (
    MAX_CONSTRAINTS,
    MAX_EDGES,
    MAX_KEY_LABELS,
    MAX_LABEL,
    MAX_N,
    MAX_NODES,
    MAX_VALUE,
    MIN_VALUE,
    Constraint,
    Sections,
    draft_bytes,
    draft_of,
)
from .store import AdmittedStore, Store
from .text import read_text
from .whole import within
from .wrong import WrongGraph, WrongName


class Node(NamedTuple):
    """A node record; its id is its position."""

    label: int
    value: int = 0


class Graph:
    """Nodes, edges and constraints, with names for labels and nodes.

    Labels and nodes may be given by name or by number everywhere. What no store can hold is refused
    as it is added.
    """

    def __init__(self) -> None:
        self.names = Names()
        self.nodes: list[Node] = []
        self.edges: set[tuple[int, int]] = set()
        self.constraints: list[Constraint] = []
        self._last_label = 0

    def __repr__(self) -> str:
        return f"<Graph: {len(self.nodes)} nodes, {len(self.edges)} edges, {len(self.constraints)} constraints>"

    def add_label(self, name: str, number: int | None = None) -> int:
        """Names a label; without a number it takes the one after the label added before."""
        wanted = within("the number of a label", self._last_label + 1 if number is None else number, 1, MAX_LABEL)
        self.names.labels.add(wanted, name)
        self._last_label = wanted
        return wanted

    def _label(self, label: str | int) -> int:
        return within("the number of a label", self.names.labels.number(label), 1, MAX_LABEL)

    def _node(self, node: str | int) -> int:
        number = self.names.nodes.number(node)
        if not 0 <= number < len(self.nodes):
            raise WrongName(f"no node has the id {number}: there are {len(self.nodes)} nodes, from id 0")
        return number

    def add_node(self, name: str | None, label: str | int, value: int = 0) -> int:
        """Adds a node and returns its id; None leaves it without a name."""
        node = Node(self._label(label), within("a value", value, MIN_VALUE, MAX_VALUE))
        if len(self.nodes) == MAX_NODES:
            raise WrongGraph(f"a store has at most {MAX_NODES:,} nodes")
        if name is not None:
            self.names.nodes.add(len(self.nodes), name)
        self.nodes.append(node)
        return len(self.nodes) - 1

    def add_edge(self, start: str | int, end: str | int) -> None:
        edge = self._node(start), self._node(end)
        if edge[0] == edge[1]:
            raise WrongGraph(f"an edge joins two different nodes, and {self._shown(edge)} does not")
        if edge in self.edges:
            raise WrongGraph(f"the edge {self._shown(edge)} is there already")
        if len(self.edges) == MAX_EDGES:
            raise WrongGraph(f"a store has at most {MAX_EDGES:,} edges")
        self.edges.add(edge)

    def _shown(self, edge: tuple[int, int]) -> str:
        return " -> ".join(map(self.names.nodes.spelled, edge))

    def add_constraint(self, key_labels: Iterable[str | int], label: str | int, most: int) -> None:
        """S → (l, N): for one node of each key label, at most so many nodes of the label."""
        if isinstance(key_labels, (str, int)):
            raise WrongGraph(f"the labels of a key are given as a list: [{key_labels!r}]")
        key = sorted(map(self._label, key_labels))
        if len(key) > MAX_KEY_LABELS or len(set(key)) < len(key):
            raise WrongGraph(f"a constraint has at most {MAX_KEY_LABELS} labels before ->, each once")
        one = Constraint(tuple(key), self._label(label), within("N", most, 1, MAX_N))
        if any(had[:2] == one[:2] for had in self.constraints):
            raise WrongGraph("a constraint between the same labels is there already")
        if len(self.constraints) == MAX_CONSTRAINTS:
            raise WrongGraph(f"a store has at most {MAX_CONSTRAINTS} constraints")
        self.constraints.append(one)

    def draft(self) -> bytes:
        """The bytes of the draft: a store without its index."""
        return draft_bytes(self.nodes, self.edges, self.constraints)

    def build(self) -> AdmittedStore:
        """The store, built by the library; Refused where it refuses, with the list that is too long."""
        try:
            return AdmittedStore.built(self.draft(), self.names)
        except Refused as refused:
            if refused.number == 4:
                refused.detail = self._too_long()
            raise

    def _too_long(self) -> str:
        """Which lists exceed their N: the lists of a build in which every N is the largest."""
        widest = [one._replace(most=MAX_N) for one in self.constraints]
        try:
            built = Store(library.build(draft_bytes(self.nodes, self.edges, widest)))
        except Refused:  # with 11: the lists cannot be built at all
            return ""
        told = []
        for one, (_, length, key) in zip(self.constraints, built.longest_lists()):
            if length > one.most:
                nodes = ", ".join(map(self.names.nodes.spelled, key)) or "the empty key"
                told.append(f"{self.names.constraint(one)}: the list of {nodes} has {length}")
        return "\n".join(told)

    @classmethod
    def of_bytes(cls, data: bytes, names: Names | None = None) -> Graph:
        """The graph of a store or draft whose records the library finds right; else Refused."""
        library.check_header(data)
        check_records(draft_of(data))
        graph, sections = cls(), Sections(data)
        graph.names = names or Names()
        graph.nodes = [Node(*node) for node in sections.nodes]
        graph.edges = set(sections.edges)
        graph.constraints = sections.constraints
        return graph

    @classmethod
    def of_text(cls, text: str, file: str = "text") -> Graph:
        """The graph of a .feed text."""
        graph = cls()
        feed.fill(graph, text, file)
        return graph

    @classmethod
    def read(cls, path: str | Path) -> Graph:
        """Reads a .feed file."""
        return cls.of_text(read_text(path), str(path))

    def text(self) -> str:
        """The .feed text: read again, it gives the same draft and the same names."""
        return feed.text_of(self.names, self.nodes, self.edges, self.constraints)

    def write(self, path: str | Path) -> None:
        """Writes a .feed file, whole or not at all."""
        write_whole(path, self.text())


def check_records(draft: bytes) -> None:
    """Refuses with 2 or 3 where the library finds a record or a constraint wrong."""
    try:
        library.build(draft)
    except Refused as refused:
        if refused.number in (2, 3):
            raise
