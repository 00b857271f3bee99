"""A pattern: made in code, or read from a .pat file. docs/FORMATS.md specifies the text."""

from __future__ import annotations

from pathlib import Path
from typing import Iterable, NamedTuple, Sequence

from . import library
from .files import read_most, write_whole
from .lines import Line, Mistakes, sorted_lines, take_edge, take_label_name, take_lines, take_node_name
from .names import Names, Naming
from .numbers import Refused
from .records import (
    MAX_CONDITIONS,
    MAX_LABEL,
    MAX_PATTERN_BYTES,
    MAX_PATTERN_EDGES,
    MAX_PATTERN_NODES,
    MAX_VALUE,
    MIN_VALUE,
    OPERATORS,
    Condition,
    pattern_bytes,
    pattern_of,
)
from .text import aligned, read_text, spelled
from .whole import within
from .wrong import WrongGraph, WrongName


class PatternNode(NamedTuple):
    """What a graph node must be: its label, by name or number, and conditions on its value."""

    label: str | int
    conditions: tuple[Condition, ...] = ()


class Pattern:
    """Nodes and edges that are looked for. Labels by name get their numbers from a store's names."""

    def __init__(self) -> None:
        self.labels = Naming("label")  # what the pattern itself says about label numbers
        self.names = Naming("pattern node")
        self.nodes: list[PatternNode] = []
        self.edges: set[tuple[int, int]] = set()
        self.question = ""  # what a text asks: the comment that it begins with
        self._file = ""
        self._lines: dict[str | int, int] = {}  # where the text says what a label is, and what a node is

    def __repr__(self) -> str:
        asks = f": {self.question}" if self.question else ""
        return f"<Pattern of {len(self.nodes)} nodes and {len(self.edges)} edges{asks}>"

    def add_node(
        self, name: str | None, label: str | int, conditions: Iterable[tuple[str, int]] = ()
    ) -> int:
        """Adds a node, as add_node("place", "locale", [("=", 2)]), and returns its number."""
        if not isinstance(label, str):
            label = within("the number of a label", label, 1, MAX_LABEL)
        node = PatternNode(label, tuple(map(_checked, conditions)))
        if len(node.conditions) > MAX_CONDITIONS:
            raise WrongGraph(f"a pattern node has at most {MAX_CONDITIONS} conditions")
        if len(self.nodes) == MAX_PATTERN_NODES:
            raise WrongGraph(f"a pattern has at most {MAX_PATTERN_NODES} nodes")
        if name is not None:
            self.names.add(len(self.nodes), name)
        self.nodes.append(node)
        return len(self.nodes) - 1

    def _node(self, node: str | int) -> int:
        number = self.names.number(node)
        if not 0 <= number < len(self.nodes):
            raise WrongName(f"no pattern node has the number {number}")
        return number

    def add_edge(self, start: str | int, end: str | int) -> None:
        edge = self._node(start), self._node(end)
        shown = " -> ".join(map(self.names.spelled, edge))
        if edge[0] == edge[1]:
            raise WrongGraph(f"an edge joins two different nodes, and {shown} does not")
        if edge in self.edges:
            raise WrongGraph(f"the edge {shown} is there already")
        self.edges.add(edge)

    @property
    def is_of_text(self) -> bool:
        """Whether it was read from a text, and not from bytes or made in code."""
        return bool(self._file)

    @property
    def edge_list(self) -> list[tuple[int, int]]:
        """The edges in pattern order."""
        return sorted(self.edges)

    def node_names(self) -> list[str]:
        """The names of the nodes, in pattern order."""
        return [self.names.spelled(node) for node in range(len(self.nodes))]

    def encode(self, names: Names | None = None) -> bytes:
        """The bytes of the pattern; names give the numbers of labels that the pattern names."""
        return pattern_bytes(self.label_numbers(names), self.edges)

    def label_numbers(self, names: Names | None = None) -> list[tuple[int, tuple[Condition, ...]]]:
        """The number of each node's label, and its conditions."""
        known, nodes, mistakes = names.labels if names else Naming("label"), [], Mistakes(self._file)
        for place, (label, conditions) in enumerate(self.nodes):
            try:
                nodes.append((self._label_number(label, known), conditions))
            except WrongName as error:
                if not self._file:
                    raise
                mistakes.add(self._lines.get(label, 0) or self._lines[place], str(error))
        mistakes.tell()
        return nodes

    def _label_number(self, label: str | int, known: Naming) -> int:
        if isinstance(label, int):
            return label
        if label not in self.labels:
            return known.number(label)
        own = self.labels.number(label)
        if label in known and known.number(label) != own:
            raise WrongName(
                f"label {spelled(label)} is {own} in the pattern and {known.number(label)} in the graph"
            )
        return own

    @classmethod
    def of_bytes(cls, data: bytes) -> Pattern:
        """The pattern of bytes that the library finds right; else Refused, with 6."""
        check_pattern(data)
        pattern = cls()
        nodes, edges = pattern_of(data)
        pattern.nodes = [PatternNode(label, tuple(conditions)) for label, conditions in nodes]
        pattern.edges = set(edges)
        return pattern

    @classmethod
    def of_text(cls, text: str, file: str = "text") -> Pattern:
        """The pattern of a .pat text."""
        pattern, mistakes = cls(), Mistakes(file)
        pattern._file, pattern.question = file, _first_comment(text)
        most = {"label": MAX_LABEL, "node": MAX_PATTERN_NODES, "edge": MAX_PATTERN_EDGES}
        lines = sorted_lines(text, most, "label, node or edge", mistakes, "a pattern")
        take_lines(lines["label"], _label_line, pattern, mistakes, _stand_in_label)
        take_lines(lines["node"], _node_line, pattern, mistakes, _stand_in_node)
        take_lines(lines["edge"], _edge_line, pattern, mistakes)
        if not lines["node"]:
            mistakes.add_if_none(lines, "expected a node line: a pattern has at least one node")
        mistakes.tell()
        return pattern

    @classmethod
    def read(cls, path: str | Path) -> Pattern:
        """Reads a .pat file; any other is read as the bytes of a pattern."""
        if Path(path).suffix == ".pat":
            return cls.of_text(read_text(path), str(path))
        return cls.of_bytes(read_most(path, MAX_PATTERN_BYTES))

    def text(self, names: Names | None = None) -> str:
        """The .pat text; names spell the labels that are numbers."""
        known = names or Names()
        parts = [
            aligned((f"label {spelled(name)}", str(number)) for number, name in self.labels.items()),
            aligned(self._node_words(place, known) for place in range(len(self.nodes))),
            [f"edge {' -> '.join(map(self.names.spelled, edge))}" for edge in self.edge_list],
        ]
        return "\n\n".join("\n".join(part) for part in parts if part) + "\n"

    def _node_words(self, place: int, names: Names) -> list[str]:
        label, conditions = self.nodes[place]
        shown = names.labels.spelled(label) if isinstance(label, int) else spelled(label)
        words = [f"node {self.names.spelled(place)}", shown]
        return words + [conditions_text(conditions)] if conditions else words

    def write(self, path: str | Path, names: Names | None = None) -> None:
        """Writes a .pat file, whole or not at all."""
        write_whole(path, self.text(names))


def _first_comment(text: str) -> str:
    """The comment of the first line."""
    first = text.partition("\n")[0].strip()
    return first.lstrip("#").strip() if first.startswith("#") else ""


def _checked(condition: tuple[str, int]) -> Condition:
    """A condition that a pattern can hold."""
    if not isinstance(condition, tuple) or len(condition) != 2:
        raise WrongGraph(f"conditions are a list of pairs, as [('=', 2)], and {condition!r} is no pair")
    operator, constant = condition
    if operator not in OPERATORS:
        raise WrongGraph(f"a condition has one of the signs {' '.join(OPERATORS)}, and not {operator!r}")
    return Condition(operator, within("a constant", constant, MIN_VALUE, MAX_VALUE))


def conditions_text(conditions: Sequence[Condition]) -> str:
    """Conditions as the text form has them."""
    return " and ".join(f"value {operator} {constant}" for operator, constant in conditions)


def check_pattern(data: bytes) -> None:
    """Refuses with 6 where the library finds that the pattern breaks its rules."""
    try:
        library.plan(_EMPTY_STORE, data)
    except Refused as refused:
        if refused.number == 6:
            raise


_EMPTY_STORE = b"".join(word.to_bytes(4, "little") for word in [1, 0, 0, 0, 0, 0] + [48] * 6)


def _label_line(line: Line, pattern: Pattern) -> None:
    name = take_label_name(line)
    pattern.labels.add(line.whole_number(f"the number of label {spelled(name)}", 1, MAX_LABEL), name)
    line.end()
    pattern._lines[name] = line.line


def _stand_in_label(name: str, pattern: Pattern) -> None:
    if name not in pattern.labels:
        pattern.labels.add(-len(pattern.labels), name)


def _node_line(line: Line, pattern: Pattern) -> None:
    name = take_node_name(line, len(pattern.nodes))
    label = _label(line)
    conditions = [_condition(line)] if line.peek() else []
    while line.skip("and"):
        conditions.append(_condition(line))
    line.end()
    pattern._lines[pattern.add_node(name, label, conditions)] = line.line


def _stand_in_node(name: str, pattern: Pattern) -> None:
    pattern.add_node(name if name and name not in pattern.names else None, 1)


def _label(line: Line) -> str | int:
    token = line.peek()
    if token and token.number is not None:
        return line.whole_number("a label", 1, MAX_LABEL)
    return line.take("a label").text


def _condition(line: Line) -> Condition:
    line.want("value")
    operator = line.choose(OPERATORS, "one of = < > <= >=")
    return Condition(operator, line.whole_number("a constant", MIN_VALUE, MAX_VALUE))


def _edge_line(line: Line, pattern: Pattern) -> None:
    pattern.add_edge(*take_edge(line))
