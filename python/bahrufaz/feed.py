"""The .feed text of a graph with its constraints. docs/FORMATS.md specifies it."""

from __future__ import annotations

import re
from typing import Callable, Iterable, Protocol, Sequence

from .lines import NAME, Line, Mistakes, meant, sorted_lines, take_edge, take_label_name, take_lines, take_node_name, unquoted
from .names import Names
from .records import MAX_CONSTRAINTS, MAX_EDGES, MAX_LABEL, MAX_N, MAX_NODES, MAX_VALUE, MIN_VALUE, Constraint
from .text import WHOLE_NUMBER, aligned, spelled
from .wrong import WrongGraph, WrongName, WrongText

# Node and edge lines as they mostly are; any other is looked at word by word.
_NODE = re.compile(rf"\s*node\s+({NAME})\s+({NAME})(?:\s+value\s*=\s*(-?[0-9]{{1,10}}))?\s*(?:#.*)?")
_EDGE = re.compile(rf"\s*edge\s+({NAME})\s+(?:->|→)\s+({NAME})\s*(?:#.*)?")


_MOST_LINES = {
    "label": MAX_LABEL,
    "node": MAX_NODES,
    "no": MAX_NODES,
    "edge": MAX_EDGES,
    "constraint": MAX_CONSTRAINTS,
}


class Fed(Protocol):
    """What a text is put into: a graph."""

    names: Names

    @property
    def nodes(self) -> Sequence[tuple[int, int]]: ...

    def add_label(self, name: str, number: int | None = None) -> int: ...

    def add_node(self, name: str | None, label: str | int, value: int = 0) -> int: ...

    def add_edge(self, start: str | int, end: str | int) -> None: ...

    def add_constraint(self, key_labels: Iterable[str | int], label: str | int, most: int) -> None: ...


def fill(graph: Fed, text: str, file: str) -> None:
    """Puts a text into an empty graph; labels, nodes, edges and constraints may stand in any order."""
    mistakes = Mistakes(file)
    lines = sorted_lines(text, _MOST_LINES, "label, node, edge or constraint", mistakes, "a store")
    take_lines(lines["label"], _label_line, graph, mistakes, _stand_in_label)
    take_lines(_unusual(lines["node"], _quick_node, graph, mistakes), _node_line, graph, mistakes, _stand_in_node)
    take_lines(lines["no"], _no_nodes_line, graph, mistakes)
    take_lines(_unusual(lines["edge"], _quick_edge, graph, mistakes), _edge_line, graph, mistakes)
    take_lines(lines["constraint"], _constraint_line, graph, mistakes)
    if not (lines["node"] or lines["no"]):
        mistakes.add_if_none(lines, "expected a node line: a graph without nodes says so, by the line 'no nodes'")
    mistakes.tell()


def _unusual(
    lines: Iterable[tuple[int, str]], quick: Callable[[str, Fed], bool], graph: Fed, mistakes: Mistakes
) -> Iterable[tuple[int, str]]:
    """Takes the lines as they mostly are at once, and gives those that are left, each in its turn."""
    for number, line in lines:
        try:
            taken = quick(line, graph)
        except (WrongText, WrongName, WrongGraph):
            taken = False
        if not taken:
            yield number, line


def _quick_node(line: str, graph: Fed) -> bool:
    found = _NODE.fullmatch(line)
    if not found:
        return False
    name, label, value = found.groups()
    if WHOLE_NUMBER.fullmatch(name):
        return False
    graph.add_node(_name(name), _meant(label), int(value) if value else 0)
    return True


def _quick_edge(line: str, graph: Fed) -> bool:
    found = _EDGE.fullmatch(line)
    if not found:
        return False
    graph.add_edge(_meant(found[1]), _meant(found[2]))
    return True


def _name(name: str) -> str:
    """A name, quoted or not."""
    return unquoted(name, "", 0) if name[0] == '"' else name


def _meant(name: str) -> str | int:
    """A name, quoted or not; a bare number is a number."""
    return int(name) if WHOLE_NUMBER.fullmatch(name) and len(name) < 20 else _name(name)


def _label_line(line: Line, graph: Fed) -> None:
    name, number = take_label_name(line), None
    if line.peek():
        number = line.whole_number(f"the number of label {spelled(name)}", 1, MAX_LABEL)
    line.end()
    graph.add_label(name, number)


def _stand_in_label(name: str, graph: Fed) -> None:
    labels = graph.names.labels
    if name and name not in labels:
        taken = {number for number, _ in labels.items()}
        labels.add(next(number for number in range(MAX_LABEL, 0, -1) if number not in taken), name)


def _node_line(line: Line, graph: Fed) -> None:
    name = take_node_name(line, len(graph.nodes))
    label, value = meant(line.take("a label")), 0
    if line.peek():
        line.want("value", "=")
        value = line.whole_number("a value", MIN_VALUE, MAX_VALUE)
    line.end()
    graph.add_node(name, label, value)


def _stand_in_node(name: str, graph: Fed) -> None:
    graph.add_node(name if name and name not in graph.names.nodes else None, 1)


def _no_nodes_line(line: Line, graph: Fed) -> None:
    line.want("nodes")
    line.end()
    if graph.nodes:
        raise line.error("expected no node line beside 'no nodes'")


def _edge_line(line: Line, graph: Fed) -> None:
    graph.add_edge(*take_edge(line))


def _constraint_line(line: Line, graph: Fed) -> None:
    key: list[str | int] = []
    if not line.skip("->"):
        key.append(meant(line.take("a label or ->")))
        while line.skip(","):
            key.append(meant(line.take("a label")))
        line.want("->")
    label = meant(line.take("a label"))
    line.want("at", "most")
    most = line.whole_number("N", 1, MAX_N)
    line.end()
    graph.add_constraint(key, label, most)


def text_of(
    names: Names,
    nodes: Sequence[tuple[int, int]],
    edges: Iterable[tuple[int, int]],
    constraints: Iterable[Constraint],
) -> str:
    """The text of a graph."""
    spellings = [names.nodes.spelled(place) for place in range(len(nodes))]
    labels = {label: names.labels.spelled(label) for label, _ in set(nodes)}
    parts = [
        aligned((f"label {spelled(name)}", str(number)) for number, name in names.labels.items()),
        aligned(_node_words(name, labels[label], value) for name, (label, value) in zip(spellings, nodes)) or ["no nodes"],
        [f"edge {spellings[start]} -> {spellings[end]}" for start, end in sorted(edges)],
        [f"constraint {names.constraint(one)}" for one in constraints],
    ]
    return "\n\n".join("\n".join(part) for part in parts if part) + "\n"


def _node_words(name: str, label: str, value: int) -> list[str]:
    words = [f"node {name}", label]
    return words + [f"value = {value}"] if value else words
