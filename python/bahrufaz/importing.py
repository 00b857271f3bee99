"""Graphs from elsewhere: edge lists in CSV, GraphML, and networkx where it is installed."""

from __future__ import annotations

import csv
import io
from pathlib import Path
from typing import Any, Callable, Iterator, NamedTuple, Sequence

from .graph import Graph
from .graphml import read_graphml
from .lines import Token
from .reading import by_content, bytes_of, shown
from .text import MAX_TEXT_BYTES, shortened, text_of
from .wrong import Wrong, WrongGraph, WrongName, WrongText

_ENDS = (("from", "to"), ("source", "target"))
_DELIMITERS = ",;\t"
_GRAPHML = (".graphml", ".xml")


class Keys(NamedTuple):
    """Under which column or attribute a node has its name, its label and its value."""

    name: str | None = None
    label: str = "label"
    value: str = "value"


class Imported(NamedTuple):
    """A graph, and what was done to make it one."""

    graph: Graph
    notes: list[str]


class _Maker:
    """Puts nodes and edges into a graph; labels are numbered as they come."""

    def __init__(self, label: str | None):
        self.graph = Graph()
        self._label = label
        self._repeated = 0

    def node(self, name: str, label: str | None, value: str | None) -> None:
        label = label or self._label
        if not label:
            raise WrongGraph("the node has no label: give --label NAME for nodes without one")
        if label not in self.graph.names.labels:
            self.graph.add_label(label)
        self.graph.add_node(name, label, _whole(value))

    def edge(self, start: str, end: str) -> None:
        """Adds an edge; one that is there already is counted and left out."""
        nodes = self.graph.names.nodes
        edge = nodes.number(start), nodes.number(end)
        if edge in self.graph.edges:
            self._repeated += 1
        else:
            self.graph.add_edge(*edge)

    def made(self, *notes: str) -> Imported:
        told = [f"{self._repeated} repeated edges were left out"] if self._repeated else []
        return Imported(self.graph, [*notes, *told])


def _whole(value: str | None) -> int:
    number = Token("word", value).number if value else 0
    if number is None:
        raise WrongGraph(f"a value is a whole number, and {shortened(str(value))} is none")
    return number


def import_file(file: str, nodes: str | None, label: str | None, keys: Keys) -> Imported:
    """A graph from a file: GraphML if its name or its beginning says so, else an edge list in CSV."""
    data = bytes_of(file, MAX_TEXT_BYTES)
    if Path(file).suffix in _GRAPHML or (by_content(file) and data.lstrip()[:1] == b"<"):
        return _import_graphml(data, shown(file), label, keys)
    return _import_csv(text_of(data, shown(file)), shown(file), nodes, label, keys)


def import_csv(
    edges: str | Path, nodes: str | Path | None = None, label: str | None = None, keys: Keys = Keys()
) -> Imported:
    """A graph from a CSV file of edges (from, to), and one of nodes (name, label, value)."""
    return _import_csv(_read(edges), str(edges), nodes, label, keys)


def _read(file: str | Path) -> str:
    return text_of(bytes_of(str(file), MAX_TEXT_BYTES), shown(str(file)))


def _import_csv(text: str, file: str, nodes: str | Path | None, label: str | None, keys: Keys) -> Imported:
    maker = _Maker(label)
    if nodes:
        _add_csv_nodes(maker, nodes, keys, (keys.label.lower(),) if not label else ())
    elif not label:
        raise Wrong("an edge list says nothing about labels: give --nodes FILE, or --label NAME for all nodes")
    rows = _csv_rows(text, file, _ENDS)
    head = next(rows)[1]
    start, end = next([head.index(one) for one in ends] for ends in _ENDS if set(ends) <= set(head))
    for line, cells in rows:
        ends = cells[start].strip(), cells[end].strip()
        new = [] if nodes else [name for name in dict.fromkeys(ends) if name not in maker.graph.names.nodes]
        for name in new:
            _at(file, line, maker.node, name, None, None)
        _at(file, line, maker.edge, *ends)
    return maker.made()


def _add_csv_nodes(maker: _Maker, nodes: str | Path, keys: Keys, wanted: tuple[str, ...]) -> None:
    name, label, value = (keys.name or "name").lower(), keys.label.lower(), keys.value.lower()
    rows = _csv_rows(_read(nodes), str(nodes), [(name, *wanted)])
    head = next(rows)[1]
    at_name, at_label, at_value = (head.index(key) if key in head else None for key in (name, label, value))
    for line, cells in rows:
        own = [None if at is None else cells[at].strip() for at in (at_name, at_label, at_value)]
        _at(nodes, line, maker.node, *own)


def _at(file: str | Path, line: int, work: Callable[..., None], *arguments: Any, of: str = "") -> None:
    """Does the work; what is wrong about it names file and line, and what it is about."""
    try:
        work(*arguments)
    except (WrongGraph, WrongName) as error:
        raise WrongText(str(file), line, f"{of}{error}") from None


def _csv_rows(text: str, file: str, wanted: Sequence[tuple[str, ...]]) -> Iterator[tuple[int, list[str]]]:
    """The columns in small letters, among them one of the wanted sets, then the rows with their lines."""
    first = text.partition("\n")[0]
    rows = _csv_cells(file, text, max(_DELIMITERS, key=first.count))
    head = [column.strip().lower() for column in next(rows, (1, []))[1]]
    if not any(set(columns) <= set(head) for columns in wanted):
        columns = " or ".join(", ".join(columns) for columns in wanted)
        raise WrongText(file, 1, f"expected a first line with the columns {columns}, found '{shortened(first)}'")
    yield 1, head
    for line, cells in rows:
        if len(cells) != len(head):
            raise WrongText(file, line, f"expected {len(head)} columns, found {len(cells)}")
        yield line, cells


def _csv_cells(file: str, text: str, delimiter: str) -> Iterator[tuple[int, list[str]]]:
    """The rows that have something in them, each with the line it starts at; a quoted cell may have line feeds."""
    reader = csv.reader(io.StringIO(text), delimiter=delimiter, strict=True)
    line = 1
    try:
        for cells in reader:
            if any(cells):
                yield line, cells
            line = reader.line_num + 1
    except csv.Error as error:
        raise WrongText(file, line, f"expected CSV: {error}") from None


def import_graphml(file: str | Path, label: str | None = None, keys: Keys = Keys()) -> Imported:
    """A graph from GraphML, as networkx and yEd write it."""
    return _import_graphml(bytes_of(str(file), MAX_TEXT_BYTES), str(file), label, keys)


def _import_graphml(data: bytes, file: str, label: str | None, keys: Keys) -> Imported:
    if len(data) > MAX_TEXT_BYTES:
        raise Wrong(f"{file}: a text has at most {MAX_TEXT_BYTES:,} bytes, and this has more")
    read, maker = read_graphml(data, file), _Maker(label)
    drawn = [node.drawn for node in read.nodes]
    by_text = all(drawn) and len(set(drawn)) == len(drawn)
    names: dict[str, str] = {}
    for node in read.nodes:
        own = read.defaults | node.data
        name = own.get(keys.name, node.id) if keys.name else node.drawn if by_text else node.id
        names[node.id] = name
        _at(file, node.line, maker.node, name, own.get(keys.label), own.get(keys.value), of=f"node {node.id}: ")
    undirected = False
    for edge in read.edges:
        ends = [names.get(end, end) for end in edge[:2]]
        _at(file, edge.line, maker.edge, *ends, of=f"edge {edge.source} -> {edge.target}: ")
        if not edge.directed:
            undirected = True
            _at(file, edge.line, maker.edge, *reversed(ends))
    return maker.made(*(["undirected edges were written both ways"] if undirected else []))


def from_networkx(network: Any, label: str = "label", value: str = "value") -> Graph:
    """A graph from one of networkx: its nodes need a label, and may have a value.

    Edges of an undirected network are taken both ways; parallel ones once.
    """
    maker = _Maker(None)
    for node, attributes in network.nodes(data=True):
        if label not in attributes:
            raise WrongGraph(f"node {node} has no attribute '{label}'")
        maker.node(str(node), str(attributes[label]), str(attributes.get(value, 0)))
    for start, end in network.edges():
        maker.edge(str(start), str(end))
        if not network.is_directed():
            maker.edge(str(end), str(start))
    return maker.graph


def to_networkx(graph: Graph) -> Any:
    """A networkx.DiGraph: nodes by name, or by id where there is none, with label and value."""
    try:
        import networkx  # type: ignore[import]
    except ImportError:
        raise Wrong("networkx is not installed: install it, or write GraphML with another tool") from None
    network = networkx.DiGraph()
    names, labels = graph.names.nodes, graph.names.labels
    for node, (label, value) in enumerate(graph.nodes):
        network.add_node(names.name(node), label=labels.name(label), value=value)
    network.add_edges_from((names.name(start), names.name(end)) for start, end in sorted(graph.edges))
    return network
