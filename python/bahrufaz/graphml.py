"""GraphML read as it goes past: nodes and edges with their data, and nothing else of the file kept.

A document that declares entities is refused, since a few lines of them can stand for gigabytes.
"""

from __future__ import annotations

from typing import Any, NamedTuple
from xml.parsers import expat

from .wrong import WrongText

_MAX_CELL = 100_000  # characters of one text


class GraphmlNode(NamedTuple):
    """A node: its id, its data by attribute name, the text that yEd draws in it, and its line."""

    id: str
    data: dict[str, str]
    drawn: str
    line: int


class GraphmlEdge(NamedTuple):
    """An edge between ids of nodes."""

    source: str
    target: str
    directed: bool
    line: int


class _Reader:
    """Takes the parts of a document as expat names them."""

    def __init__(self, file: str):
        self._file, self._parser = file, expat.ParserCreate(namespace_separator="}")
        self.nodes: list[GraphmlNode] = []
        self.edges: list[GraphmlEdge] = []
        self.defaults: dict[str, str] = {}
        self.graphs = 0
        self._names: dict[str, str] = {}  # attribute names by the ids of keys
        self._directed = True
        self._open: list[str] = []
        self._owners: list[Any] = []  # the nodes that are open, innermost last: id, data, drawn text, line
        self._key = self._default_for = ""
        self._text: list[str] | None = None
        self._parser.StartElementHandler = self._start
        self._parser.EndElementHandler = self._end
        self._parser.CharacterDataHandler = self._characters
        self._parser.EntityDeclHandler = self._entity

    def read(self, data: bytes) -> None:
        try:
            self._parser.Parse(data, True)
        except expat.ExpatError as error:
            raise WrongText(self._file, error.lineno, f"expected XML: {expat.ErrorString(error.code)}") from None

    def _error(self, message: str) -> WrongText:
        return WrongText(self._file, self._parser.CurrentLineNumber, message)

    def _entity(self, *_: object) -> None:
        raise self._error("a document with entities of its own is not read")

    def _start(self, tag: str, attributes: dict[str, str]) -> None:
        tag = tag.rpartition("}")[2]
        if not self._open and tag != "graphml":
            raise self._error("expected a <graphml> element with one <graph>")
        if tag == "hyperedge":
            raise self._error("expected edges between two nodes, found a <hyperedge>")
        taker = getattr(self, f"_start_{tag}", None)
        if taker:
            taker(attributes)
        self._open.append(tag)

    def _start_graph(self, attributes: dict[str, str]) -> None:
        if len(self._open) == 1:
            self.graphs += 1
            self._directed = attributes.get("edgedefault", "directed") == "directed"

    def _start_key(self, attributes: dict[str, str]) -> None:
        own = attributes.get("id", "")
        self._names[own] = attributes.get("attr.name") or attributes.get("yfiles.type") or own
        self._key = self._names[own]
        self._default_for = attributes.get("for", "")

    def _start_default(self, _: dict[str, str]) -> None:
        self._text = []

    def _start_node(self, attributes: dict[str, str]) -> None:
        self._owners.append([attributes.get("id", ""), {}, "", self._parser.CurrentLineNumber])

    def _start_edge(self, attributes: dict[str, str]) -> None:
        directed = attributes.get("directed", "true" if self._directed else "false") != "false"
        ends = attributes.get("source", ""), attributes.get("target", "")
        self.edges.append(GraphmlEdge(*ends, directed, self._parser.CurrentLineNumber))

    def _start_data(self, attributes: dict[str, str]) -> None:
        if self._open[-1] == "node":
            self._key, self._text = self._names.get(attributes.get("key", ""), ""), []

    def _start_NodeLabel(self, _: dict[str, str]) -> None:
        self._text = []

    def _characters(self, text: str) -> None:
        if self._text is not None:
            self._text.append(text)
            if len(self._text) * len(text) > _MAX_CELL and sum(map(len, self._text)) > _MAX_CELL:
                raise self._error(f"a text has at most {_MAX_CELL:,} characters")

    def _end(self, tag: str) -> None:
        tag = self._open.pop()
        text = "".join(self._text).strip() if self._text is not None else ""
        if tag == "node":
            node = self._owners.pop()
            self.nodes.append(GraphmlNode(*node))
        elif tag == "default" and self._default_for in ("node", "all"):
            self.defaults[self._key] = text
        elif tag == "NodeLabel" and self._owners and not self._owners[-1][2]:
            self._owners[-1][2] = " ".join(text.split())
        elif tag == "data" and self._open[-1] == "node" and text:
            self._owners[-1][1][self._key] = text
        if tag in ("default", "NodeLabel", "data"):
            self._text = None


def read_graphml(data: bytes, file: str) -> _Reader:
    """The nodes, the edges and the defaults of a document, in its order."""
    reader = _Reader(file)
    reader.read(data)
    if reader.graphs != 1:
        raise WrongText(file, 1, "expected a <graphml> element with one <graph>")
    return reader
