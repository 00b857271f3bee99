"""Pictures of patterns, plans and matches."""

from __future__ import annotations

from typing import Iterable, KeysView, NamedTuple

from .calls import Listing, Plan, Row
from .dot import GREY, Picture, attributes, digraph, fill_of, quoted
from .names import Names
from .pattern import Pattern, conditions_text
from .store import Store
from .tables import UNCHECKED, counted

_FETCH = "#1f5fa8"
_FEW = 8  # up to so many matches are drawn large, with some of their neighbours
_NEAR = 3


class _Roles(NamedTuple):
    """A pattern with the names that its labels have."""

    pattern: Pattern
    names: Names

    def label(self, node: int) -> tuple[str, str]:
        """The label of a pattern node, as text, and its colour."""
        label = self.pattern.nodes[node].label
        if isinstance(label, int):
            return self.names.labels.name(label), fill_of(label)
        known = self.pattern.labels if label in self.pattern.labels else self.names.labels
        return label, fill_of(known.number(label)) if label in known else "white"

    def name(self, node: int) -> str:
        """How DOT names a pattern node: a title that a reader meets."""
        return quoted(self.pattern.names.spelled(node))

    def node(self, node: int, *more: str) -> str:
        label, fill = self.label(node)
        name, conditions = self.pattern.names.name(node), self.pattern.nodes[node].conditions
        lines = [name, label if label != name else "", conditions_text(conditions), *more]
        return f"{self.name(node)} {attributes(label=_lines(lines), fillcolor=fill)}"

    def edge(self, start: int, end: int, **given: object) -> str:
        return f"{self.name(start)} -> {self.name(end)}" + (f" {attributes(**given)}" if given else "")


def _lines(lines: Iterable[str]) -> str:
    return "\n".join(line for line in lines if line)


def _titled(pattern: Pattern, title: str) -> list[str]:
    """The question that a pattern asks, where its text begins with one, and what it is called."""
    return [pattern.question, title] if pattern.question and title else [pattern.question or title or "pattern"]


def draw_pattern(pattern: Pattern, names: Names | None = None, title: str = "", titled: bool = True) -> Picture:
    """The nodes that are looked for, with their conditions, and the edges between them."""
    roles = _Roles(pattern, names or Names())
    body = [roles.node(node) for node in range(len(pattern.nodes))]
    body += [roles.edge(*edge) for edge in pattern.edge_list]
    return Picture(digraph(_titled(pattern, title) if titled else [], {}, body), "the pattern")


def draw_plan(plan: Plan, title: str = "") -> Picture:
    """The pattern with what each step reads at most; dashed arrows show from where a node is fetched."""
    roles, body = _Roles(plan.pattern, plan.store.names), []
    figures = {row.number: row.figure for row in plan if not row.is_edge}
    for step, row in enumerate(plan, 1):
        told = f"step {step}: {_product(plan, row, figures)}"
        if row.is_edge:
            body.append(roles.edge(*plan.pattern.edge_list[row.number], label=told))
            continue
        body.append(roles.node(row.number, told))
        why = {"label": _promise(plan, row), "style": "dashed", "color": _FETCH, "fontcolor": _FETCH}
        body += [roles.edge(chosen, row.number, **why, constraint="false") for chosen in row.chosen]
        if not row.chosen:
            start = quoted(f"from nothing, step {step}")
            body.append(f"{start} {attributes(label=why['label'], shape='plaintext', style='', fontcolor=_FETCH)}")
            body.append(f"{start} -> {roles.name(row.number)} {attributes(style='dashed', color=_FETCH)}")
    terms = " + ".join(f"{row.figure:,}" for row in plan)
    told = f"T = {terms} = {plan.bound:,}: at most {counted(plan.bound, 'entry', 'entries')} read, however large the graph is"
    key = "step: what it reads at most; dashed and blue: a constraint, and the node it is fetched from"
    return Picture(digraph([*_titled(plan.pattern, title), told, key], {}, body), f"the plan, T = {plan.bound}")


def _promise(plan: Plan, row: Row) -> str:
    """What a constraint promises, in words."""
    one = plan.store.constraints[row.constraint]
    label = plan.store.names.labels.name(one.label)
    if not row.chosen:
        return f"all {label} nodes: at most {one.most:,}"
    of = " and ".join(map(plan.pattern.names.name, row.chosen))
    return f"each {of}: at most {one.most:,}"


def _product(plan: Plan, row: Row, figures: dict[int, int]) -> str:
    """The figure of a row, and how it is made up."""
    factors = [figures[node] for node in row.chosen] + [plan.store.constraints[row.constraint].most]
    if len(factors) == 1:
        return f"at most {row.figure:,}"
    return f"at most {' × '.join(f'{one:,}' for one in factors)} = {row.figure:,}"


class _Scene(NamedTuple):
    """What is drawn of a listing: matched nodes with their roles, edges of matches, neighbours."""

    roles: dict[int, list[str]]
    matched: set[tuple[int, int]]
    near: list[int]
    left_out: dict[int, int]
    elsewhere: set[int]
    edges: list[tuple[int, int]]
    large: bool


def _scene(listing: Listing, most: int, near: int | None) -> _Scene:
    names, edges = listing.pattern.node_names(), listing.store.sections.edges
    large = min(most, listing.matches) <= _FEW
    near = (_NEAR if large else 0) if near is None else near
    roles: dict[int, list[str]] = {}
    matched: set[tuple[int, int]] = set()
    for row in listing.rows[:most]:
        for node, role in zip(row, names):
            if role not in roles.setdefault(node, []):
                roles[node].append(role)
        matched.update((row[start], row[end]) for start, end in listing.pattern.edge_list)
    around = _neighbours(edges, roles.keys())
    near_by = {other for others in around.values() for other in sorted(others)[:near]}
    left_out = {node: len(others - near_by) for node, others in around.items()} if near else {}
    shown = roles.keys() | near_by
    elsewhere = {node for row in listing.rows[most:] for node in row} - roles.keys() if near_by else set()
    drawn = [edge for edge in edges if edge in matched or near and edge[0] in shown and edge[1] in shown]
    return _Scene(roles, matched, sorted(near_by), left_out, elsewhere, drawn, large)


def _neighbours(edges: list[tuple[int, int]], matched: KeysView[int]) -> dict[int, set[int]]:
    """For each matched node, its neighbours that are not matched."""
    around: dict[int, set[int]] = {node: set() for node in matched}
    for start, end in edges:
        if start in around and end not in around:
            around[start].add(end)
        elif end in around and start not in around:
            around[end].add(start)
    return around


def draw_matches(listing: Listing, most: int = 50, near: int | None = None, title: str = "") -> Picture:
    """The nodes of the first matches with their roles; round few matches, in grey, some of their neighbours."""
    scene, store = _scene(listing, most, near), listing.store
    name = store.names.nodes.spelled
    body = [_matched_node(scene, store, node) for node in sorted(scene.roles)]
    body += [_near_node(scene, store, node) for node in scene.near]
    for start, end in scene.edges:
        style: dict[str, object] = {"penwidth": 2} if (start, end) in scene.matched else {"color": GREY}
        body.append(f"{quoted(name(start))} -> {quoted(name(end))} {attributes(**style)}")
    told = [*_titled(listing.pattern, title), shown_of(listing, most), _unread(store)]
    told += [] if listing.admitted else [UNCHECKED]
    tall = len(scene.roles) > 3 * len(listing.pattern.nodes)
    return Picture(digraph(told, _legend(listing, scene), body, portrait=tall), shown_of(listing, most))


def _legend(listing: Listing, scene: _Scene) -> dict[str, str]:
    """What the colours say: the label of each pattern node, and whether a node is in a match."""
    roles = _Roles(listing.pattern, listing.store.names)
    told = {}
    for node in range(len(listing.pattern.nodes)):
        label, fill = roles.label(node)
        own = listing.pattern.names.name(node)
        told[label if own == label else f"{own}: {label}"] = fill
    return {**told, **({"grey: a neighbour, in no match": "white"} if scene.near else {})}


def _unread(store: Store) -> str:
    """What there is to be read in all."""
    counts = store.counts
    entries = counted(counts.entries, "entry", "entries")
    return f"the store has {entries} in its index; its {counted(counts.edges, 'edge', 'edges')} were not read"


def _matched_node(scene: _Scene, store: Store, node: int) -> str:
    label = store.sections.nodes[node][0]
    other = [role for role in scene.roles[node] if role != store.names.labels.name(label)]
    more = [f"as {', '.join(other)}"] if other and scene.large else []
    if scene.left_out.get(node):
        more.append(counted(scene.left_out[node], "more neighbour", "more neighbours"))
    text = _node_text(store, node, *more) if scene.large else store.names.nodes.name(node)
    shape = {} if scene.large else {"height": 0.3, "margin": "0.12,0.04"}
    return f"{_dot_name(store, node)} {attributes(label=text, fillcolor=fill_of(label), penwidth=2, **shape)}"


def _near_node(scene: _Scene, store: Store, node: int) -> str:
    more = {"style": "rounded,dashed"} if node in scene.elsewhere else {}
    text = _node_text(store, node, *(["in a match not drawn"] if more else []))
    return f"{_dot_name(store, node)} {attributes(label=text, color=GREY, fontcolor=GREY, **more)}"


def _dot_name(store: Store, node: int) -> str:
    return quoted(store.names.nodes.spelled(node))


def _node_text(store: Store, node: int, *more: str) -> str:
    records, labels = store.sections.nodes, store.names.labels
    told = [store.names.nodes.name(node)]
    if node < len(records):
        label, value = records[node]
        told.append(f"{labels.name(label)}, value {value}" if value else labels.name(label))
    return "\n".join([*told, *more])


def shown_of(listing: Listing, most: int) -> str:
    """How many matches a picture shows of how many, and what was read for them."""
    matches = counted(listing.matches, "match", "matches") if listing.matches else "no match"
    shown = matches if listing.matches <= most else f"the first {most:,} of {matches}"
    return f"{shown}; {counted(listing.entries, 'entry', 'entries')} read of at most {listing.bound:,}"
