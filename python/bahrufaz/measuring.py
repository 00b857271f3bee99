"""Constraints that hold in a graph today, each with its smallest N, measured by the library."""

from __future__ import annotations

from typing import Iterable, Sequence

from . import library
from .graph import Graph
from .numbers import Refused
from .pattern import Pattern
from .records import MAX_CONSTRAINTS, MAX_N, Constraint, draft_bytes
from .store import Store
from .wrong import Wrong


def measure(graph: Graph) -> list[Constraint]:
    """For each label, and for each two labels that are neighbours somewhere, the longest list as N.

    What the graph has a constraint for already, and what needs too large an index, is left out.
    """
    return _measured(graph, _between(graph) | {((), label) for label, _ in set(graph.nodes)})


def measure_for(graph: Graph, patterns: Iterable[Pattern]) -> list[Constraint]:
    """Few constraints that hold today and with which, beside those of the graph, each pattern is covered.

    Refused with 7 where a pattern cannot be covered so, or with 8 where T is then too large.
    """
    chosen: list[Constraint] = []
    for pattern in patterns:
        data = pattern.encode(graph.names)
        wanted = _wanted(graph, pattern) - {one[:2] for one in chosen}
        offered = sorted(_measured(graph, wanted), key=lambda one: one.most)
        chosen += _used(graph, chosen, offered, data)
    if len(graph.constraints) + len(chosen) > MAX_CONSTRAINTS:
        raise Wrong(
            f"these patterns need {len(chosen)} constraints beside the {len(graph.constraints)} that are there, "
            f"and a store has at most {MAX_CONSTRAINTS}: give fewer patterns"
        )
    return sorted(chosen)


def _between(graph: Graph) -> set[tuple[tuple[int, ...], int]]:
    """Both ways round, the labels of nodes that are neighbours."""
    labels = [label for label, _ in graph.nodes]
    pairs = {(labels[start], labels[end]) for start, end in graph.edges}
    return {((one,), other) for one, other in pairs} | {((other,), one) for one, other in pairs}


def _wanted(graph: Graph, pattern: Pattern) -> set[tuple[tuple[int, ...], int]]:
    """What may serve a pattern: its labels from nothing, and along its edges both ways."""
    labels = [label for label, _ in pattern.label_numbers(graph.names)]
    pairs = {(labels[start], labels[end]) for start, end in pattern.edges}
    return {((), label) for label in labels} | {
        ((one,), other) for pair in pairs for one, other in (pair, pair[::-1])
    }


def _used(graph: Graph, chosen: Sequence[Constraint], offered: Sequence[Constraint], pattern: bytes) -> list[Constraint]:
    """Those of the offered constraints that the plan of the pattern goes by, beside what is there."""
    there = [*graph.constraints, *chosen]
    constraints = [*there, *offered][:MAX_CONSTRAINTS]
    rows = library.plan(draft_bytes([], [], constraints), pattern).rows
    return [constraints[place] for place in sorted({row[3] for row in rows}) if place >= len(there)]


def _measured(graph: Graph, wanted: Iterable[tuple[tuple[int, ...], int]]) -> list[Constraint]:
    there = {one[:2] for one in graph.constraints}
    asked = [Constraint(key, label, MAX_N) for key, label in sorted(wanted) if (key, label) not in there]
    told = []
    for start in range(0, len(asked), MAX_CONSTRAINTS):
        told += _measured_together(graph, asked[start : start + MAX_CONSTRAINTS])
    return told


def _measured_together(graph: Graph, asked: list[Constraint]) -> list[Constraint]:
    try:
        built = Store(library.build(draft_bytes(graph.nodes, graph.edges, asked)))
    except Refused:  # with 11: too much at once
        half = len(asked) // 2
        return _measured_together(graph, asked[:half]) + _measured_together(graph, asked[half:]) if half else []
    # a list may be empty everywhere, and N is at least 1
    return [one._replace(most=max(length, 1)) for one, (_, length, _) in zip(asked, built.longest_lists())]
