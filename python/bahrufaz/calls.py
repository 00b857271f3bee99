"""Planning and listing over the C boundary, with the names of what they answer."""

from __future__ import annotations

import itertools
from typing import Iterator, NamedTuple

from . import library
from .markup import plain, table
from .pattern import Pattern
from .records import NO_CHOSEN
from .store import AdmittedStore, Store
from .wrong import Wrong

_SHOWN = 50  # matches that a notebook shows


class Row(NamedTuple):
    """A row of a plan; nodes are pattern nodes."""

    is_edge: bool
    number: int
    fetched: int
    constraint: int
    chosen: tuple[int, ...]
    figure: int


class Plan:
    """What listing will read: at most bound entries. Its length, and what it iterates over, are its rows."""

    def __init__(self, store: Store, pattern: Pattern, bound: int, rows: list[Row]):
        self.store, self.pattern, self.bound, self.rows = store, pattern, bound, rows

    def __len__(self) -> int:
        return len(self.rows)

    def __iter__(self) -> Iterator[Row]:
        return iter(self.rows)

    def __getitem__(self, step: int) -> Row:
        return self.rows[step]

    def __repr__(self) -> str:
        return f"<Plan: T = {self.bound}, {len(self)} steps>"

    def _repr_html_(self) -> str:
        """What a notebook shows."""
        head = ("step", "for", "by constraint", "from", "reads at most")
        return f"<p>T = {self.bound:,}</p>{table(head, self.steps(), (4,))}"

    def steps(self) -> Iterator[tuple[int, str, str, str, int]]:
        """Each row by name: its step, what it is for, by which constraint, from which nodes, and its figure."""
        for step, row in enumerate(self.rows, 1):
            chosen = ", ".join(map(self.pattern.names.spelled, row.chosen))
            yield step, self.what(row), self.constraint(row), chosen, row.figure

    def what(self, row: Row) -> str:
        """The pattern node or edge of a row, by name."""
        names = self.pattern.names
        if not row.is_edge:
            return f"node {names.spelled(row.number)}"
        return "edge " + " -> ".join(map(names.spelled, self.pattern.edge_list[row.number]))

    def constraint(self, row: Row) -> str:
        """The constraint of a row, by name."""
        return self.store.names.constraint(self.store.constraints[row.constraint])


class Listing:
    """The matches of a pattern, and what was read for them.

    Its length is the number of matches, and it iterates over them by name; rows has them by node id.
    """

    def __init__(self, store: Store, pattern: Pattern, listed: library.Listed):
        self.store, self.pattern = store, pattern
        self.matches, self.node_entries, self.edge_entries, self.bound, self.rows = listed
        self._columns = pattern.node_names()

    def __len__(self) -> int:
        return self.matches

    def __iter__(self) -> Iterator[dict[str, str]]:
        return self.named()

    def __getitem__(self, place: int) -> dict[str, str]:
        return self._by_name(self.rows[place])

    def __repr__(self) -> str:
        checked = "" if self.admitted else ", unchecked"
        return f"<Listing: {self.matches} matches, {self.entries} entries read of at most {self.bound}{checked}>"

    def _repr_html_(self) -> str:
        """What a notebook shows: the first matches."""
        rows = (list(match.values()) for match in itertools.islice(self, _SHOWN))
        more = f"<p>{self.matches - _SHOWN:,} more</p>" if self.matches > _SHOWN else ""
        return f"<p>{plain(repr(self)[1:-1])}</p>{table(self._columns, rows)}{more}"

    @property
    def admitted(self) -> bool:
        """Whether the store was admitted: else matches may be missing."""
        return isinstance(self.store, AdmittedStore)

    @property
    def entries(self) -> int:
        """All entries that were read: at most the bound."""
        return self.node_entries + self.edge_entries

    def named(self) -> Iterator[dict[str, str]]:
        """Each match as pattern node -> graph node, by name."""
        return map(self._by_name, self.rows)

    def _by_name(self, row: tuple[int, ...]) -> dict[str, str]:
        return dict(zip(self._columns, map(self.store.names.nodes.name, row)))


def plan(store: Store, pattern: Pattern) -> Plan:
    """The plan of a pattern over a store or draft; Refused where there is none."""
    _check("plan", store, pattern)
    bound, rows = library.plan(store.data, pattern.encode(store.names))
    return Plan(store, pattern, bound, [_row(row) for row in rows])


def _row(words: tuple[int, ...]) -> Row:
    kind, number, fetched, constraint, *chosen, figure = words
    return Row(kind == 1, number, fetched, constraint, tuple(c for c in chosen if c != NO_CHOSEN), figure)


def list_matches(store: AdmittedStore, pattern: Pattern, most_words: int = library.MOST_ROOM_WORDS) -> Listing:
    """The matches of a pattern in the whole graph of a store; Refused where there is no plan.

    It takes a store that is admitted, as a built one is: Store.admit() gives it.
    """
    _check("list", store, pattern)
    if not isinstance(store, AdmittedStore):
        raise Wrong(
            "this store is not admitted, so matches may be missing: list(store.admit(), pattern), "
            "or list_unchecked(store, pattern) if that is wanted"
        )
    return list_unchecked(store, pattern, most_words)


def list_unchecked(store: Store, pattern: Pattern, most_words: int = library.MOST_ROOM_WORDS) -> Listing:
    """What the library lists from any store: matches may be missing where it is not admitted.

    Refused where there is no plan, or a list that is read is unfit.
    """
    _check("list_unchecked", store, pattern)
    return Listing(store, pattern, library.list_matches(store.data, pattern.encode(store.names), most_words))


def _check(call: str, store: Store, pattern: Pattern) -> None:
    """Says what was given in place of a store or a pattern."""
    if not isinstance(store, Store):
        hint = ": build() gives the store of a graph" if hasattr(store, "build") else ": Store.read gives one"
        raise Wrong(f"{call} takes a store first, and not a {type(store).__name__}{hint}")
    if not isinstance(pattern, Pattern):
        raise Wrong(f"{call} takes a pattern second, and not a {type(pattern).__name__}: Pattern.read gives one")
