"""Two listings compared: what one has and the other has not."""

from __future__ import annotations

from typing import NamedTuple, Sequence

from .calls import Listing
from .text import alike, spelled
from .wrong import WrongName


class Compared(NamedTuple):
    """What is in both listings, by the columns that are compared, and what is in one of them alone."""

    columns: list[str]
    both: int
    first_only: list[tuple[str, ...]]
    second_only: list[tuple[str, ...]]


def compare(first: Listing, second: Listing, by: Sequence[str] = ()) -> Compared:
    """Compares two listings by these pattern nodes, or by all whose names both patterns have."""
    names = first.pattern.node_names(), second.pattern.node_names()
    columns = list(by) or [name for name in names[0] if name in names[1]]
    if not columns:
        raise WrongName("the two patterns have no node of the same name to compare by")
    for column in columns:
        for had in names:
            if column not in had:
                raise WrongName(f"no pattern node is named {spelled(column)} in both patterns{alike(column, had)}")
    one, other = (_distinct(listing, columns) for listing in (first, second))
    return Compared(
        columns,
        sum(row in other for row in one),
        [row for row in one if row not in other],
        [row for row in other if row not in one],
    )


def _distinct(listing: Listing, columns: Sequence[str]) -> dict[tuple[str, ...], None]:
    """The different rows of these columns, in the order they come in."""
    places = [listing.pattern.node_names().index(column) for column in columns]
    rows = dict.fromkeys(tuple(row[place] for place in places) for row in listing.rows)
    name = listing.store.names.nodes.name
    return dict.fromkeys(tuple(map(name, row)) for row in rows)
