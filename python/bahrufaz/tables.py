"""Answers as tables, CSV and JSON, line by line, so that a long one can be written as it is made."""

from __future__ import annotations

import csv
import io
import itertools
import json
from typing import Any, Callable, Iterable, Iterator, Sequence

from .calls import Listing, Plan
from .numbers import Refused
from .store import AdmittedStore, Store
from .text import text_width, visible

UNCHECKED = "unchecked: whether this store is admitted was not asked, so matches may be missing"


def table(head: Sequence[str], rows: Iterable[Sequence[object]]) -> Iterator[str]:
    """Columns under their heads; columns of numbers stand to the right. The rows are gone through twice."""
    again: Iterable[Sequence[object]] = rows
    if not isinstance(rows, _Again):
        again = list(rows)
    shown = [visible(cell) for cell in head]
    widths, right = [text_width(cell) for cell in shown], [False] * len(head)
    words = [False] * len(head)
    for row in again:
        for at, cell in enumerate(row):
            text = str(cell)
            if isinstance(cell, int):
                right[at] = True
            elif text:
                words[at], text = True, visible(text)
            width = text_width(text)
            if width > widths[at]:
                widths[at] = width
    sides = [number and not word for number, word in zip(right, words)]
    for row in itertools.chain([shown], again):
        yield "  ".join(map(_in_column, row, widths, sides)).rstrip()


def _in_column(cell: object, width: int, right: bool) -> str:
    text = visible(cell) if isinstance(cell, str) else str(cell)
    blanks = " " * (width - text_width(text))
    return blanks + text if right else text + blanks


class _Again:
    """Rows that are made anew each time they are gone through, and never all kept."""

    def __init__(self, make: Callable[[], Iterator[Sequence[object]]]):
        self._make = make

    def __iter__(self) -> Iterator[Sequence[object]]:
        return self._make()


def counted(count: int, one: str, many: str) -> str:
    """So many of something, in words."""
    return f"1 {one}" if count == 1 else f"{count:,} {many}"


def marked(store: Store, lines: Iterable[str]) -> Iterator[str]:
    """An answer about a store; the first line says so where it is not admitted."""
    return itertools.chain([] if isinstance(store, AdmittedStore) else [UNCHECKED], lines)


def csv_lines(head: Sequence[str], rows: Iterable[Sequence[object]]) -> Iterator[str]:
    """A line of columns and a line for each row; a cell with a line feed in it goes over two."""
    for row in itertools.chain([head], rows):
        text = io.StringIO()
        csv.writer(text, lineterminator="").writerow(row)
        yield text.getvalue()


def json_lines(told: dict[str, Any]) -> Iterator[str]:
    """JSON with a line for each member, and for each element of a list of rows."""
    yield "{"
    for left, (name, value) in zip(range(len(told) - 1, -1, -1), told.items()):
        comma = "," if left else ""
        if isinstance(value, _Again) or (isinstance(value, list) and any(isinstance(row, (list, dict)) for row in value)):
            yield f"  {_json(name)}: ["
            yield from _json_rows(value)
            yield f"  ]{comma}"
        else:
            yield f"  {_json(name)}: {_json(value)}{comma}"
    yield "}"


def _json_rows(rows: Iterable[object]) -> Iterator[str]:
    before = None
    for row in rows:
        if before is not None:
            yield f"    {before},"
        before = _json(row)
    if before is not None:
        yield f"    {before}"


def _json(value: Any) -> str:
    return visible(json.dumps(value, ensure_ascii=False))


def refusal_json(refused: Refused) -> Iterator[str]:
    told = {"answer": refused.number, "sentence": refused.sentence, "advice": refused.advice}
    more = {"file": refused.file, "detail": refused.detail}
    return json_lines(told | {name: value for name, value in more.items() if value})


def plan_text(plan: Plan) -> Iterator[str]:
    """The bound, then a row for each step."""
    names = plan.pattern.names
    rows = [
        (
            step,
            plan.what(row),
            names.spelled(row.fetched),
            plan.constraint(row),
            ", ".join(map(names.spelled, row.chosen)),
            row.figure,
        )
        for step, row in enumerate(plan.rows, 1)
    ]
    yield f"T = {plan.bound}: listing reads at most {counted(plan.bound, 'entry', 'entries')}"
    yield ""
    yield from table(("step", "for", "fetches", "by constraint", "from", "figure"), rows)


def plan_json(plan: Plan) -> Iterator[str]:
    names = plan.pattern.names
    rows = [
        {
            "step": step,
            "for": plan.what(row),
            "fetches": names.spelled(row.fetched),
            "constraint": row.constraint,
            "from": [names.spelled(node) for node in row.chosen],
            "figure": row.figure,
        }
        for step, row in enumerate(plan.rows, 1)
    ]
    return json_lines({"answer": 0, "bound": plan.bound, "rows": rows})


def listing_rows(listing: Listing, ids: bool, limit: int | None) -> _Again:
    """The first matches, or all, by name or by id."""
    if ids:
        return _Again(lambda: map(list, itertools.islice(listing.rows, limit)))
    shown = listing.store.names.nodes.name_or_number
    return _Again(lambda: ([shown(node) for node in row] for row in itertools.islice(listing.rows, limit)))


def matches_text(listing: Listing, limit: int | None = None) -> str:
    """How many matches there are, and how many of them are shown."""
    matches = counted(listing.matches, "match", "matches") if listing.matches else "no match"
    cut = limit is not None and limit < listing.matches
    return f"{matches}, the first {limit:,} shown" if cut else matches


def found_and_read(listing: Listing, limit: int | None = None) -> str:
    """How much was found, and what was read for it."""
    return (
        f"{matches_text(listing, limit)}; {counted(listing.entries, 'entry', 'entries')} read of at most {listing.bound:,} "
        f"({listing.node_entries:,} for nodes, {listing.edge_entries:,} for edges)"
    )


def listing_text(listing: Listing, ids: bool, limit: int | None) -> Iterator[str]:
    """What was found and read, then a row for each match."""
    yield from marked(listing.store, [found_and_read(listing, limit)])
    if listing.matches and limit != 0:
        yield ""
        yield from table(listing.pattern.node_names(), listing_rows(listing, ids, limit))


def listing_csv(listing: Listing, ids: bool, limit: int | None) -> Iterator[str]:
    return csv_lines(listing.pattern.node_names(), listing_rows(listing, ids, limit))


def listing_json(listing: Listing, ids: bool, limit: int | None) -> Iterator[str]:
    return json_lines(
        {
            "answer": 0,
            "admitted": listing.admitted,
            "matches": listing.matches,
            "node_entries": listing.node_entries,
            "edge_entries": listing.edge_entries,
            "bound": listing.bound,
            "nodes": listing.pattern.node_names(),
            "rows": listing_rows(listing, ids, limit),
        }
    )


def _labels(store: Store) -> list[tuple[str, int, int]]:
    """Each label: its name, its number, how many nodes have it."""
    counts = {number: 0 for number, _ in store.names.labels.items()}
    for label, _ in store.sections.nodes:
        counts[label] = counts.get(label, 0) + 1
    return [(store.names.labels.name(number), number, counts[number]) for number in sorted(counts)]


def _constraints(store: Store) -> list[tuple[int, str, int, int, int, str]]:
    """Each constraint: number, text, N, keys with a list, longest list, its first key."""
    return [
        (
            place,
            f"{store.names.key(one.key_labels)} -> {store.names.labels.spelled(one.label)}".lstrip(),
            one.most,
            keys,
            longest,
            ", ".join(map(store.names.nodes.spelled, key)),
        )
        for place, (one, (keys, longest, key)) in enumerate(zip(store.constraints, store.longest_lists()))
    ]


def counts_text(store: Store) -> str:
    """How much of everything there is."""
    words = (
        ("node", "nodes"),
        ("edge", "edges"),
        ("constraint", "constraints"),
        ("group", "groups"),
        ("entry", "entries"),
    )
    told = [counted(count, *word) for count, word in zip(store.counts, words)]
    return ", ".join(told + [counted(len(store.data), "byte", "bytes")])


def store_text(store: Store) -> Iterator[str]:
    """What is in a store."""
    yield from marked(store, [counts_text(store), ""])
    yield from table(("label", "number", "nodes"), _labels(store))
    yield ""
    yield from table(("no.", "constraint", "N", "lists", "longest", "of"), _constraints(store))
    if not store.counts.groups:
        yield ""
        yield "There is no index: this is a draft, or no key has a list."


def store_json(store: Store) -> Iterator[str]:
    labels = [{"name": name, "number": number, "nodes": count} for name, number, count in _labels(store)]
    constraints = [
        {"number": place, "constraint": text, "N": most, "lists": keys, "longest": longest, "of": key}
        for place, text, most, keys, longest, key in _constraints(store)
    ]
    return json_lines(
        {
            "admitted": isinstance(store, AdmittedStore),
            "bytes": len(store.data),
            "nodes": store.counts.nodes,
            "edges": store.counts.edges,
            "groups": store.counts.groups,
            "entries": store.counts.entries,
            "labels": labels,
            "constraints": constraints,
        }
    )
