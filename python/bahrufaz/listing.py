"""The commands that list: from a store that is admitted, one pattern or many, or two compared."""

from __future__ import annotations

import argparse
import sys
from pathlib import Path
from typing import Iterable, Iterator, NamedTuple

from . import calls, library, tables
from .comparing import Compared, compare
from .numbers import Refused
from .progress import working
from .reading import about, names_hint, order_of, pattern_of, store_of
from .report import Chapter, report
from .speaking import ANSWERED, REFUSED, WRONG_USE, complain, emit
from .store import AdmittedStore, Store
from .text import visible
from .wrong import Wrong


def trusted_store(asked: argparse.Namespace) -> Store:
    """The store, admitted: what is told of any other may lack matches, so that has to be asked for."""
    with working(f"reading {asked.store}"):
        store = store_of(asked)
        if asked.unchecked:
            return store
        try:
            with about(asked.store):
                return store.admit()
        except Refused as refused:
            refused.advice += "\nto go on with what is there, though matches may be missing, give --unchecked"
            raise


def warn_unchecked(store: Store) -> None:
    """For answers that a program or a picture viewer reads, beside the answer itself."""
    if not isinstance(store, AdmittedStore):
        complain(tables.UNCHECKED)


def listed(asked: argparse.Namespace, store: Store, pattern: calls.Pattern, path: str) -> calls.Listing:
    """The listing of a pattern; where the room is too short, the refusal says how much is needed."""
    with about(asked.store, path), names_hint(store, asked.store), working(f"listing {path}"):
        try:
            return _listed(store, pattern, asked.room)
        except Refused as refused:
            if refused.number == 10:
                refused.detail = _room_needed(store, pattern, asked.room)
            raise


def _listed(store: Store, pattern: calls.Pattern, room: int) -> calls.Listing:
    if isinstance(store, AdmittedStore):
        return calls.list_matches(store, pattern, room)
    return calls.list_unchecked(store, pattern, room)


def _room_needed(store: Store, pattern: calls.Pattern, room: int) -> str:
    """How many words the matches take, counted with as much room as is lent at most by default."""
    try:
        matches = _listed(store, pattern, max(room, library.MOST_ROOM_WORDS)).matches
    except (Refused, MemoryError):
        return f"the matches take more than {max(room, library.MOST_ROOM_WORDS):,} words"
    words = matches * len(pattern.nodes)
    return f"{matches:,} matches of {len(pattern.nodes)} nodes take {words:,} words: --room {words}"


def list_command(asked: argparse.Namespace) -> int:
    if asked.count:
        return _count_command(asked)
    if len(asked.pattern) > 1:
        raise Wrong("more than one pattern is given: use --count, or list them one by one")
    path = asked.pattern[0]
    pattern = pattern_of(path, order_of(asked))
    found = listed(asked, trusted_store(asked), pattern, path)
    if asked.json or asked.csv:
        warn_unchecked(found.store)
    if asked.json:
        emit(tables.listing_json(found, asked.ids, asked.limit))
    elif asked.csv:
        emit(_csv(tables.listing_csv(found, asked.ids, asked.limit)))
    else:
        emit(tables.listing_text(found, asked.ids, asked.limit))
    return ANSWERED


def _csv(lines: Iterable[str]) -> Iterator[str]:
    """CSV as it is for a file, and with nothing in it that a terminal would act on for one."""
    to_terminal = sys.stdout.isatty()
    return (visible(line) if to_terminal else line for line in lines)


class Counted(NamedTuple):
    """A row of --count: a pattern, its number, what was found and read, or why not."""

    pattern: str
    answer: int | str
    matches: int | str
    read: int | str
    T: int | str
    why: str


def _count_command(asked: argparse.Namespace) -> int:
    """A line for each pattern: its answer, and how much was found and read."""
    if asked.ids or asked.limit is not None:
        raise Wrong("--count shows no matches: leave out --ids and --limit")
    store = trusted_store(asked)
    rows = list(map(_counted, chapters(asked, store)))
    head = ("pattern", "answer", "matches", "read", "T", "why" if asked.csv else "")
    if asked.json or asked.csv:
        warn_unchecked(store)
    if asked.json:
        members = [{name: value for name, value in row._asdict().items() if value != ""} for row in rows]
        emit(tables.json_lines({"answer": 0, "admitted": isinstance(store, AdmittedStore), "patterns": members}))
    elif asked.csv:
        emit(_csv(tables.csv_lines(head, rows)))
    else:
        emit(tables.marked(store, tables.table(head, rows)))
    return worst(rows)


def _counted(chapter: Chapter) -> Counted:
    found, refused = chapter.listing, chapter.refused
    if found is not None:
        return Counted(chapter.name, 0, found.matches, found.entries, found.bound, "")
    if refused:
        return Counted(chapter.name, refused.number, "", "", "", refused.sentence)
    return Counted(chapter.name, "wrong", "", "", "", chapter.wrong.split("\n")[0])


def worst(rows: Iterable[Counted]) -> int:
    """The exit status of several patterns."""
    answers = [row.answer for row in rows]
    return WRONG_USE if "wrong" in answers else REFUSED if any(answers) else ANSWERED


def chapters(asked: argparse.Namespace, store: Store) -> list[Chapter]:
    """What a report says about each pattern; one that cannot be read is no end of it."""
    return [_chapter(asked, store, path) for path in asked.pattern]


def _chapter(asked: argparse.Namespace, store: Store, path: str) -> Chapter:
    name, pattern = Path(path).name, None
    try:
        pattern = pattern_of(path)
        return Chapter(name, pattern, listed(asked, store, pattern, path), None, "")
    except Refused as refused:
        return Chapter(name, pattern, None, refused, str(refused))
    except OSError as error:
        return Chapter(name, pattern, None, None, f"{path}: {error.strerror or error}")
    except Wrong as error:
        return Chapter(name, pattern, None, None, str(error))


def report_command(asked: argparse.Namespace) -> tuple[str, int]:
    """The page of a report, and the exit status."""
    store = trusted_store(asked)
    told = chapters(asked, store)
    return report(f"Report on {Path(asked.store).name}", store, told, asked.limit), worst(map(_counted, told))


def compare_command(asked: argparse.Namespace) -> int:
    """What one pattern lists and the other does not."""
    store = trusted_store(asked)
    first, second = (listed(asked, store, pattern_of(path), path) for path in (asked.first, asked.second))
    compared = compare(first, second, [name for part in asked.by for name in part.split(",")])
    names = [Path(path).name for path in (asked.first, asked.second)]
    if names[0] == names[1]:
        names = [asked.first, asked.second]
    rows = [(name, *row) for name, part in zip(names, compared[2:]) for row in part]
    if asked.json or asked.csv:
        warn_unchecked(store)
    if asked.json:
        emit(_compared_json(store, compared, names, rows))
    elif asked.csv:
        emit(_csv(tables.csv_lines(["only in", *compared.columns], rows)))
    else:
        emit(tables.marked(store, _compared_text(compared, names, rows)))
    return ANSWERED


def _compared_json(store: Store, compared: Compared, names: list[str], rows: list[tuple[str, ...]]) -> Iterator[str]:
    return tables.json_lines(
        {
            "answer": 0,
            "admitted": isinstance(store, AdmittedStore),
            "by": compared.columns,
            "patterns": names,
            "both": compared.both,
            "only": [{"in": name, "row": list(row)} for name, *row in rows],
        }
    )


def _compared_text(compared: Compared, names: list[str], rows: list[tuple[str, ...]]) -> Iterator[str]:
    only = [f"{len(part):,} only in {name}" for name, part in zip(names, compared[2:])]
    yield f"by {', '.join(compared.columns)}: {compared.both:,} in both, {', '.join(only)}"
    if rows:
        yield ""
        yield from tables.table(["only in", *compared.columns], rows)
