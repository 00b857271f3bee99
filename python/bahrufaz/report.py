"""A report on a store: one page of HTML for a checklist of patterns, with nothing outside it."""

from __future__ import annotations

import re
from typing import Iterator, NamedTuple, Sequence

from . import tables
from .calls import Listing, Plan, plan
from .dot import DotMissing
from .draw import draw_pattern
from .graph import Graph
from .markup import Markup, plain, table
from .measuring import measure_for
from .numbers import Refused
from .pattern import Pattern
from .store import AdmittedStore, Store
from .wrong import Wrong

REPORT_HEAD = "<!DOCTYPE html><!-- a report of bahrufaz -->"
_STYLE = """
:root { color: #222; background: #fff; font: 15px/1.5 system-ui, "Segoe UI", "DejaVu Sans", sans-serif; }
body { max-width: 60rem; margin: 2rem auto; padding: 0 1rem; }
h1 { margin-bottom: 0; } h2 { margin: 0 0 .2rem; font-size: 1.25rem; } h3 { margin: 1.2rem 0 .3rem; font-size: 1rem; }
section { border-top: 2px solid #ddd; margin-top: 2rem; padding-top: 1.2rem; }
p { margin: .3rem 0; } .quiet { color: #666; } .warn { background: #fbe3c0; padding: .5rem .8rem; border-radius: 4px; }
table { border-collapse: collapse; font-variant-numeric: tabular-nums; }
th, td { text-align: left; vertical-align: top; padding: .15rem .9rem .15rem 0; border-bottom: 1px solid #eee; }
th { color: #666; font-weight: 600; } td.number, th.number { text-align: right; white-space: nowrap; }
a { color: #1f5fa8; } figure { margin: .8rem 0; } svg { max-width: 100%; height: auto; } pre { white-space: pre-wrap; }
.bar { width: 14rem; height: .6rem; margin: .3rem 0 .8rem; background: #e4eaf1; border-radius: 3px; }
.bar i { display: block; height: 100%; background: #1f5fa8; border-radius: 3px; }
@page { size: A4; margin: 16mm; }
@media print { :root { font-size: 11px; } body { margin: 0; max-width: none; padding: 0; } thead { display: table-header-group; }
  tr, figure, h2, h3 { break-inside: avoid; } h2, h3 { break-after: avoid; } a { color: inherit; text-decoration: none; } }
"""


class Chapter(NamedTuple):
    """What a report says about one pattern: what was found, or why nothing was."""

    name: str
    pattern: Pattern | None
    listing: Listing | None
    refused: Refused | None
    wrong: str


def report(title: str, store: Store, chapters: Sequence[Chapter], limit: int) -> str:
    """The whole page."""
    parts = [
        f'{REPORT_HEAD}\n<html lang="en"><head><meta charset="utf-8"><title>{plain(title)}</title>',
        f'<meta name="viewport" content="width=device-width, initial-scale=1"><style>{_STYLE}</style></head><body>',
        f"<h1>{plain(title)}</h1>",
        f'<p class="quiet">{plain(tables.counts_text(store))}</p>',
        _trust(store),
        _overview(chapters),
        *(_section(place, store, chapter, limit) for place, chapter in enumerate(chapters, 1)),
        "</body></html>",
    ]
    return "\n".join(parts) + "\n"


def _trust(store: Store) -> str:
    if not isinstance(store, AdmittedStore):
        return f'<p class="warn">{plain(tables.UNCHECKED)}</p>'
    return (
        "<p>The store is admitted: its index is the one that building gives. So each list below has all matches of its "
        "pattern in the whole graph, and T, known before anything is read, is the most that is read for it.</p>"
    )


def _overview(chapters: Sequence[Chapter]) -> str:
    rows = (_overview_row(place, chapter) for place, chapter in enumerate(chapters, 1))
    return table(("", "pattern", "question", "matches", "read", "T"), rows, (3, 4, 5))


def _overview_row(place: int, chapter: Chapter) -> tuple[object, ...]:
    link = Markup(f'<a href="#p{place}">{plain(chapter.name)}</a>')
    question = chapter.pattern.question if chapter.pattern else ""
    if chapter.listing is not None:
        return place, link, question, chapter.listing.matches, chapter.listing.entries, chapter.listing.bound
    why = f"refused with {chapter.refused.number}" if chapter.refused else "not read"
    return place, link, question, why, "", ""


def _section(place: int, store: Store, chapter: Chapter, limit: int) -> str:
    head = f'<section id="p{place}"><h2>{place}. {plain(chapter.name)}</h2>'
    return "\n".join([head, *_told(store, chapter, limit), "</section>"])


def _told(store: Store, chapter: Chapter, limit: int) -> Iterator[str]:
    if chapter.pattern is None:
        yield "<p>This pattern cannot be read:</p>"
        yield f"<pre>{_lines(chapter.wrong)}</pre>"
        return
    if chapter.pattern.question:
        yield f"<p>{plain(chapter.pattern.question)}</p>"
    yield _figure(chapter.pattern, store)
    if chapter.listing is not None:
        yield from _answer(chapter.listing, limit)
    elif chapter.refused:
        yield from _refusal(store, chapter.pattern, chapter.refused)
    else:
        yield f'<pre class="warn">{_lines(chapter.wrong)}</pre>'


def _lines(text: str) -> str:
    return "\n".join(map(plain, text.split("\n")))


def _figure(pattern: Pattern, store: Store) -> str:
    """The picture of a pattern; its text where there is no Graphviz to draw it."""
    try:
        drawn = draw_pattern(pattern, store.names, titled=False).made("svg").decode("utf-8")
    except DotMissing:
        return f"<pre>{_lines(pattern.text(store.names).strip())}</pre>"
    drawn = drawn[drawn.index("<svg") :]
    return f"<figure>{re.sub(' id=.[^ >]*', '', drawn)}</figure>"


def _answer(listing: Listing, limit: int) -> Iterator[str]:
    yield f"<h3>T = {listing.bound:,}: at most {tables.counted(listing.bound, 'entry', 'entries')} read</h3>"
    part = 100 * listing.entries // max(listing.bound, 1)
    yield f"<p>{listing.entries:,} were read, {part} in a hundred of that.</p>"
    yield f'<div class="bar"><i style="width:{part}%"></i></div>'
    yield _steps(plan(listing.store, listing.pattern))
    yield f"<h3>{plain(tables.matches_text(listing, limit))}</h3>"
    if listing.matches:
        yield table(listing.pattern.node_names(), tables.listing_rows(listing, False, limit))


def _steps(planned: Plan) -> str:
    return table(("step", "for", "by constraint", "from", "reads at most"), planned.steps(), (4,))


def _refusal(store: Store, pattern: Pattern, refused: Refused) -> Iterator[str]:
    yield f'<p class="warn">Refused with {refused.number}: {plain(refused.sentence)}.</p>'
    yield from (f"<p>{plain(line)}</p>" for line in f"{refused.detail}\n{refused.advice}".split("\n") if line)
    if refused.number == 7:
        yield from _remedy(store, pattern)


def _remedy(store: Store, pattern: Pattern) -> Iterator[str]:
    """The constraints with which a pattern would be covered, if there are such."""
    try:
        needed = measure_for(Graph.of_bytes(store.data, store.names), [pattern])
    except (Refused, Wrong):
        yield "<p>No constraints with one label or none before the arrow would cover it in this graph.</p>"
        return
    yield "<p>With these constraints, which hold in this graph today, it would be answered:</p>"
    yield f"<pre>{_lines(chr(10).join(f'constraint {store.names.constraint(one)}' for one in needed))}</pre>"

