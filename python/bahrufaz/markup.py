"""HTML: texts that stay texts, and tables."""

from __future__ import annotations

import html
from typing import Iterable, Sequence

from .text import visible


class Markup(str):
    """A text that is HTML already."""


def plain(text: object) -> str:
    """A text as HTML shows it, whatever it holds."""
    return html.escape(visible(str(text)))


def table(head: Sequence[str], rows: Iterable[Sequence[object]], numbers: Sequence[int] = ()) -> str:
    """A table; the columns at these places stand to the right, as numbers do."""
    kinds = [' class="number"' if place in numbers else "" for place in range(len(head))]
    heads = "".join(f"<th{kind}>{plain(name)}</th>" for kind, name in zip(kinds, head))
    body = "".join(
        "<tr>" + "".join(f"<td{kind}>{_cell(cell)}</td>" for kind, cell in zip(kinds, row)) + "</tr>\n" for row in rows
    )
    return f"<table><thead><tr>{heads}</tr></thead><tbody>\n{body}</tbody></table>"


def _cell(cell: object) -> str:
    if isinstance(cell, Markup):
        return cell
    return f"{cell:,}" if isinstance(cell, int) else plain(cell)
