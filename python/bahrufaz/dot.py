"""Graphviz DOT: quoting, a title with a legend, and what dot makes of it where it is installed."""

from __future__ import annotations

import html
import shutil
import subprocess
import textwrap
from pathlib import Path
from typing import Iterable, Mapping, Sequence

from .files import write_whole
from .text import visible
from .wrong import Wrong

PICTURES = {".dot": "a DOT text", ".svg": "an SVG picture", ".png": "a PNG picture", ".pdf": "a PDF picture"}
GREY = "#808080"
_FILLS = ("#cfe3f5", "#fbe3c0", "#d5edcf", "#f6d3d5", "#e2d8f0", "#f3efb5", "#cdeeea", "#e8dccf")
_TITLE_WIDTH = 100
_PAGE = (7.7, 11.0)  # inches that a printed page has inside its margins


class DotMissing(Wrong):
    """A picture is asked for, and Graphviz is not there to make it."""


class Picture:
    """A picture as DOT text, which dot makes into SVG, PNG or PDF; a notebook shows it."""

    def __init__(self, dot: str, told: str):
        self.dot, self.told = dot, told

    def __repr__(self) -> str:
        return f"<Picture: {self.told}>"

    def _repr_svg_(self) -> str | None:
        return self.made("svg").decode("utf-8") if shutil.which("dot") else None

    def made(self, kind: str) -> bytes:
        """The picture as svg, png or pdf; Wrong where Graphviz is not installed."""
        return picture(self.dot, kind)

    def write(self, path: str | Path) -> None:
        """Writes the picture as the ending of the name says."""
        suffix = Path(path).suffix
        write_whole(path, f"{self.dot}\n" if suffix not in PICTURES or suffix == ".dot" else self.made(suffix[1:]))


def fill_of(label: int) -> str:
    """The colour of a label: the same in every picture."""
    return _FILLS[(label - 1) % len(_FILLS)]


def quoted(text: str) -> str:
    lines = [visible(line).replace("\\", "\\\\").replace('"', '\\"') for line in text.split("\n")]
    return '"' + "\\n".join(lines) + '"'


def attributes(**given: object) -> str:
    return "[" + " ".join(f"{name}={quoted(str(value))}" for name, value in given.items()) + "]"


def digraph(title: Sequence[str], legend: Mapping[str, str], body: Iterable[str], portrait: bool = False) -> str:
    """A whole picture: its title, first the bold line; a legend of texts by their colours; at most a page."""
    page = ",".join(map(str, _PAGE if portrait else _PAGE[::-1]))
    head = [
        f"digraph {quoted(title[0])} {{" if title else "digraph {",
        f"  graph {attributes(rankdir='LR', labelloc='t', fontname='sans-serif', nodesep=0.25, size=page)}",
        *([f"  graph [label=<{_heading(title, legend)}>]"] if title else []),
        f"  node {attributes(shape='box', style='rounded,filled', fillcolor='white', fontname='sans-serif')}",
        f"  edge {attributes(fontname='sans-serif', fontsize=10)}",
    ]
    return "\n".join([*head, *(f"  {line}" for line in body), "}"])


def _heading(title: Sequence[str], legend: Mapping[str, str]) -> str:
    """The title and the legend as a table of Graphviz."""
    rows = [f"<TR><TD><B>{_wrapped(title[0])}</B></TD></TR>"]
    rows += [f"<TR><TD>{_wrapped(line)}</TD></TR>" for line in title[1:]]
    if legend:
        cells = "".join(f'<TD BGCOLOR="{colour}">{_escaped(text)}</TD>' for text, colour in legend.items())
        rows.append(f'<TR><TD><TABLE BORDER="0" CELLSPACING="6" CELLPADDING="4"><TR>{cells}</TR></TABLE></TD></TR>')
    return f'<TABLE BORDER="0" CELLSPACING="0">{"".join(rows)}</TABLE>'


def _wrapped(text: str) -> str:
    """Lines of about the same length."""
    text = visible(text)
    lines = max(len(text) - 1, 0) // _TITLE_WIDTH + 1
    return "<BR/>".join(map(_escaped, textwrap.wrap(text, len(text) // lines + 10) or [""]))


def _escaped(text: str) -> str:
    return html.escape(visible(text), quote=False)


def picture(dot: str, kind: str) -> bytes:
    """The picture that Graphviz makes of a DOT text, as svg, png or pdf."""
    program = shutil.which("dot")
    if not program:
        raise DotMissing(
            f"dot is not installed, so no {kind} can be made: install graphviz, or write a .dot file instead"
        )
    made = subprocess.run([program, f"-T{kind}"], input=dot.encode("utf-8"), capture_output=True, check=False)
    if made.returncode:
        raise Wrong(f"dot cannot draw this: {made.stderr.decode('utf-8', 'replace').strip()}")
    return made.stdout
