"""Prints world.feed: locales of Unicode's CLDR with their signs for numbers, as Babel carries them.

    python3 make.py >world.feed

Babel is found as Debian's python3-babel installs it; any version of it will do, and gives the data that it carries.
"""

from __future__ import annotations

import sys
import unicodedata
from collections import Counter
from pathlib import Path
from typing import NamedTuple

import babel
from babel.core import Locale, get_global
from babel.localedata import locale_identifiers

sys.path.insert(0, str(Path(__file__).resolve().parents[2] / "python"))
from bahrufaz import Graph  # noqa: E402  (the package of this checkout is meant)

LABELS = ("locale", "decimal", "grouping", "language", "territory", "family")

# what is promised: for one node of the first label, or for nothing, how many of the second; each N is today's largest
PROMISED = (
    ("", "decimal"),
    ("", "grouping"),
    ("", "language"),
    ("", "territory"),
    ("decimal", "locale"),
    ("grouping", "locale"),
    ("language", "locale"),
    ("territory", "locale"),
    ("family", "locale"),
    ("locale", "decimal"),
    ("locale", "grouping"),
    ("locale", "language"),
    ("locale", "territory"),
    ("locale", "family"),
)

HEAD = """\
# Locales, with the signs that they write into numbers, their languages, their territories, and what they inherit from.
#
# Made by make.py from Unicode's CLDR as Babel {version} carries it, and so a modified form of that data.
# Copyright (c) 1991-2022 Unicode, Inc. All rights reserved. LICENSE-CLDR has its terms.
#
# A decimal and a grouping sign have their character's code as value: 44 is ',' and 46 is '.'.
# A family is a locale with those that inherit from it: they lead to it, and it leads to the one they inherit from.

"""


class Told(NamedTuple):
    """What CLDR says about a locale; the territory and the parent may be missing."""

    name: str
    decimal: str
    grouping: str
    language: str
    territory: str | None
    parent: str | None


def parent_of(name: str) -> str | None:
    """The locale that this one inherits from, as Babel finds it; None for what inherits from the root alone."""
    parent = get_global("parent_exceptions").get(name) or name.rpartition("_")[0]
    return parent if parent not in ("", "root") else None


def told_of(name: str) -> Told:
    locale = Locale.parse(name)
    symbols = locale.number_symbols
    symbols = symbols.get("latn", symbols)  # newer versions tell the systems of digits apart
    return Told(name, symbols["decimal"], symbols["group"], locale.language, locale.territory, parent_of(name))


def sign_name(label: str, sign: str) -> str:
    """A name such as decimal-comma."""
    return f"{label}-{unicodedata.name(sign).lower().replace(' ', '-')}"


def add_nodes(graph: Graph, told: list[Told]) -> None:
    english = Locale("en")
    for sign in sorted({one.decimal for one in told}):
        graph.add_node(sign_name("decimal", sign), "decimal", ord(sign))
    for sign in sorted({one.grouping for one in told}):
        graph.add_node(sign_name("grouping", sign), "grouping", ord(sign))
    for language in sorted({one.language for one in told}):
        graph.add_node(english.languages[language], "language")
    for territory in sorted({one.territory for one in told if one.territory}):
        graph.add_node(english.territories[territory], "territory")
    for parent in sorted({one.parent for one in told if one.parent}):
        graph.add_node(f"family-{parent}", "family")
    for one in told:
        graph.add_node(one.name, "locale")


def add_edges(graph: Graph, told: list[Told]) -> None:
    english = Locale("en")
    for one in told:
        graph.add_edge(one.name, sign_name("decimal", one.decimal))
        graph.add_edge(one.name, sign_name("grouping", one.grouping))
        graph.add_edge(one.name, english.languages[one.language])
        if one.territory:
            graph.add_edge(one.name, english.territories[one.territory])
        if one.parent:
            graph.add_edge(one.name, f"family-{one.parent}")
    for parent in sorted({one.parent for one in told if one.parent}):
        graph.add_edge(f"family-{parent}", parent)


def longest(graph: Graph, key: str, label: str) -> int:
    """The longest list: nodes of the label that neighbour one node of the key's label, or all of them for no key."""
    labels = [graph.names.labels.name(node.label) for node in graph.nodes]
    if not key:
        return labels.count(label)
    ends = [pair for start, end in graph.edges for pair in ((start, end), (end, start))]
    return max(Counter(one for one, other in set(ends) if (labels[one], labels[other]) == (key, label)).values())


def world() -> Graph:
    graph, told = Graph(), [told_of(name) for name in sorted(locale_identifiers())]
    for label in LABELS:
        graph.add_label(label)
    add_nodes(graph, told)
    add_edges(graph, told)
    for key, label in PROMISED:
        graph.add_constraint([key] if key else [], label, longest(graph, key, label))
    return graph


if __name__ == "__main__":
    sys.stdout.reconfigure(encoding="utf-8")
    sys.stdout.write(HEAD.format(version=babel.__version__) + world().text())
