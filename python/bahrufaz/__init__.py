"""Bahrufaz: matches of a pattern in a graph store, from the part of the store that its plan names.

What is proved stays in the library; this package lends it bytes and shows its answers by name.

    import bahrufaz

    store = bahrufaz.Graph.read("world.feed").build()
    pattern = bahrufaz.Pattern.read("a.pat")
    print(bahrufaz.plan(store, pattern).bound)
    for match in bahrufaz.list(store, pattern):
        print(match)
"""

from __future__ import annotations

import importlib
from typing import TYPE_CHECKING, List

if TYPE_CHECKING:
    from .calls import Listing, Plan, Row, list_unchecked, plan
    from .calls import list_matches as list
    from .comparing import Compared, compare
    from .dot import Picture
    from .draw import draw_matches, draw_pattern, draw_plan
    from .graph import Graph, Node
    from .importing import Imported, Keys, from_networkx, import_csv, import_graphml, to_networkx
    from .measuring import measure, measure_for
    from .names import Names
    from .numbers import Refused
    from .pattern import Pattern, PatternNode
    from .records import Condition, Constraint
    from .store import AdmittedStore, Store
    from .wrong import LibraryMissing, Wrong, WrongGraph, WrongName, WrongText

__version__ = "0.1.0"

# where each name comes from: a module is loaded when a name of it is asked for, so that the command starts quickly
_MODULES = {
    "calls": ("Listing", "Plan", "Row", "list_unchecked", "plan"),
    "comparing": ("Compared", "compare"),
    "dot": ("Picture",),
    "draw": ("draw_matches", "draw_pattern", "draw_plan"),
    "graph": ("Graph", "Node"),
    "importing": ("Imported", "Keys", "from_networkx", "import_csv", "import_graphml", "to_networkx"),
    "library": (),
    "measuring": ("measure", "measure_for"),
    "names": ("Names",),
    "numbers": ("Refused",),
    "pattern": ("Pattern", "PatternNode"),
    "records": ("Condition", "Constraint"),
    "store": ("AdmittedStore", "Store"),
    "wrong": ("LibraryMissing", "Wrong", "WrongGraph", "WrongName", "WrongText"),
}
_PLACES = {name: (module, name) for module, names in _MODULES.items() for name in names}
_PLACES["list"] = ("calls", "list_matches")

__all__ = sorted(_PLACES)  # noqa: PLE0605


def __getattr__(name: str) -> object:
    if name in _MODULES:
        return importlib.import_module(f".{name}", __name__)
    if name not in _PLACES:
        raise AttributeError(f"module {__name__} has no attribute {name}")
    module, own = _PLACES[name]
    found = getattr(importlib.import_module(f".{module}", __name__), own)
    globals()[name] = found
    return found


def __dir__() -> List[str]:
    return [*globals(), *_PLACES]
