"""Whole numbers within their limits."""

from __future__ import annotations

import operator
from typing import SupportsIndex

from .wrong import WrongGraph


def whole(what: str, number: SupportsIndex) -> int:
    """The number, if it is a whole one. True is none, though Python counts with it."""
    if not isinstance(number, bool):
        try:
            return operator.index(number)
        except TypeError:
            pass
    raise WrongGraph(f"{what} is a whole number, and {number!r} is none")


def within(what: str, number: SupportsIndex, low: int, high: int) -> int:
    """The whole number, if it may be that."""
    found = whole(what, number)
    if not low <= found <= high:
        raise WrongGraph(f"{what} is {found:,}, and must be from {low:,} to {high:,}")
    return found
