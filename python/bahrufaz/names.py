"""Names of labels and nodes, which are not in a store's bytes."""

from __future__ import annotations

import re
from typing import Iterable

from .records import Constraint
from .text import MAX_NAME, alike, shortened, spelled
from .whole import whole
from .wrong import WrongName

_SURROGATE = re.compile("[\ud800-\udfff]")


class Naming:
    """Names of numbered things, each once; where there is no name, the number stands for it."""

    def __init__(self, what: str):
        self.what = what
        self._names: dict[int, str] = {}
        self._numbers: dict[str, int] = {}

    def __len__(self) -> int:
        return len(self._names)

    def __contains__(self, name: object) -> bool:
        return name in self._numbers

    def __eq__(self, other: object) -> bool:
        return isinstance(other, Naming) and self._names == other._names

    def add(self, number: int, name: str) -> None:
        if not isinstance(name, str):
            raise WrongName(f"the name of a {self.what} is a text, and {name!r} is none")
        if not name or _SURROGATE.search(name):
            raise WrongName("a name has at least one character, all of them Unicode")
        if len(name) > MAX_NAME:
            raise WrongName(f"a name has at most {MAX_NAME:,} characters, and this has {len(name):,}")
        if name in self._numbers:
            raise WrongName(f"{self.what} {spelled(name)} is there already, with number {self._numbers[name]}")
        if number in self._names:
            raise WrongName(f"{self.what} {number} has the name {self.spelled(number)} already")
        self._names[number], self._numbers[name] = name, number

    def name(self, number: int) -> str:
        return str(self.name_or_number(number))

    def name_or_number(self, number: int) -> str | int:
        name = self._name_of(number)
        return number if name is None else name

    def spelled(self, number: int) -> str:
        """As the text forms spell it."""
        name = self._name_of(number)
        return str(number) if name is None else spelled(name)

    def _name_of(self, number: int) -> str | None:
        return self._names.get(number)

    def number(self, named: str | int) -> int:
        """The number of what is given by its name, or by its number already."""
        if not isinstance(named, str):
            return whole(f"the number of a {self.what}", named)
        if named not in self._numbers:
            raise WrongName(f"no {self.what} is named {shortened(spelled(named))}{alike(named, self._numbers)}")
        return self._numbers[named]

    def items(self) -> list[tuple[int, str]]:
        """Numbers and names, numbers ascending."""
        return sorted(self._names.items())


class Names:
    """The names of labels by their numbers and of nodes by their ids."""

    def __repr__(self) -> str:
        return f"<Names of {len(self.labels)} labels and {len(self.nodes)} nodes>"

    def __init__(self) -> None:
        self.labels = Naming("label")
        self.nodes = Naming("node")

    def __bool__(self) -> bool:
        return bool(self.labels) or bool(self.nodes)

    def constraint(self, one: Constraint) -> str:
        """A constraint as the text form has it, without its first word."""
        return f"{self.key(one.key_labels)} -> {self.labels.spelled(one.label)} at most {one.most}".lstrip()

    def key(self, key_labels: Iterable[int]) -> str:
        return ", ".join(map(self.labels.spelled, key_labels))
