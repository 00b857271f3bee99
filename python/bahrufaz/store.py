"""A store: its bytes, as the library has built or is to judge them, and the names beside them."""

from __future__ import annotations

from functools import cached_property
from pathlib import Path

from . import library
from .files import read_most, write_together
from .markup import plain, table
from .names import Names
from .namesfile import are_names_of, names_path, names_text, read_names
from .numbers import Refused
from .records import MAX_STORE_BYTES, Constraint, Counts, Sections, counts_of, is_draft


class Store:
    """The bytes of a store or draft whose header is right, with names for labels and nodes.

    Nothing says yet that its index belongs to its graph: admit() does.
    """

    def __init__(self, data: bytes, names: Names | None = None):
        library.check_header(data)
        self._take(data, names)

    def _take(self, data: bytes, names: Names | None) -> None:
        self._data = data
        self.names = names or Names()

    def __repr__(self) -> str:
        counts = ", ".join(f"{count} {name}" for name, count in self.counts._asdict().items())
        return f"<{type(self).__name__}: {counts}, {len(self.data)} bytes>"

    def _repr_html_(self) -> str:
        """What a notebook shows: the constraints, and how near their lists are to N."""
        names = self.names
        rows = (
            (names.key(one.key_labels), names.labels.name(one.label), one.most, keys, longest)
            for one, (keys, longest, _) in zip(self.constraints, self.longest_lists())
        )
        return f"<p>{plain(repr(self)[1:-1])}</p>{table(('for each', 'of', 'at most', 'lists', 'longest'), rows, (2, 3, 4))}"

    @property
    def data(self) -> bytes:
        """The bytes: they are never changed, so what was admitted stays so."""
        return self._data

    @classmethod
    def read(cls, path: str | Path, names: Names | None = None) -> Store:
        """Reads a store; its names come from the .names file beside it, if there is one."""
        store, beside = cls(read_most(path, MAX_STORE_BYTES), names), names_path(path)
        if names is None and beside.exists():
            store.names = read_names(beside, store.data)
        return store

    def write(self, path: str | Path) -> Path | None:
        """Writes the bytes, and the names beside them if there are any; returns where those are.

        Both files are replaced or none is; the names of a store that is written over go with it.
        """
        beside = names_path(path)
        if self.names:
            write_together({path: self.data, beside: names_text(self.names, self.data)})
            return beside
        write_together({path: self.data, beside: None} if are_names_of(beside, Path(path)) else {path: self.data})
        return None

    def admit(self) -> AdmittedStore:
        """The store as one to list from, if its index is the one that building gives; else Refused."""
        return AdmittedStore(self.data, self.names)

    @cached_property
    def sections(self) -> Sections:
        """The records. They are as they stand: nothing but admitting says that they are right."""
        return Sections(self.data)

    @property
    def counts(self) -> Counts:
        """How many nodes, edges, constraints, groups and entries there are."""
        return counts_of(self.data)

    @property
    def constraints(self) -> list[Constraint]:
        return self.sections.constraints

    def longest_lists(self) -> list[tuple[int, int, tuple[int, ...]]]:
        """For each constraint: how many keys have a list, the longest list, and the first key with it."""
        keys, most, first = ([0] * len(self.constraints) for _ in range(3))
        for group, (constraint, count) in enumerate(self.sections.lists()):
            if constraint < len(keys):
                keys[constraint] += 1
                if count > most[constraint]:
                    most[constraint], first[constraint] = count, group
        return [(had, long, self.sections.key(group) if long else ()) for had, long, group in zip(keys, most, first)]


class AdmittedStore(Store):
    """A store whose index is the one that building gives: what is listed from it are the matches of its graph."""

    def __init__(self, data: bytes, names: Names | None = None):
        super().__init__(data, names)
        try:
            library.admit(data)
        except Refused as refused:
            if refused.number == 5 and is_draft(data):
                refused.detail = "this is a draft: it has no index yet"
                refused.advice = "build it: bahrufaz build DRAFT -o STORE"
            raise

    @classmethod
    def built(cls, draft: bytes, names: Names | None = None) -> AdmittedStore:
        """The store of a draft; what building gives is admitted."""
        store = cls.__new__(cls)
        store._take(library.build(draft), names)
        return store

    def admit(self) -> AdmittedStore:
        return self
