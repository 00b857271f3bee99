"""The C boundary: finds the library, lends it rooms and makes its calls.

The rooms are made here, as arrays of their own: they are as long as said, set, aligned and overlap
nothing. Every call runs on a thread whose stack is deep enough for building.
"""

from __future__ import annotations

import ctypes
import ctypes.util
import operator
import os
import threading
from pathlib import Path
from typing import Callable, Iterator, NamedTuple, Sequence, Tuple

from .numbers import ANSWERED, Refused
from .wrong import LibraryMissing

NAME = "libbahrufaz.so"
STACK_BYTES = 16 << 20  # building asks for 4 MiB, the others for 64 KiB; the rest is Python's own
MAX_GROUPS = 262_144
MAX_ENTRIES = 1_048_576
PLAN_WORDS = 512  # always enough for the rows of a plan
ROW_WORDS = 8
FIRST_ROOM_WORDS = 1 << 16
MOST_ROOM_WORDS = 1 << 28  # 1 GiB
UPPER_MATCHES = 7  # the result of listing that has the upper 32 bits of the number of matches

_Word = ctypes.c_uint32
_Results = _Word * 8
_stack_size_lock = threading.Lock()


class Rows(Sequence[Tuple[int, ...]]):
    """Rows of words in a room, made into tuples as they are asked for: there may be millions."""

    def __init__(self, room: ctypes.Array, count: int, width: int):
        self._count, self._width = count, width
        self._words = memoryview(room).cast("B").cast("I")[: count * width]

    def __len__(self) -> int:
        return self._count

    def __iter__(self) -> Iterator[tuple[int, ...]]:
        return zip(*[iter(self._words)] * self._width)

    def __getitem__(self, place):  # type: ignore[no-untyped-def]
        if isinstance(place, slice):
            return [self[at] for at in range(*place.indices(self._count))]
        at = range(self._count)[place] * self._width
        return tuple(self._words[at : at + self._width])

    def __eq__(self, other: object) -> bool:
        return isinstance(other, (Rows, list)) and len(self) == len(other) and all(map(operator.eq, self, other))

    def __repr__(self) -> str:
        return repr(list(self))


class Planned(NamedTuple):
    """The bound T and the rows of a plan, 8 words each."""

    bound: int
    rows: Rows


class Listed(NamedTuple):
    """The results of listing, and a row of node ids for each match."""

    matches: int
    node_entries: int
    edge_entries: int
    bound: int
    rows: Rows


def checkout_library() -> Path:
    """Where 'make lib' puts the library in the checkout that this package stands in."""
    return Path(__file__).resolve().parents[2] / "target" / "lib" / NAME


def carried_library() -> Path:
    """Where a wheel carries the library: beside the files of this package."""
    return Path(__file__).resolve().with_name(NAME)


def find() -> str:
    """The library to load: BAHRUFAZ_LIB, else the wheel's or the checkout's, else the system's."""
    named = os.environ.get("BAHRUFAZ_LIB")
    if named:
        path = Path(named) / NAME if os.path.isdir(named) else Path(named)
        if path.exists():
            return str(path.resolve())
        raise LibraryMissing(f"BAHRUFAZ_LIB names {named}, and there is no library: set it to a {NAME}")
    for path in (carried_library(), checkout_library()):
        if path.exists():
            return str(path)
    found = ctypes.util.find_library("bahrufaz")
    if found:
        return found
    raise LibraryMissing(
        f"no {NAME} is found: run 'make lib' in the checkout, or 'make install' from there, "
        f"or set BAHRUFAZ_LIB to the file"
    )


def _load() -> ctypes.CDLL:
    path = find()
    try:
        library = ctypes.CDLL(path)
    except OSError as error:
        raise LibraryMissing(
            f"{path} cannot be loaded ({error}): run 'make lib' on this machine, or set BAHRUFAZ_LIB"
        ) from error
    run, words = [ctypes.c_char_p, ctypes.c_size_t], [ctypes.c_void_p, ctypes.c_size_t]
    results = [ctypes.POINTER(_Word)]
    for name, arguments in {
        "bahrufaz_build": run + words + results,
        "bahrufaz_admit": run,
        "bahrufaz_plan": run + run + words + results,
        "bahrufaz_list": run + run + words + words + results,
    }.items():
        call = getattr(library, name, None)
        if call is None:
            raise LibraryMissing(f"{path} has no {name}: it is another or an older library; run 'make lib'")
        call.argtypes, call.restype = arguments, _Word
    return library


_loaded: ctypes.CDLL | None = None


def _library() -> ctypes.CDLL:
    global _loaded
    if _loaded is None:
        _loaded = _load()
    return _loaded


def _on_deep_stack(work: Callable[[], int]) -> int:
    """Runs the work on a thread with a stack of STACK_BYTES."""
    told: list[int] = []
    thread = threading.Thread(target=lambda: told.append(work()), daemon=True)
    with _stack_size_lock:
        before = threading.stack_size(STACK_BYTES)
        try:
            thread.start()
        except RuntimeError as error:
            raise MemoryError(f"a thread with {STACK_BYTES >> 20} MiB of stack cannot be started") from error
        finally:
            threading.stack_size(before)
    thread.join()
    return told[0]


def _checked(call: str, work: Callable[[], int]) -> None:
    number = _on_deep_stack(work)
    if number != ANSWERED:
        raise Refused(call, number)


def build(draft: bytes) -> bytes:
    """The store of a draft."""
    library, results = _library(), _Results()
    room = ctypes.create_string_buffer(len(draft) + 24 * MAX_GROUPS + 8 * MAX_ENTRIES)
    _checked("build", lambda: library.bahrufaz_build(draft, len(draft), room, len(room), results))
    return ctypes.string_at(room, results[0])


def admit(store: bytes) -> None:
    """Returns if building from the store's own records gives the same bytes; else refuses."""
    library = _library()
    _checked("admit", lambda: library.bahrufaz_admit(store, len(store)))


def plan(store: bytes, pattern: bytes) -> Planned:
    """The plan of a pattern over the constraints of a store or draft."""
    library, results, room = _library(), _Results(), (_Word * PLAN_WORDS)()
    _checked(
        "plan",
        lambda: library.bahrufaz_plan(
            store, len(store), pattern, len(pattern), room, len(room), results
        ),
    )
    # p + q rows, as the pattern's header says; it is right, or the answer would be 6
    rows = int.from_bytes(pattern[4:8], "little") + int.from_bytes(pattern[8:12], "little")
    return Planned(results[0], Rows(room, rows, ROW_WORDS))


def list_matches(store: bytes, pattern: bytes, most_words: int = MOST_ROOM_WORDS) -> Listed:
    """The matches of a pattern; the room for them grows up to most_words."""
    bound = plan(store, pattern).bound
    words = min(FIRST_ROOM_WORDS, most_words)
    while True:
        try:
            return _list_once(store, pattern, 2 * bound, words)
        except Refused as refused:
            if refused.number != 10 or words >= most_words:
                raise
        words = min(8 * words, most_words)


def _list_once(store: bytes, pattern: bytes, work_words: int, room_words: int) -> Listed:
    library, results = _library(), _Results()
    work, room = (_Word * work_words)(), (_Word * room_words)()
    _checked(
        "list",
        lambda: library.bahrufaz_list(
            store, len(store), pattern, len(pattern), work, len(work), room, len(room), results
        ),
    )
    matches = results[0] + (results[UPPER_MATCHES] << 32)
    width = int.from_bytes(pattern[4:8], "little")
    return Listed(matches, results[1], results[2], results[3], Rows(room, matches, width))


def check_header(store: bytes) -> None:
    """Refuses with 1 where the header is wrong, so that its counts may be believed.

    Planning looks at header and constraints before it looks at the pattern.
    """
    try:
        plan(store, b"")
    except Refused as refused:
        if refused.number == 1:
            raise
