"""Texts: how they are read, how names are spelled and shown, and how they stand in columns."""

from __future__ import annotations

import difflib
import json
import re
import unicodedata
from pathlib import Path
from typing import Iterable, Sequence

from .files import read_most
from .wrong import Wrong, WrongText

MAX_TEXT_BYTES = 1 << 28
MAX_NAME = 1_000
_SHOWN = 60  # characters of what was found, in a message
WORD = r'[^\s"#,<>=≤≥→]+'  # a name that stands without quotes; it has no '>', so no '->' either
_WORD = re.compile(WORD)
WHOLE_NUMBER = re.compile(r"-?[0-9]+")
# what a terminal would act on, or not show: control characters, zero-width and direction marks, line separators
_HIDDEN = re.compile("[\x00-\x1f\x7f-\x9f\u200b-\u200f\u2028-\u202e\u2066-\u2069\ufeff\ud800-\udfff]")
_MOST_ALIKE = 10_000
_UTF_16 = (b"\xff\xfe", b"\xfe\xff")  # what such a text begins with


def read_text(path: str | Path) -> str:
    """A text file: UTF-8, with or without a byte order mark, any line ends."""
    return text_of(read_most(path, MAX_TEXT_BYTES), path)


def text_of(data: bytes, path: str | Path) -> str:
    """The text that bytes of a file are."""
    if len(data) > MAX_TEXT_BYTES:
        raise Wrong(f"{path}: a text has at most {MAX_TEXT_BYTES:,} bytes, and this has more")
    try:
        text = data.decode("utf-8-sig")
    except UnicodeDecodeError as error:
        line = data[: error.start].count(b"\n") + 1
        found = "UTF-16: save it as UTF-8" if data.startswith(_UTF_16) else "other bytes"
        raise WrongText(str(path), line, f"expected UTF-8 text, found {found}") from None
    return text.replace("\r\n", "\n").replace("\r", "\n") if "\r" in text else text


def visible(text: str) -> str:
    """A text with nothing in it that a terminal would act on: such characters are shown as in JSON."""
    return _HIDDEN.sub(lambda found: f"\\u{ord(found[0]):04x}", text)


def visible_lines(text: str) -> str:
    """The same for a text of several lines."""
    return "\n".join(map(visible, text.split("\n")))


def shortened(text: str) -> str:
    """A text for a message: its beginning, if it is long."""
    return visible(text if len(text) <= _SHOWN else f"{text[:_SHOWN]}..")


def spelled(name: str) -> str:
    """A name as the text forms spell it: quoted where it would not be read as a name, or not be seen."""
    if _WORD.fullmatch(name) and not WHOLE_NUMBER.fullmatch(name) and not _HIDDEN.search(name):
        return name
    return visible(json.dumps(name, ensure_ascii=False))


def alike(name: str, names: Iterable[str]) -> str:
    """A hint at a name that may have been meant."""
    near = [one for one in names if abs(len(one) - len(name)) <= 2 and (one[0] == name[0] or one[-1] == name[-1])]
    found = difflib.get_close_matches(name, near[:_MOST_ALIKE], 1)
    return f"; did you mean {spelled(found[0])}?" if found else ""


def text_width(text: str) -> int:
    """How many places a text takes in a terminal: wide characters take two, combining ones none."""
    if text.isascii():
        return len(text)
    return sum(_WIDTHS.get(unicodedata.east_asian_width(c), 1) for c in text if not unicodedata.combining(c))


_WIDTHS = {"W": 2, "F": 2}


def aligned(rows: Iterable[Sequence[str]]) -> list[str]:
    """Rows of words in columns, two blanks between them; rows may be of different lengths."""
    table = list(rows)
    widths: dict[int, int] = {}
    for row in table:
        for place, cell in enumerate(row):
            width = text_width(cell)
            if width > widths.get(place, 0):
                widths[place] = width
    return ["  ".join([_padded(cell, widths[at]) for at, cell in enumerate(row)]).rstrip() for row in table]


def _padded(cell: str, width: int) -> str:
    return cell.ljust(width) if cell.isascii() else cell + " " * (width - text_width(cell))
