"""Lines of words: what the text forms have in common. docs/FORMATS.md specifies them."""

from __future__ import annotations

import contextlib
import json
import re
from typing import Callable, Iterable, Iterator, Mapping, NamedTuple, TypeVar

from .text import WHOLE_NUMBER, WORD, shortened, spelled
from .wrong import WrongGraph, WrongName, WrongText, WrongTexts

MAX_LINE = 100_000
QUOTED = r'"(?:[^"\\]|\\.)*"'
NAME = f"(?:{QUOTED}|{WORD})"
_TOKEN = re.compile(
    rf"""\s*(?:
        (?P<quoted>{QUOTED})
      | (?P<sign>->|→|<=|>=|≤|≥|<|>|=|,)
      | (?P<word>(?:(?!->){WORD[:-1]})+)
      | (?P<comment>\#.*)
    )""",
    re.VERBOSE,
)
_SIGNS = {"→": "->", "≤": "<=", "≥": ">="}
_DIGITS = 20  # so many are beyond every range, however many follow
_MOST_MISTAKES = 1_000
_PART = 1 << 20
_Target = TypeVar("_Target")


class Token(NamedTuple):
    """A word, a quoted name or a sign, as it stands and as it is meant."""

    kind: str
    text: str

    @property
    def number(self) -> int | None:
        """The whole number that a bare word is, if it is one."""
        if self.kind == "word" and WHOLE_NUMBER.fullmatch(self.text):
            return int(self.text[:_DIGITS])
        return None


class Line:
    """The tokens of one line, taken one after another; errors name file and line."""

    def __init__(self, file: str, line: int, tokens: list[Token]):
        self.file, self.line, self._tokens, self._at = file, line, tokens, 0

    def error(self, message: str) -> WrongText:
        return WrongText(self.file, self.line, message)

    def _found(self) -> str:
        token = self.peek()
        return f"'{shortened(token.text)}'" if token else "the end of the line"

    def expected(self, what: str) -> WrongText:
        return self.error(f"expected {what}, found {self._found()}{self._quotes_hint()}")

    def _quotes_hint(self) -> str:
        """Two words where one is expected: perhaps a name with a blank in it."""
        at = 2 if self._at == 3 and self._tokens[0].text == "node" else self._at
        words = self._tokens[max(at - 1, 1) : at + 1]
        plain = [word.kind == "word" and word.number is None for word in [*words, self.peek()] if word]
        if len(plain) < 3 or not all(plain) or not self.next_text()[0].isalnum() or self.next_text() in _KEYWORDS:
            return ""
        return f"; a name with a blank in it is quoted, as {shortened(spelled(' '.join(word.text for word in words)))}"

    def peek(self) -> Token | None:
        return self._tokens[self._at] if self._at < len(self._tokens) else None

    def next_text(self) -> str:
        """What stands next, whatever it is."""
        token = self.peek()
        return token.text if token else ""

    def take(self, what: str) -> Token:
        """The next name or number."""
        token = self.peek()
        if token is None or token.kind == "sign":
            raise self.expected(what)
        self._at += 1
        return token

    def skip(self, *words: str) -> bool:
        """Goes past these words if they stand next."""
        ahead = self._tokens[self._at : self._at + len(words)]
        if [token.text for token in ahead] != [*words] or any(t.kind == "quoted" for t in ahead):
            return False
        self._at += len(words)
        return True

    def want(self, *words: str) -> None:
        if not self.skip(*words):
            raise self.expected(" ".join(words))

    def choose(self, words: Iterable[str], what: str) -> str:
        """Goes past one of these words."""
        token = self.peek()
        if token is None or token.kind == "quoted" or token.text not in words:
            raise self.expected(what)
        self._at += 1
        return token.text

    def whole_number(self, what: str, low: int, high: int) -> int:
        wanted = f"{what}, a whole number from {low:,} to {high:,}"
        token = self.peek()
        if token is None or token.number is None or not low <= token.number <= high:
            raise self.expected(wanted)
        self._at += 1
        return token.number

    def end(self) -> None:
        if self.peek():
            raise self.expected("the end of the line")


_KEYWORDS = ("value", "and", "at", "most", "or")


class Mistakes:
    """The mistakes of one text, which are told at once and in line order."""

    def __init__(self, file: str):
        self.file = file
        self._found: list[WrongText] = []

    def add_if_none(self, lines: dict[str, list[tuple[int, str]]], message: str) -> None:
        """A mistake of the whole text, at its last line, where no line has one of its own."""
        if not self._found:
            self.add(max((number for part in lines.values() for number, _ in part), default=1), message)

    def add(self, line: int, message: str) -> None:
        self._found.append(WrongText(self.file, line, message))
        if len(self._found) == _MOST_MISTAKES:
            self.tell()

    def tell(self) -> None:
        """Raises what was found."""
        if self._found:
            raise WrongTexts(sorted(self._found, key=lambda one: one.line))


def numbered_lines(text: str) -> Iterator[tuple[int, str]]:
    """The lines of a text one by one; they are cut out a part at a time, and never stand all in memory."""
    at, number = 0, 1
    while at <= len(text):
        end = text.find("\n", at + _PART)
        end = len(text) if end < 0 else end
        part = text[at:end].split("\n")
        yield from enumerate(part, number)
        at, number = end + 1, number + len(part)


def sorted_lines(
    text: str, kinds: Mapping[str, int], what: str, mistakes: Mistakes, of: str
) -> dict[str, list[tuple[int, str]]]:
    """The lines that say something, numbered, by their kinds, which are their first words: as many at most of each
    as that which the text is of can have."""
    found: dict[str, list[tuple[int, str]]] = {kind: [] for kind in kinds}
    for number, line in numbered_lines(text):
        words = line.split(None, 1)
        if not words or words[0][0] == "#":
            continue
        kind = words[0]
        if kind not in found or len(line) > MAX_LINE:
            try:
                kind = Line("", number, tokens_of(line, "", number)).choose(found, what)
            except WrongText as error:
                mistakes.add(number, error.message)
                continue
        found[kind].append((number, line))
        if len(found[kind]) > kinds[kind]:
            mistakes.add(number, f"{of} has at most {kinds[kind]:,} {kind}s")
            mistakes.tell()
    return found


def take_lines(
    lines: Iterable[tuple[int, str]],
    take: Callable[[Line, _Target], None],
    target: _Target,
    mistakes: Mistakes,
    stand_in: Callable[[str, _Target], None] = lambda name, target: None,
) -> None:
    """Takes each line into the target. What is wrong is a mistake of its line; the name that it would have given
    stands all the same, so that the lines which use it are not wrong too."""
    for number, text in lines:
        name = ""
        try:
            line = Line(mistakes.file, number, tokens_of(text, mistakes.file, number))
            line.take("its kind")
            name = line.next_text()
            take(line, target)
        except (WrongText, WrongName, WrongGraph) as error:
            mistakes.add(number, error.message if isinstance(error, WrongText) else str(error))
            with contextlib.suppress(WrongName, WrongGraph):
                stand_in(name, target)


def tokens_of(line: str, file: str, number: int) -> list[Token]:
    """The words, names and signs of a line, without its comment."""
    if len(line) > MAX_LINE:
        raise WrongText(file, number, f"a line has at most {MAX_LINE:,} characters, and this has {len(line):,}")
    at, line, tokens = 0, line.rstrip(), []
    while at < len(line):
        found = _TOKEN.match(line, at)
        if not found:
            raise WrongText(file, number, "expected a closing quote")
        at = found.end()
        kind, text = str(found.lastgroup), found[str(found.lastgroup)]
        if kind == "quoted":
            tokens.append(Token(kind, unquoted(text, file, number)))
        elif kind != "comment":
            tokens.append(Token(kind, _SIGNS.get(text, text)))
    return tokens


def unquoted(text: str, file: str, number: int) -> str:
    """The name that is quoted."""
    try:
        name = json.loads(text)
        name.encode("utf-8")
    except (ValueError, UnicodeError):
        raise WrongText(file, number, f"expected a name quoted as in JSON, found {shortened(text)}") from None
    if not name:
        raise WrongText(file, number, "expected a name, found an empty one")
    return name


def meant(token: Token) -> str | int:
    """A name; a bare number is a number."""
    return token.text if token.number is None else token.number


def take_label_name(line: Line) -> str:
    """The name that a label line gives."""
    token = line.take("the name of a label")
    if token.number is not None:
        raise line.error(f'expected the name of a label, found {token.text}; quote a name of digits: "{token.text}"')
    return token.text


def take_node_name(line: Line, place: int) -> str | None:
    """The name of the node at this place; its own id leaves it without a name."""
    token = line.take("the name of a node")
    if token.number is None:
        return token.text
    if token.number != place:
        raise line.error(
            f"expected a name, or {place}, the id of this node, found {token.text}; "
            f'quote a name of digits: "{token.text}"'
        )
    return None


def take_edge(line: Line) -> tuple[str | int, str | int]:
    """Both ends of an edge line."""
    start = meant(line.take("the node that the edge starts at"))
    line.want("->")
    end = meant(line.take("the node that the edge ends at"))
    line.end()
    return start, end
