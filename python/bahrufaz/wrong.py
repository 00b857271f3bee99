"""What is wrong before any call is made; each message says what to do."""

from __future__ import annotations

from typing import Sequence

_MOST_TOLD = 20


class Wrong(Exception):
    """Wrong use: nothing was asked of the library."""


class LibraryMissing(Wrong):
    """No library can be loaded."""


class WrongText(Wrong):
    """A text that breaks its form: file, line and what was expected."""

    def __init__(self, file: str, line: int, message: str):
        self.file, self.line, self.message = file, line, message
        super().__init__(f"{file}:{line}: {message}")


class WrongTexts(WrongText):
    """All that is wrong about a text, in line order; file, line and message are those of the first."""

    def __init__(self, mistakes: Sequence[WrongText]):
        super().__init__(mistakes[0].file, mistakes[0].line, mistakes[0].message)
        self.mistakes = tuple(mistakes)

    def __str__(self) -> str:
        told = [str(one) for one in self.mistakes[:_MOST_TOLD]]
        if len(self.mistakes) > _MOST_TOLD:
            told.append(f"{self.file}: {len(self.mistakes) - _MOST_TOLD} more mistakes")
        return "\n".join(told)


class WrongName(Wrong):
    """A name that nothing has, or that something has already."""


class WrongGraph(Wrong):
    """Something that no store or pattern can hold."""
