"""What the documents show: their blocks, and the commands in them, run in a scratch copy of the checkout.

A block of ```console has commands after '$ ' and below each what it prints, errors too. A line of three dots stands for
any lines. '<!-- needs dot -->' before a block: it is run only where Graphviz is installed.

python3 -m tests.documents (in python/) writes into the documents what the commands print now: read the difference.
"""

from __future__ import annotations

import os
import re
import shutil
import subprocess
import sys
import tempfile
from pathlib import Path
from typing import Iterator, NamedTuple

from .worlds import CHECKOUT

ANY_LINES = "..."
_FENCE = re.compile(r"^```(\w*)\n(.*?)^```$", re.MULTILINE | re.DOTALL)
_NEEDS_DOT = "<!-- needs dot -->\n"


class Block(NamedTuple):
    """A block of a document: its language, its text, the line it starts at."""

    document: Path
    language: str
    text: str
    line: int
    needs_dot: bool

    @property
    def can_run(self) -> bool:
        return not self.needs_dot or shutil.which("dot") is not None


class Command(NamedTuple):
    """A command, and the lines that the document shows below it."""

    command: str
    shown: list[str]


def documents() -> list[Path]:
    """The documents for people: those at the top, docs/, and those of examples and bindings."""
    found = [*CHECKOUT.glob("*.md"), *(CHECKOUT / "docs").rglob("*.md"), *(CHECKOUT / "examples").rglob("*.md")]
    return sorted(found + list((CHECKOUT / "rust").glob("*.md")) + list((CHECKOUT / "python").glob("*.md")))


def blocks(document: Path) -> Iterator[Block]:
    text = document.read_text(encoding="utf-8")
    for found in _FENCE.finditer(text):
        line = text.count("\n", 0, found.start()) + 1
        yield Block(document, found[1], found[2], line, text[: found.start()].endswith(_NEEDS_DOT))


def commands(block: Block) -> list[Command]:
    told: list[Command] = []
    for line in block.text.splitlines():
        if line.startswith("$ "):
            told.append(Command(line[2:], []))
        elif told:
            told[-1].shown.append(line)
    return told


def agrees(shown: list[str], printed: list[str]) -> bool:
    """Whether what is printed is what is shown; three dots stand for any lines."""
    if not shown:
        return not printed
    if shown[0] == ANY_LINES:
        return any(agrees(shown[1:], printed[skipped:]) for skipped in range(len(printed) + 1))
    return bool(printed) and shown[0] == printed[0] and agrees(shown[1:], printed[1:])


_SHARED = ("crates", "crates.txt", "target")
_COPIED = ("Makefile", "VERSION", "bin", "docs", "examples", "include", "lib", "python", "rust", "share")


def _copy(entry: Path, to: Path) -> None:
    if entry.is_dir():
        shutil.copytree(entry, to, ignore=shutil.ignore_patterns("target", "__pycache__"))
    else:
        shutil.copy2(entry, to)


class Scratch:
    """A directory that looks like the checkout; what is written there stays there."""

    def __enter__(self) -> Scratch:
        self._directory = tempfile.TemporaryDirectory()
        self.path = Path(self._directory.name) / "bahrufaz"
        self.path.mkdir()
        for name in _SHARED:
            (self.path / name).symlink_to(CHECKOUT / name)
        for name in _COPIED:
            _copy(CHECKOUT / name, self.path / name)
        return self

    def __exit__(self, *_: object) -> None:
        self._directory.cleanup()

    def run(self, command: str) -> list[str]:
        """The lines that a command prints, errors among them."""
        environment = {
            "PATH": f"{self.path / 'bin'}{os.pathsep}{os.environ['PATH']}",
            "HOME": self._directory.name,
            "LANG": "C.UTF-8",
            "COLUMNS": "80",
            "PYTHONPATH": str(self.path / "python"),
        }
        done = subprocess.run(
            ["bash", "-c", command],
            cwd=self.path,
            env=environment,
            stdout=subprocess.PIPE,
            stderr=subprocess.STDOUT,
            check=False,
        )
        return done.stdout.decode("utf-8").splitlines()


def _written(block: Block, scratch: Scratch) -> str:
    """The block with what its commands print now; those with three dots stay."""
    lines = []
    for command, shown in commands(block):
        printed = scratch.run(command)
        lines += [f"$ {command}", *(shown if ANY_LINES in shown else printed)]
    return "\n".join(lines) + "\n"


def _write(document: Path) -> None:
    text = document.read_text(encoding="utf-8")
    with Scratch() as scratch:
        for block in blocks(document):
            if block.language == "console" and block.can_run:
                text = text.replace(f"```console\n{block.text}```", f"```console\n{_written(block, scratch)}```")
    document.write_text(text, encoding="utf-8")


if __name__ == "__main__":
    for one in documents() if len(sys.argv) == 1 else map(Path, sys.argv[1:]):
        _write(one)
