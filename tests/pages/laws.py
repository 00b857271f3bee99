#!/usr/bin/env python3
"""Prints docs/LAWS.md: the files of crate laws, what each speaks of, and the names that it gives."""

import re
from pathlib import Path

ROOT = Path(__file__).resolve().parents[2]
NAMED = re.compile(r"^ *(?:unfoldable +|abbrev +)*pub +(?:(?:unfoldable|abbrev|record|data|ruleset) +)*([^\s:(){}\[\],;|=]+)")

INTRODUCTION = """# The laws there are

Made from crates/laws by `tests/contracts.sh --write`; `make test` fails where it is not what the code says. A proof of any crate may cite these. A file is named for what it speaks of; its statements stand in the order below.
"""


def names_in(text):
    """The names that a file gives, fields of records left out."""
    names, fields = [], False
    for line in text.splitlines():
        if re.match(r"^ *pub record ", line):
            fields = True
        elif not line.startswith("  "):
            fields = False
        found = NAMED.match(line)
        if found and (not fields or line.lstrip().startswith("pub record ")):
            names.append(found[1])
    return names


def section(file):
    text = file.read_text(encoding="utf-8")
    purpose = re.match(r"-- (.*?)(?: Assumes nothing\.)?\n", text)
    names = ", ".join(f"`{name}`" for name in names_in(text))
    return f"- [{file.stem}](../crates/laws/specs/{file.name}): {purpose[1]}\n  {names}"


def main():
    files = sorted(file for file in (ROOT / "crates" / "laws" / "specs").glob("*.antt") if file.name != "Lib.antt")
    print(INTRODUCTION)
    for file in files:
        print(section(file))


if __name__ == "__main__":
    main()
