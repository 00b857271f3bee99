#!/usr/bin/env python3
"""The seconds of a whole `make test`, from what it left in target/gate.

times.py                writes them into the table of docs/CHECK-TIMES.md
times.py BEFORE AFTER   prints what a note in docs/changes says: BEFORE and AFTER are target/gate as two
                        runs on one machine left it
"""

import re
import sys
from pathlib import Path

from estimate import spoken

ROOT = Path(__file__).resolve().parents[2]
PAGE = ROOT / "docs" / "CHECK-TIMES.md"
STEPS = ["step", "seconds", "what it does"]
WORDS = {
    "format": "the layout of the code",
    "contracts": "contracts, and the pages made from the code",
    "telling": "the gate's own tests",
    "reading": "the second reading's own tests, beside the proofs",
    "proofs": "`rt ci`: every crate, every must-fail edit, every program",
    "library": "the archive and the libraries, of what was proved",
    "programs": "the program of the rules, on files that are too long, missing or unreadable",
    "boundary": "the library's calls against the second reading",
    "desk": "what stands before the library: command, Rust, C, installing",
    "wasm-test": "the library as WebAssembly: in node, and against the second reading",
    "board-test": "the drawing board in a browser",
    "gate": "the whole",
}


def steps_in(logs):
    """The seconds of each step, the last run of it."""
    lines = (logs / "seconds.txt").read_text(encoding="utf-8").splitlines()
    return {step: int(seconds) for step, seconds in (line.split(": ") for line in lines)}


def new_in(logs):
    """How many of the proofs and must-fail edits rt ci did in this run; the others were kept from earlier ones."""
    text = (logs / "proofs.log").read_text(encoding="utf-8")
    found = re.search(r"^rt: ok;.* done in this run: (\d+ of the \d+ proofs).*?( and \d+ of the \d+ must-fail edits)?;", text, re.MULTILINE)
    return found[1] + (found[2] or "") if found else "all"


def table(heading, rows):
    lines = [heading, ["---"] * len(heading)] + rows
    return ["| " + " | ".join(map(str, cells)) + " |" for cells in lines]


def put_table(lines, new):
    """The page with this table in the place of the one with the same first heading; one that it has not yet comes first."""
    first = new[0].split("|")[1]
    begin = next((at for at, line in enumerate(lines) if line.startswith(f"|{first}|")), None)
    if begin is None:
        return lines[:2] + new + [""] + lines[2:]
    end = begin
    while end < len(lines) and lines[end].startswith("|"):
        end += 1
    return lines[:begin] + new + lines[end:]


def write_page():
    steps = steps_in(ROOT / "target" / "gate")
    lines = PAGE.read_text(encoding="utf-8").splitlines()
    lines = put_table(lines, table(STEPS, [[step, seconds, WORDS.get(step, "")] for step, seconds in steps.items()]))
    PAGE.write_text("\n".join(lines) + "\n", encoding="utf-8")


def compared(before, after):
    """What a note says: the whole, rt ci, and how much of it was done in the run."""
    sides = [before, after]
    rows = [[what, *(spoken(steps_in(logs)[step]) for logs in sides)] for what, step in (("whole `make test`", "gate"), ("`rt ci`", "proofs"))]
    rows.append(["done in the run", *map(new_in, sides)])
    return table(["", "before", "after"], rows)


if __name__ == "__main__":
    if len(sys.argv) == 1:
        write_page()
    elif len(sys.argv) == 3:
        print("\n".join(compared(Path(sys.argv[1]), Path(sys.argv[2]))))
    else:
        sys.exit(__doc__)
