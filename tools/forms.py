#!/usr/bin/env python3
"""Lists the places in src/ that are written in an older form of the language.

tools/forms.py [POINT..] [--all]    the places of each point of docs/DESIGN-PASS.md, or how many with no POINT

It goes by text: each place it finds is to be read, and a place may be right as it stands.
"""
import re
import sys
from collections import defaultdict
from pathlib import Path

TOP = Path(__file__).resolve().parent.parent
NUMBER = r"(?:u8|u16|u32|u64|usize)"


def sources():
    for path in sorted((TOP / "crates").glob("*/src/**/*.rt")):
        yield path.relative_to(TOP), path.read_text().split("\n")


def code(line):
    return line.split("//")[0]


class Function:
    def __init__(self, path, at, name, head, clauses, body):
        self.path, self.at, self.name = path, at, name
        self.head, self.clauses, self.body = head, clauses, body

    def place(self, said=""):
        return f"{self.path}:{self.at} {self.name}" + (f": {said}" if said else "")

    def parameters(self):
        inner = re.search(r"\((.*)\)", self.head, re.S)
        text = inner.group(1) if inner else ""
        return len(re.findall(r"(?:^|[,(]\s*)(?:mut )?[a-z_]+: ", text.strip()))

    def result(self):
        found = re.search(r"\)\s*->\s*(.*)$", self.head, re.S)
        return found.group(1).strip() if found else ""


def functions():
    for path, lines in sources():
        at = 0
        while at < len(lines):
            start = re.match(r'^( *)(?:pub )?(?:extern "C" )?fn ([a-z_0-9]+)', lines[at])
            if not start:
                at += 1
                continue
            indent, name, began = start.group(1), start.group(2), at
            head, clauses = [], []
            while lines[at].rstrip() != indent + "{" and not lines[at].rstrip().endswith(" {"):
                (clauses if re.match(r"\s+(requires|ensures)", lines[at]) else head).append(lines[at])
                at += 1
                if at == len(lines):
                    return
            if lines[at].rstrip() != indent + "{":
                head.append(lines[at].rstrip()[:-1])
            body = []
            at += 1
            while lines[at] != indent + "}":
                body.append(code(lines[at]))
                at += 1
            yield Function(path, began + 1, name, "\n".join(head), clauses, body)


def matching(pattern, skip=r"^\s*(requires|ensures|//|ghost|use|pub use)"):
    for path, lines in sources():
        for at, line in enumerate(lines):
            if re.search(pattern, code(line)) and not re.search(skip, line):
                yield f"{path}:{at + 1} {line.strip()}"


def point_1():
    """own enums, flags beside values, numbers for kinds, refusals and none"""
    yield from matching(r"^(pub )?enum ")
    yield from matching(r"^    (pub )?[a-z_]+: bool,$")
    yield from matching(rf"^    (pub )?(number|mode|above|kind|place): {NUMBER},$")
    for f in functions():
        if f.result() in ("u32", "usize", "u8") and re.search(r"number|rule|admit|gather|read_file", f.name):
            if any(re.search(r"^\s+(return )?\d+;?$", line) for line in f.body):
                yield f.place(f"answers numbers, {f.result()}")
    yield from matching(r"\b(255|65537|4294967295)\b")
    yield from matching(r"\b(let mut w = 65536|edge: pattern::edges_of)")


def shape(f):
    text = " ".join(" ".join(f.body).split())
    text = re.sub(r"\b[a-z_]+::", "", text)
    text = re.sub(r"\b(?!if\b|else\b|while\b|for\b|in\b|let\b|mut\b|return\b|true\b|false\b|match\b|as\b)[A-Za-z_]\w*\b", "i", text)
    return re.sub(r"\b\d+\w*\b", "n", text)


def point_2():
    """functions of one shape: the same but for names and numbers"""
    alike = defaultdict(list)
    for f in functions():
        if len(" ".join(f.body)) > 60:
            alike[shape(f)].append(f)
    for group in alike.values():
        if len(group) > 1:
            yield "; ".join(f"{f.path.parts[1]} {f.name}" for f in group)


def point_3():
    """loops that count by hand, and for loops over numbers"""
    yield from matching(r"^\s+while ")
    yield from matching(r"^\s+for \w+ in [^{]*\.\.")


def point_4():
    """conversions by `as`, and comparisons field by field"""
    yield from matching(rf"\bas {NUMBER}\b")
    for f in functions():
        text = " ".join(f.body)
        if len(re.findall(r"\w+(?:\.\w+)? (?:==|<) \w+(?:\.\w+)?\) *&|\w+\.(\w+) == \w+\.\1", text)) > 1:
            yield f.place("compares field by field")


def point_5():
    """functions of more than 9 parameters, and clauses that stand in three or more functions"""
    shared = defaultdict(set)
    for f in functions():
        if f.parameters() > 9:
            yield f.place(f"{f.parameters()} parameters")
        for clause in f.clauses:
            inner = re.search(r"requires[^{]*\{ (.*) \}$", clause)
            if inner:
                shared[inner.group(1)].add(f"{f.path.parts[1]}::{f.name}")
    for clause, users in shared.items():
        if len(users) > 2:
            yield f"{len(users)} functions require {clause}: {', '.join(sorted(users))}"


def point_6():
    """arrays of numbers that hold a table, parallel arrays, and rooms whose used length is told beside them"""
    yield from matching(rf"^    (pub )?[a-z_]+: \[{NUMBER}; \d+\],$")
    for f in functions():
        if re.search(rf": &(mut )?\[{NUMBER}; \d+\]", f.head):
            yield f.place("is lent an array at offsets")
        if re.search(rf": &mut \[{NUMBER}\]", f.head) and f.result() == "usize":
            yield f.place("tells how much of a room is used")


def point_7():
    """switches on which step to run"""
    yield from matching(r"if \w+\.(mode|kind|above|edge)\b")


def point_8():
    """proofs that walk the code by hand, and names for what is known that say nothing"""
    for path in sorted((TOP / "crates").glob("*/proofs/**/Proof.antt")):
        yield str(path.relative_to(TOP))
    for path in sorted((TOP / "crates").glob("*/proofs/**/*.antt")):
        for at, line in enumerate(path.read_text().split("\n")):
            if re.match(r"^\s+let [a-z_0-9-]+ = c in$", line):
                yield f"{path.relative_to(TOP)}:{at + 1} {line.strip()}"


POINTS = [point_1, point_2, point_3, point_4, point_5, point_6, point_7, point_8]


def main():
    wanted = [int(word) for word in sys.argv[1:] if word.isdigit()]
    for number, point in enumerate(POINTS, 1):
        places = list(point())
        if not wanted or number in wanted:
            print(f"{number}. {len(places)} places: {point.__doc__}")
        if number in wanted:
            for place in places:
                print("   ", place)


if __name__ == "__main__":
    main()
