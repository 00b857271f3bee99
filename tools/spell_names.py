#!/usr/bin/env python3
"""Brings the names of the definitions and lemmas of crates/ to today's spelling, once, right after the kit's own script has run.

usage: tools/spell_names.py COMMIT      COMMIT: the last one in the older spelling

A word in camel case turns to snake case; a lemma's dash, which joins two names, stays or comes back; the proof of a function f is
f_spec. Types, facts and modules keep their capitals. Functions of src/, exported names, strings, inputs and outputs keep their names.
It says which names it turned, and stops where two would fall together.
"""
import collections
import re
import subprocess
import sys
from pathlib import Path

DECLARED = re.compile(r"(?m)^ *(?:(?:abbrev|unfoldable|pub|record|data|ruleset)\s+)*([^\s(){}.;,@\"«»:]+)"
                      r"(?:\s+\([^\n]*?\)|\s+\{[^\n]*?\})*\s*:(?!=)\s")
TOKEN = re.compile(r"[A-Za-z0-9_'′₀-₉-]+")
USE = re.compile(r"(?m)^\s*(?:ghost\s+)?(?:pub\s+)?use\s+Rattle\.(\w+)\.[^\n;]*?\.\{([^}]*)\}")
CLAUSE = re.compile(r"\b(?:requires|ensures)\b[^{\n]*\{|\bghost\b[^;{\n]*\{")


def landed(commit):
    """Each name that stood declared in specs/ or proofs/ at the commit."""
    names = set()
    listed = subprocess.run(["git", "ls-tree", "-r", "--name-only", commit, "crates"], capture_output=True, text=True, check=True).stdout
    for path in listed.split("\n"):
        if path.endswith(".antt"):
            text = subprocess.run(["git", "show", f"{commit}:{path}"], capture_output=True, text=True, check=True).stdout
            names |= {m[1] for m in DECLARED.finditer(re.sub(r"--[^\n]*", "", text))}
    return names


def snake(word):
    return re.sub(r"(?<=[a-z0-9])([A-Z])", lambda m: "_" + m[1].lower(), word)


def spelled(name):
    """The spelling of today: each part between dashes in snake case, a prime as an apostrophe."""
    return "-".join(snake(p) if p[:1].islower() else p for p in name.split("-")).replace("′", "'")


def clauses(text):
    """The spans of a source file that are no code: comments, clauses, ghost blocks and ghost use items."""
    spans = [m.span() for m in re.finditer(r"//[^\n]*|ghost\s+use\b[^;]*;", text)]
    for m in CLAUSE.finditer(text):
        depth, at = 1, m.end()
        while depth and at < len(text):
            depth += {"{": 1, "}": -1}.get(text[at], 0)
            at += 1
        spans.append((m.end(), at))
    return spans


def main():
    commit = sys.argv[1]
    old = landed(commit)
    back, turned, both = {}, {}, set()
    files = [p for p in sorted(Path("crates").rglob("*")) if p.suffix in (".antt", ".rt", ".edit") and "out" not in p.parts]
    standing = {w for p in files for w in TOKEN.findall(p.read_text())}
    # what the kit's script left as it was cannot be what it turned
    by_kit_too = {snake(n) for n in old if "-" not in n and n not in standing} | {n for n in old if "-" not in n and snake(n) == n}
    for name in sorted(old):
        new = spelled(name)
        if new != name:
            turned[name] = new
        if "-" in name and not name.endswith("-spec"):
            by_kit = snake(name.replace("-", "_"))
            if by_kit in back and back[by_kit] != new:
                print(f"left: {by_kit} may be {back[by_kit]} or {new}")
            if name in standing:
                continue
            back[by_kit] = new
            if by_kit in by_kit_too:
                both.add(by_kit)
    count = collections.Counter()
    fields = set()
    for path in files:
        if path.suffix == ".antt":
            fields |= {m[1] for m in re.finditer(r"(?m)^  +pub ([^\s:(){}]+) :", path.read_text())}
    for path in files:
        text = path.read_text()
        mine = {m[1] for m in DECLARED.finditer(text)} if path.suffix == ".antt" else set()
        foreign = set()
        for m in USE.finditer(text):
            items = {i.split(" as ")[-1].strip() for i in m[2].split(",")}
            (foreign.update if m[1] == "std" else mine.update)(items)
        before = subprocess.run(["git", "show", f"{commit}:{path}"], capture_output=True, text=True).stdout

        def one(m):
            word = m[0]
            if path.name == "Proof.antt" and word.endswith("-spec"):
                return word.replace("-", "_")
            if word in turned:
                count[f"{word} -> {turned[word]}"] += 1
                return turned[word]
            if word in back and (word in mine or (word in fields and text[m.start() - 1] == ".")) and word not in foreign \
                    and (word not in both or back[word] in before):
                count[f"{word} -> {back[word]}"] += 1
                return back[word]
            if word in back and word in foreign and word in mine:
                print(f"left: {path}: {word} is both the library's and ours")
            return word

        if path.suffix == ".edit" and "file: specs/" not in text:
            continue
        if path.suffix != ".rt":
            new = TOKEN.sub(one, text)
        else:
            spans = clauses(text)
            new = TOKEN.sub(lambda m: one(m) if any(a <= m.start() < b for a, b in spans) else m[0], text)
        if new != text:
            path.write_text(new)
    falls = collections.defaultdict(set)
    for name in old:
        falls[turned.get(name, name)].add(name)
    for new, names in sorted(falls.items()):
        if len(names) > 1:
            print(f"look: {' and '.join(sorted(names))} are both {new} now")
    for said in sorted(count):
        print(f"turned: {said} ({count[said]})")


main()
