#!/usr/bin/env python3
"""The names that the documents give stand where they say.

`crate/File` is a file of crates/crate (in specs/ or proofs/ if no folder is named, or a must-fail edit),
`crate/File.name` a definition or law in it, `crate::item` a function or type; other paths are those of the checkout,
and are looked for in the first three documents alone, since the last speaks of installed files too. In docs/PROVING.md a bare
name in such quotes must also occur in one of the crates that its line cites. Prints what does not, and fails if
something does not.
"""

import re
import sys
from functools import lru_cache
from pathlib import Path

ROOT = Path(__file__).resolve().parents[2]
DOCUMENTS = ["PROVING.md", "DEMANDS.md", "EXCEPTIONS.md", "DECISIONS.md"]
STATEMENT = re.compile(r"^[a-z_]+(/[A-Z]|::)")
QUOTED = re.compile(r"`([^`\n]+)`")
PATH = re.compile(r"^([a-z_]+)/([\w+/-]+?)(?:\.(antt|rt|sh|py|edit|[\w-]+))?$")
ITEM = re.compile(r"^([a-z_]+)(?:::\w+)*::(\w+)$")
NAME = re.compile(r"^[A-Za-z][\w-]*$")


@lru_cache(maxsize=None)
def words_of(path):
    """The words of a file, or of all files of a crate."""
    files = [path] if path.is_file() else [file for file in path.rglob("*") if file.suffix in (".rt", ".antt")]
    text = "\n".join(file.read_text(encoding="utf-8") for file in files)
    return set(re.findall(r"[A-Za-z][\w'′-]*", text)) | set(re.findall(r"\w+", text))


def places(crate, path):
    """The files that crate/path may be."""
    folder = ROOT / "crates" / crate
    tries = [folder / part / f"{path}.antt" for part in ("specs", "proofs", ".")]
    tries += [folder / path / f"{kind}.antt" for kind in ("Answers", "Invariants", "Proof")]
    tries += [folder / f"{path}.rt", folder / "must-fail" / f"{path}.edit", ROOT / crate / path]
    return [file for file in tries if file.exists()]


def is_there(token):
    """Whether a path or an item stands where it says; None for what is neither."""
    item, path = ITEM.match(token), PATH.match(token)
    if item:
        sources = (ROOT / "crates" / item[1] / "src").glob("*.rt")
        return any(re.search(rf"(?:fn|struct|enum) {item[2]}\b", file.read_text(encoding="utf-8")) for file in sources)
    if path is None:
        return None
    if (ROOT / token).exists() or (ROOT / "crates" / token).exists():
        return True
    return any(path[3] in (None, file.suffix[1:]) or path[3] in words_of(file) for file in places(path[1], path[2]))


def crates_in(tokens):
    """The crates that a line cites."""
    names = {re.split(r"/|::", token)[0] for token in tokens}
    return [ROOT / "crates" / name for name in sorted(names) if (ROOT / "crates" / name / "src").is_dir()]


def missing_in(line, document):
    tokens = QUOTED.findall(line)
    looked_for = [token for token in tokens if document != "DECISIONS.md" or STATEMENT.match(token)]
    missing = [token for token in looked_for if is_there(token) is False]
    cited = crates_in(token for token in tokens if "/" in token or "::" in token)
    if document == "PROVING.md" and cited:
        bare = [token for token in tokens if NAME.match(token)]
        missing += [token for token in bare if not any(token in words_of(crate) for crate in cited)]
    return missing


def main():
    failed = False
    for document in DOCUMENTS:
        lines = (ROOT / "docs" / document).read_text(encoding="utf-8").splitlines()
        for number, line in enumerate(lines, 1):
            for token in missing_in(line, document):
                print(f"docs/{document}:{number}: `{token}` is not there")
                failed = True
    return failed


if __name__ == "__main__":
    sys.exit(main())
