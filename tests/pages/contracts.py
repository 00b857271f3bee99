#!/usr/bin/env python3
"""Prints docs/CONTRACTS.md: every public function of every library, with its contract as the code has it.

Fails, and names them, where functions have no `ensures` and docs/EXCEPTIONS.md does not say so.
"""

import re
import sys
from pathlib import Path
from typing import NamedTuple

ROOT = Path(__file__).resolve().parents[2]

INTRODUCTION = """# Every public function, and its contract

Made from the code by `tests/contracts.sh --write`; `make test` fails where it is not what the code says, or where a public function has no `ensures`.

In a contract the name of a parameter stands for what was lent: the list of its bytes or words as the call begins. With a ′ it is what is left there as the function returns. Where a function has several promises of a kind, each has a name before a colon. What the type of a parameter asks of its values stands among the `requires`, with the type's name. A function without `requires` takes any input. The definitions that a contract names stand in the files listed below it; what a contract leaves open is in [EXCEPTIONS.md](EXCEPTIONS.md).
"""

FUNCTION = re.compile(
    r"(?P<comment>(?:^//.*\n)*)(?:^#\[(?:[^\]]|\](?!\n))*\]\n)*"
    r'^pub (?:extern "C" )?fn (?P<name>\w+)(?P<types><(?:->|[^<>])*>)?\((?P<parameters>(?:[^()]|\([^()]*\))*)\)(?P<result> -> [^\n{]+?)?'
    r"(?P<contract>(?:\n    (?:requires|ensures)\b.*(?:\n     .*)*)*)(?: \{|\n\{)$",
    re.MULTILINE,
)
CLAUSE = re.compile(r"^    (requires|ensures)( \w+)? \{ (.*) \}$")
PROVIDED = re.compile(r"^ghost use Rattle\.(\w+)\.specs\.([\w.]+)\.\{([^}]*)\};", re.MULTILINE)
# the methods of a type, indented below it
METHODS = re.compile(r"^impl(?:<[^>]*>)? (?P<type>\w+)(?:<[^>]*>)? \{\n(?P<body>.*?)^\}$", re.MULTILINE | re.DOTALL)
# a type, and what its ghost fields ask of its values
TYPE = re.compile(r"^(?:pub )?struct (?P<name>\w+)(?:<[^>]*>)? \{\n(?P<body>.*?)^\}$", re.MULTILINE | re.DOTALL)
FACT = re.compile(r"^    (?:pub )?ghost \w+: \{ (.*) \},$", re.MULTILINE)
FIELD = re.compile(r"^    (?:pub )?(\w+): ", re.MULTILINE)
PARAMETER = re.compile(r"(\w+): &?(?:'\w+ )?(?:mut )?(\w+)")
WORD = re.compile(r"[\w'-]+")


class Function(NamedTuple):
    name: str
    comment: str
    signature: str
    contract: list  # (requires or ensures, the term) in words of the page
    seen: bool  # whether other crates can name it


def plain(term):
    """A term of a contract in words of the page: names for what is lent, names with ′ for what is left."""
    term = re.sub(r"\b(\w+)\.entry\.", r"\1.", term)
    term = re.sub(r"\b(\w+)\.(?:now|old)\b", r"\1", term)
    return re.sub(r"\b(\w+)\.new\b", r"\1′", term)


def clauses_of(contract):
    """The clauses of a contract; one may stand in several lines, and may have a name."""
    for clause in re.sub(r"\n     +", " ", contract).splitlines()[1:]:
        found = CLAUSE.match(clause)
        if not found:
            sys.exit(f"a clause stands in a form that tests/pages/contracts.py cannot read: {clause}")
        name = f"{found[2].strip()}: " if found[2] else ""
        yield found[1], name + plain(found[3])


def facts_of(text):
    """What types of a text ask of their values: {type: (fields, facts, the text)}, of those that ask anything."""
    types = {}
    for found in TYPE.finditer(text):
        facts = [plain(fact) for fact in FACT.findall(found["body"])]
        if facts:
            types[found["name"]] = FIELD.findall(found["body"]), facts, text
    return types


def asked_by_types(parameters, owner, types):
    """What the types of a function's parameters ask, as clauses about these parameters."""
    lent = PARAMETER.findall(parameters)
    if owner and re.match(r"&?(?:mut )?self\b", parameters):
        lent.insert(0, ("self", owner))
    for parameter, name in lent:
        fields, facts, _ = types.get(name, ([], [], ""))
        for fact in facts:
            own = re.sub(r"(?<!\.)\b(\w+)\b", lambda word: f"{parameter}.{word[1]}" if word[1] in fields else word[1], fact)
            yield "requires", f"(by the type {name}) {own}"


def read_from(text):
    """The public functions of a text as they are found in it, each with the type whose method it is, or none."""
    for found in FUNCTION.finditer(text):
        yield "", found
    for methods in METHODS.finditer(text):
        body = re.sub(r"^    ", "", methods["body"], flags=re.MULTILINE)
        for found in FUNCTION.finditer(body):
            yield methods["type"], found


def functions_of(file, exported, asking):
    """The public functions of a source file. One in a form that is not known here would be left out: that is an error."""
    text = file.read_text(encoding="utf-8")
    every = re.findall(r'^ *pub (?:extern "C" )?fn (\w+)', text, re.MULTILINE)
    read = list(read_from(text))
    if sorted(every) != sorted(found["name"] for _, found in read):
        sys.exit(f"{file.relative_to(ROOT)}: a public function stands in a form that tests/pages/contracts.py cannot read")
    for owner, found in read:
        name = f"{owner}::{found['name']}" if owner else found["name"]
        parameters = ", ".join(re.sub(r",\s*$", "", found["parameters"].strip()).split(",\n    "))
        types = found["types"] if found["types"] and ":" in found["types"] else ""
        contract = [*asked_by_types(parameters, owner, asking), *clauses_of(found["contract"])]
        comment = " ".join(line[3:] for line in found["comment"].splitlines())
        seen = file.name == "lib.rt" or (owner or found["name"]) in exported
        yield Function(name, comment, f"{name}{types}({parameters}){found['result'] or ''}", contract, seen)


def definitions_of(text, functions):
    """Which names of these contracts come from which files: {(crate, file): names}."""
    said = set(WORD.findall(" ".join(term for function in functions for _, term in function.contract)))
    places = {}
    for crate, file, names in PROVIDED.findall(text):
        if file == "Prelude":
            continue  # the kit's plain words, in every contract
        cited = {name.strip() for name in names.split(",")} & said
        if cited:
            places.setdefault((crate, file), set()).update(cited)
    return places


def told(function):
    """A function as it stands on the page."""
    lines = [f"// {function.comment}"] if function.comment else []
    if not function.seen:
        lines.append("// (inside this crate alone)")
    lines.append(function.signature)
    lines += [f"    {word} {term}" for word, term in function.contract]
    return "\n".join(lines)


def all_facts():
    """What the types of all crates ask of their values; crates lend them to one another under their own names."""
    types = {}
    for file in sorted(ROOT.glob("crates/*/src/*.rt")):
        types.update(facts_of(file.read_text(encoding="utf-8")))
    return types


def section(folder):
    """The page's section of a crate, and its functions."""
    asking = all_facts()
    files = [folder / "src" / "lib.rt"] + sorted(file for file in (folder / "src").glob("*.rt") if file.name != "lib.rt")
    root = files[0].read_text(encoding="utf-8")
    exported = re.findall(r"\w+", " ".join(re.findall(r"^pub use \w+::([^;]+);", root, re.MULTILINE)))
    functions = [function for file in files for function in functions_of(file, exported, asking)]
    if not functions:
        return "", []
    purpose = re.match(r"// (.*)\n", root)
    parts = [f"## {folder.name}\n", f"{purpose[1]}\n" if purpose else "", "```text"]
    parts.append("\n\n".join(told(function) for function in functions) + "\n```\n")
    clauses = [term for function in functions for _, term in function.contract]
    cited = [text for name, (_, _, text) in asking.items() if any(term.startswith(f"(by the type {name}) ") for term in clauses)]
    places = definitions_of("".join(file.read_text(encoding="utf-8") for file in files) + "".join(cited), functions)
    for (crate, file), names in sorted(places.items()):
        path = f"crates/{crate}/specs/{file}.antt"
        place = f"[{crate}/{file}](../{path})" if (ROOT / path).exists() else f"{crate}/{file} of the kit"
        parts.append(f"- {place}: {', '.join(f'`{name}`' for name in sorted(names))}")
    return "\n".join(parts) + "\n", functions


def is_excepted(crate, name, exceptions):
    return re.search(rf"`{crate}::{name}`.* nothing is promised ", exceptions) is not None


def main():
    exceptions = (ROOT / "docs" / "EXCEPTIONS.md").read_text(encoding="utf-8")
    page, missing = [INTRODUCTION], []
    for folder in sorted(file.parents[1] for file in ROOT.glob("crates/*/src/lib.rt")):
        text, functions = section(folder)
        page += [text] if text else []
        for function in functions:
            if "ensures" not in dict(function.contract) and not is_excepted(folder.name, function.name, exceptions):
                missing.append(f"{folder.name}::{function.name} has no ensures")
    print("\n".join(page), end="")
    print("\n".join(missing), file=sys.stderr, end="\n" if missing else "")
    return 1 if missing else 0


if __name__ == "__main__":
    sys.exit(main())
