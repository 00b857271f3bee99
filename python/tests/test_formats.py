"""The cases of tests/formats, which the reader of the drawing board is run on too."""

import json
import tempfile
import unittest
from pathlib import Path

from bahrufaz import Graph, Pattern, WrongText
from bahrufaz.namesfile import read_names
from bahrufaz.text import read_text

from .worlds import CHECKOUT

FORMATS = CHECKOUT / "tests" / "formats"
EMPTY_STORE = b"".join(word.to_bytes(4, "little") for word in [1, 0, 0, 0, 0, 0] + [48] * 6)


def _pairs(naming):
    return [[number, name] for number, name in naming.items()]


def _feed(path, _):
    graph = Graph.of_text(read_text(path))
    return {"draft": graph.draft().hex(), "labels": _pairs(graph.names.labels), "nodes": _pairs(graph.names.nodes)}


def _pat(path, case):
    pattern = Pattern.of_text(read_text(path))
    names = Graph.of_text(case["graph"]).names if "graph" in case else None
    return {"pattern": pattern.encode(names).hex(), "columns": pattern.node_names()}


def _names(path, _):
    names = read_names(path, EMPTY_STORE)
    return {"labels": _pairs(names.labels), "nodes": _pairs(names.nodes)}


def _outcome(read, path, case):
    """What is read, or the mistakes with their lines."""
    try:
        return read(path, case)
    except WrongText as error:
        return {"mistakes": [[one.line, one.message] for one in getattr(error, "mistakes", [error])]}


def _cut(told, wanted):
    """A mistake that ends in '...' is compared up to there."""
    for ours, theirs in zip(told.get("mistakes", []), wanted.get("mistakes", [])):
        if theirs[1].endswith("..."):
            ours[1] = ours[1][: len(theirs[1]) - 3] + "..."
    return told


class Formats(unittest.TestCase):
    def run_cases(self, form, read):
        cases = json.loads((FORMATS / f"{form}.json").read_text(encoding="utf-8"))
        with tempfile.TemporaryDirectory() as directory:
            path = Path(directory) / f"case.{form}"
            for case in cases:
                given = {"name", "text", "bytes", "graph"}
                wanted = {key: value for key, value in case.items() if key not in given}
                path.write_bytes(bytes.fromhex(case["bytes"]) if "bytes" in case else case["text"].encode())
                with self.subTest(case["name"]):
                    self.assertEqual(_cut(_outcome(read, path, case), wanted), wanted)

    def test_feed(self):
        self.run_cases("feed", _feed)

    def test_pat(self):
        self.run_cases("pat", _pat)

    def test_names(self):
        self.run_cases("names", _names)
