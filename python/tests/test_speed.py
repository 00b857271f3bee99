"""The time that commands take of a processor, at 60,000 nodes and 200,000 edges, and the line that tells of long work."""

import io
import os
import random
import subprocess
import sys
import time
import unittest
from pathlib import Path
from unittest import mock

from bahrufaz import progress

from .commands import CommandCase
from .worlds import CHECKOUT

LABELS = {"locale": 20, "format": 200, "screen": 5_000, "field": 24_780, "caption": 30_000}
CONSTRAINTS = (
    "-> locale at most 20",
    "locale -> format at most 10",
    "format -> field at most 130",
    "field -> screen at most 1",
    "field, locale -> caption at most 20",
)
# seconds; half of each is what was aimed at, and was met on the machine it was written on
MOST = {"build": 4.0, "measure": 6.0, "import": 6.0, "plan": 0.5, "list": 0.5}


def large_edges() -> list[tuple[str, str]]:
    draw = random.Random(1)
    edges = {(f"locale.{at % 20}", f"format.{at}") for at in range(200)}
    for at in range(24_780):
        edges |= {(f"screen.{at % 5_000}", f"field.{at}"), (f"field.{at}", f"format.{at % 200}")}
    edges |= {(f"locale.{at % 20}", f"caption.{at}") for at in range(30_000)}
    while len(edges) < 200_000:
        edges.add((f"caption.{draw.randrange(30_000)}", f"field.{draw.randrange(24_780)}"))
    return sorted(edges)


class Speed(CommandCase):
    def write_large_world(self):
        nodes, edges = [(f"{label}.{at}", label) for label, count in LABELS.items() for at in range(count)], large_edges()
        text = [f"label {label}" for label in LABELS] + [f"node {name} {label}" for name, label in nodes]
        text += [f"edge {start} -> {end}" for start, end in edges] + [f"constraint {one}" for one in CONSTRAINTS]
        Path("large.feed").write_text("\n".join(text) + "\n")
        Path("edges.csv").write_text("from,to\n" + "".join(f"{start},{end}\n" for start, end in edges))
        Path("nodes.csv").write_text("name,label\n" + "".join(f"{name},{label}\n" for name, label in nodes))
        Path("large.pat").write_text("node l locale\nnode f format\nnode d field\nedge l -> f\nedge d -> f\n")

    def seconds(self, *arguments: str) -> float:
        before = os.times()
        environment = {"PATH": os.environ["PATH"], "PYTHONPATH": str(CHECKOUT / "python")}
        command = [sys.executable, "-m", "bahrufaz", *arguments]
        subprocess.run(command, env=environment, stdout=subprocess.DEVNULL, check=True)
        after = os.times()
        return after.children_user - before.children_user + after.children_system - before.children_system

    @unittest.skipUnless(hasattr(os, "times"), "times of processes are not told here")
    def test_commands_at_60_000_nodes(self):
        self.write_large_world()
        for command in (
            ["build", "large.feed", "-o", "large.store"],
            ["plan", "large.store", "large.pat"],
            ["list", "--limit", "100", "large.store", "large.pat"],
            ["measure", "large.feed"],
            ["import", "edges.csv", "--nodes", "nodes.csv", "-o", "got.feed"],
        ):
            with self.subTest(command=command[0]):
                self.assertLess(self.seconds(*command), MOST[command[0]])


class Terminal(io.StringIO):
    def isatty(self) -> bool:
        return True


class Progress(unittest.TestCase):
    def told(self, stream: io.StringIO, seconds: float) -> str:
        with mock.patch("sys.stderr", stream), mock.patch.object(progress, "_PATIENCE", 0.05):
            with progress.working("building w"):
                time.sleep(seconds)
        return stream.getvalue()

    def test_a_line_while_work_is_long_and_a_person_looks(self):
        self.assertEqual(self.told(Terminal(), 0.5), "\rbuilding w ..\r" + " " * 13 + "\r")

    def test_nothing_where_work_is_short_or_nobody_looks(self):
        self.assertEqual(self.told(Terminal(), 0), "")
        self.assertEqual(self.told(io.StringIO(), 0.2), "")
