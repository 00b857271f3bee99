"""The command: what it prints, what it leaves behind, and its exit status."""

import json
import os
import shutil
import subprocess
import sys
import tempfile
import unittest
from pathlib import Path
from unittest import mock

from bahrufaz import Graph, Pattern, library

from .commands import CommandCase
from .worlds import CHECKOUT, EXAMPLES, SMALL, pattern_a, small_world


class Commands(CommandCase):
    def test_build_and_admit(self):
        out = self.answer("build", "world.feed", "-o", "world.store")
        self.assertEqual(
            out,
            "world.store: 7 nodes, 6 edges, 4 constraints, 7 groups, 8 entries, 432 bytes; names in world.names\n",
        )
        self.assertEqual(Path("world.store").read_bytes(), small_world().build().data)
        self.assertIn("world.store is admitted", self.answer("admit", "world.store"))

    def test_build_from_a_draft(self):
        self.answer("build", "--draft", "world.feed", "-o", "draft.bin")
        self.assertEqual(Path("draft.bin").read_bytes(), small_world().draft())
        self.assertIn("; names in again.names\n", self.answer("build", "draft.bin", "-o", "again.store"))
        self.assertEqual(Path("again.store").read_bytes(), small_world().build().data)
        self.assertIn("german  comma   weight  feeding\n", self.answer("list", "again.store", "a.pat"))
        self.assertNotIn("names", self.answer("build", "--no-names", "draft.bin", "-o", "bare.store"))
        self.assert_status(2, "draft.bin is none", "build", "--draft", "draft.bin", "-o", "x.store")

    def test_a_refused_build_leaves_nothing(self):
        text = Path("world.feed").read_text().replace("-> format at most 1", "-> format at most 1 # too few")
        Path("world.feed").write_text(text + "edge english -> comma\n")
        before = sorted(os.listdir("."))
        status, out, err = self.run_command("build", "world.feed", "-o", "world.store")
        self.assertEqual((status, out), (1, ""))
        self.assertEqual(
            err,
            "bahrufaz: world.feed: refused with 4: a list of the graph exceeds its N\n"
            "  locale -> format at most 1: the list of english has 2\n"
            "  raise that N, or find out why the graph has more than was promised\n",
        )
        self.assertEqual(sorted(os.listdir(".")), before)

    def test_wrong_text_leaves_the_old_store(self):
        self.built()
        old = Path("world.store").read_bytes(), Path("world.names").read_bytes()
        Path("world.feed").write_text("node a\n")
        self.assert_status(2, "world.feed:1: expected a label", "build", "world.feed", "-o", "world.store")
        self.assertEqual((Path("world.store").read_bytes(), Path("world.names").read_bytes()), old)

    def test_plan(self):
        out = self.answer("plan", self.built(), "a.pat")
        self.assertTrue(out.startswith("T = 38: listing reads at most 38 entries\n\nstep"))
        self.assertIn("   3  node field            field    format -> field at most 4   format       8\n", out)
        self.assertEqual(self.answer("plan", "world.feed", "a.pat"), out)
        told = json.loads(self.answer("plan", "--json", "world.store", "a.pat"))
        self.assertEqual((told["answer"], told["bound"], len(told["rows"])), (0, 38, 7))
        self.assertEqual(told["rows"][1]["from"], ["place"])

    def test_list(self):
        store = self.built()
        out = self.answer("list", store, "a.pat")
        self.assertEqual(
            out,
            "1 match; 8 entries read of at most 38 (5 for nodes, 3 for edges)\n\n"
            "place   format  field   screen\ngerman  comma   weight  feeding\n",
        )
        self.assertEqual(self.answer("list", "world.feed", "a.pat"), out)
        labels = "label locale 1\nlabel format 2\nlabel screen 3\nlabel field 4\n"
        Path("numbers.pat").write_text(labels + Path("a.pat").read_text())
        self.assertTrue(self.answer("list", "--ids", store, "a.pat").endswith("    1       3      5       4\n"))
        self.assertTrue(self.answer("list", "--no-names", store, "numbers.pat").endswith("    1       3      5       4\n"))
        csv = "place,format,field,screen\ngerman,comma,weight,feeding\n"
        self.assertEqual(self.answer("list", "--csv", store, "a.pat"), csv)
        told = json.loads(self.answer("list", "--json", "--ids", store, "a.pat"))
        self.assertEqual(told["rows"], [[1, 3, 5, 4]])
        self.assertEqual((told["matches"], told["node_entries"], told["edge_entries"]), (1, 5, 3))

    def test_list_without_a_match(self):
        text = Path("a.pat").read_text().replace("value = 2", "value > 2")
        Path("none.pat").write_text(text)
        out = self.answer("list", self.built(), "none.pat")
        self.assertTrue(out.startswith("no match; "))
        self.assertEqual(self.answer("list", "--csv", "world.store", "none.pat"), "place,format,field,screen\n")

    def test_counts_of_many_patterns(self):
        Path("only.pat").write_text("node a screen\n")
        status, out, _ = self.run_command("list", "--count", self.built(), "a.pat", "only.pat")
        self.assertEqual(status, 1)
        self.assertEqual(
            out,
            "pattern   answer  matches  read   T\n"
            "a.pat          0        1     8  38\n"
            "only.pat       7                     a pattern node or edge is not covered\n",
        )
        self.assert_status(2, "more than one pattern", "list", "world.store", "a.pat", "a.pat")

    def test_names(self):
        store = self.built()
        numbers = self.answer("show", "--no-names", store)
        self.assertIn("1 -> 2", numbers)
        os.rename("world.names", "other.names")
        self.assertEqual(self.answer("show", store), numbers)
        named = self.answer("show", "--names", "other.names", store)
        self.assertIn("locale -> format", named)
        self.assertEqual(self.answer("show", "--names", "world.feed", store), named)
        Path("other.feed").write_text(Path("world.feed").read_text().replace("value = 2", "value = 3"))
        self.assert_status(2, "other.feed is not the graph of the store", "show", "--names", "other.feed", store)
        shutil.copy("other.names", "world.names")
        Path(store).write_bytes(Graph.read("other.feed").build().data)
        self.assert_status(2, "world.names:2: these are the names of another store", "show", store)
        self.assert_status(2, "not allowed with argument", "show", "--no-names", "--names", "x", store)

    def test_show(self):
        out = self.answer("show", self.built())
        self.assertIn("7 nodes, 6 edges, 4 constraints, 7 groups, 8 entries, 432 bytes", out)
        self.assertIn("field        4      2\n", out)
        self.assertIn("  2  format -> field   4      2        1  point\n", out)
        told = json.loads(self.answer("show", "--json", "world.store"))
        self.assertEqual(told["constraints"][2]["longest"], 1)

    def test_text(self):
        self.answer("text", self.built(), "-o", "again.feed")
        self.assertEqual(Graph.read("again.feed").draft(), small_world().draft())
        self.assertEqual(self.answer("text", "world.store"), Path("again.feed").read_text())

    def test_a_typed_text_is_not_written_over(self):
        edges = str(EXAMPLES / "import" / "edges.csv")
        typed = Path("world.feed").read_text()
        for command in (["text", self.built()], ["import", edges, "--label", "x"]):
            self.assert_status(2, "world.feed is there already: give --force", *command, "-o", "world.feed")
            self.assert_status(2, "its name must end in .feed", *command, "-o", "world.txt")
            self.assertEqual(Path("world.feed").read_text(), typed)
        self.answer("import", edges, "--label", "x", "-o", "world.feed", "--force")
        self.assertNotEqual(Path("world.feed").read_text(), typed)

    def test_pattern_to_bytes_and_back(self):
        self.assertEqual(self.answer("pattern", "a.pat", self.built(), "-o", "a.bin"), "a.bin: 94 bytes\n")
        self.assertEqual(Path("a.bin").read_bytes(), pattern_a().encode())
        self.assertIn("1 match; ", self.answer("list", "world.store", "a.bin"))
        text = self.answer("pattern", "a.bin", "world.store")
        self.assertIn("node 0  locale  value = 2\n", text)
        Path("again.pat").write_text(text)
        self.assertEqual(Pattern.read("again.pat").encode(small_world().names), pattern_a().encode())
        self.assert_status(2, "no label is named locale", "pattern", "a.pat", "-o", "b.bin")
        self.assert_status(2, "-o is needed", "pattern", "a.pat", "world.store")

    def test_import_measure_and_build(self):
        edges, nodes = str(EXAMPLES / "import" / "edges.csv"), str(EXAMPLES / "import" / "nodes.csv")
        out = self.answer("import", edges, "--nodes", nodes, "-o", "got.feed")
        self.assertEqual(out, "got.feed: 7 nodes, 6 edges, 4 labels; now give it constraints: see 'bahrufaz measure'\n")
        lines = self.answer("measure", "got.feed")
        self.assertIn("constraint locale -> format at most 1\n", lines)
        with open("got.feed", "a", encoding="utf-8") as file:
            file.write(lines)
        self.answer("build", "got.feed", "-o", "got.store")
        self.assertIn("german  comma   weight  feeding\n", self.answer("list", "got.store", "a.pat"))

    def test_refusals_have_number_sentence_and_status_1(self):
        Path("bad.store").write_bytes(b"no store")
        told = "refused with 1: header, count limit, offset or length wrong"
        for command in (["show"], ["text"], ["admit"]):
            self.assert_status(1, told, *command, "bad.store")
        for command in ("plan", "list", "draw"):
            self.assert_status(1, told, command, "bad.store", "a.pat")
        self.assert_status(1, told + "; also g or e not 0", "build", self.built(), "-o", "x.store")
        Path("bad.bin").write_bytes(b"no pattern")
        self.assert_status(1, "refused with 6: pattern breaks its rules", "list", "world.store", "bad.bin")
        self.assert_status(1, "refused with 10: room for result too short", "list", "--room", "3", "world.store", "a.pat")

    def test_refusals_in_json(self):
        Path("only.pat").write_text("node a screen\n")
        for command in ("plan", "list"):
            status, out, err = self.run_command(command, "--json", self.built(), "only.pat")
            self.assertEqual(status, 1)
            self.assertEqual(json.loads(out)["answer"], 7)
            self.assertIn("refused with 7", err)

    def test_wrong_use_has_status_2(self):
        self.assert_status(2, "nothing.store: No such file or directory", "show", "nothing.store")
        self.assert_status(2, "the following arguments are required", "plan", "world.feed")
        self.assert_status(2, "required: COMMAND")
        self.assert_status(2, "invalid choice", "guess")
        self.assert_status(2, "x.feed: a store is to be written, and .feed is the text", "build", "world.feed", "-o", "x.feed")
        self.assert_status(2, "expected a whole number, found '-1'", "list", "--room", "-1", "world.feed", "a.pat")
        self.assert_status(2, "a.pat is the text of a pattern, and a graph is asked for", "build", "a.pat", "-o", "a.store")
        self.assert_status(2, "world.feed is the text of a graph, and a store", "admit", "world.feed")
        self.assert_status(2, "world.feed is the text of a graph, and a pattern is asked for", "list", "world.feed", "world.feed")
        self.assert_status(2, "a store is needed to draw the plan", "draw", "--what", "plan", "a.pat")

    def test_every_command_has_help_with_an_example(self):
        overview = self.answer("--help")
        from bahrufaz.command import _COMMANDS

        self.assertEqual(len(_COMMANDS), 12)
        for command in _COMMANDS:
            self.assertIn(f"    {command} ", overview)
            told = self.answer(command, "--help")
            self.assertIn(f"example:\n  bahrufaz {command} ", told)

    def test_version_names_the_library(self):
        self.assertIn(f"library: {library.find()}\n", self.answer("--version"))

    def test_an_interrupt_ends_quietly(self):
        with mock.patch("bahrufaz.library.admit", side_effect=KeyboardInterrupt):
            self.assertEqual(self.run_command("admit", self.built()), (130, "", ""))

    def test_a_closed_pipe_is_no_error(self):
        Path("only.pat").write_text("node a screen\n")
        for arguments in (["text", "world.feed"], ["list", "--json", "world.feed", "only.pat"], ["--help"]):
            command = [sys.executable, "-m", "bahrufaz", *arguments]
            environment = {"PATH": os.environ["PATH"], "PYTHONPATH": str(CHECKOUT / "python")}
            read_end, write_end = os.pipe()
            os.close(read_end)
            with os.fdopen(write_end, "wb") as closed:
                done = subprocess.run(command, stdout=closed, stderr=subprocess.PIPE, env=environment, check=False)
            self.assertEqual((done.returncode, b"Traceback" in done.stderr, b"ignored" in done.stderr), (0, False, False), arguments)


class TheLibrary(unittest.TestCase):
    """Finding the library, each time in a process of its own."""

    def run_command(self, **environment: str) -> tuple[int, str]:
        command = [sys.executable, "-m", "bahrufaz", "show", str(SMALL)]
        base = {"PATH": os.environ["PATH"], "PYTHONPATH": str(CHECKOUT / "python")}
        with tempfile.TemporaryDirectory() as directory:
            done = subprocess.run(
                command, capture_output=True, text=True, env={**base, **environment}, cwd=directory, check=False
            )
        return done.returncode, done.stderr

    def test_a_named_library(self):
        path = library.find()
        self.assertEqual(self.run_command(BAHRUFAZ_LIB=path), (0, ""))
        self.assertEqual(self.run_command(BAHRUFAZ_LIB=str(Path(path).parent)), (0, ""))

    def test_a_named_library_that_is_not_there(self):
        status, told = self.run_command(BAHRUFAZ_LIB="/nowhere/libbahrufaz.so")
        self.assertEqual((status, told[:46]), (2, "bahrufaz: BAHRUFAZ_LIB names /nowhere/libbahru"))

    def test_a_file_that_is_no_library(self):
        status, told = self.run_command(BAHRUFAZ_LIB=__file__)
        self.assertEqual(status, 2)
        self.assertIn("cannot be loaded", told)

    def test_another_library(self):
        import _ctypes

        status, told = self.run_command(BAHRUFAZ_LIB=_ctypes.__file__)
        self.assertEqual(status, 2)
        self.assertRegex(told, "has no bahrufaz_build|cannot be loaded")

    def test_no_library_at_all(self):
        with tempfile.TemporaryDirectory() as directory:
            shutil.copytree(CHECKOUT / "python" / "bahrufaz", Path(directory) / "python" / "bahrufaz")
            status, told = self.run_command(PYTHONPATH=str(Path(directory) / "python"))
        self.assertEqual(status, 2)
        self.assertIn("no libbahrufaz.so is found: run 'make lib' in the checkout", told)
