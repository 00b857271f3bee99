"""No command writes over what it was given, nor over a file of another kind, without --force; nothing is half-written."""

import os
import stat
import unittest
from pathlib import Path
from unittest import mock

from bahrufaz import Store
from bahrufaz.files import write_together

from .commands import CommandCase
from .worlds import EXAMPLES, small_world

EDGES = str(EXAMPLES / "import" / "edges.csv")


class WritingOver(CommandCase):
    def contents(self) -> dict[str, bytes]:
        return {name: Path(name).read_bytes() for name in sorted(os.listdir(".")) if os.path.isfile(name)}

    def assert_nothing_written(self, message: str, *arguments: str):
        before = self.contents()
        self.assert_status(2, message, *arguments)
        self.assertEqual(self.contents(), before)

    def test_a_picture_over_anything_else(self):
        self.built()
        for name in ("world.feed", "a.pat", "world.store", "world.names", "new.txt", "new"):
            self.assert_nothing_written("the name of a picture ends in one of .dot, .svg, .png, .pdf", "draw", "world.feed", "a.pat", "-o", name)
        Path("mine.dot").write_text("my notes")
        self.assert_nothing_written("mine.dot is there already and is not a DOT text: give --force", "draw", "world.feed", "a.pat", "-o", "mine.dot")
        self.answer("draw", "world.feed", "a.pat", "-o", "mine.dot", "--force")
        self.answer("draw", "--what", "pattern", "a.pat", "-o", "mine.dot")

    def test_a_store_over_anything_else(self):
        Path("notes.md").write_text("# my notes\n")
        self.assert_nothing_written("notes.md is there already and is not a store: give --force", "build", "world.feed", "-o", "notes.md")
        self.assert_nothing_written("is to be written, and .pat is the text of a pattern", "build", "world.feed", "-o", "a.pat", "--force")
        self.answer("build", "world.feed", "-o", "notes.md", "--force")
        self.assertEqual(Path("notes.md").read_bytes(), small_world().build().data)
        self.answer("build", "world.feed", "-o", "notes.md")
        os.mkdir("place")
        self.assert_nothing_written("place is a directory", "build", "world.feed", "-o", "place", "--force")

    def test_a_pattern_over_anything_else(self):
        self.built()
        self.assert_nothing_written("a pattern is to be written, and .store is a store", "pattern", "a.pat", "world.store", "-o", "x.store")
        os.rename("world.store", "world.bin")
        self.assert_nothing_written("world.bin is there already and is not a pattern", "pattern", "a.pat", "world.feed", "-o", "world.bin")
        self.answer("pattern", "a.pat", "world.feed", "-o", "a.bin")
        self.answer("pattern", "a.pat", "world.feed", "-o", "a.bin")

    def test_what_a_command_was_given(self):
        self.answer("build", "--draft", "world.feed", "-o", "draft.bin")
        told = "is read by this command: name another file, or give --force"
        self.assert_nothing_written(told, "build", "draft.bin", "-o", "draft.bin")
        os.link("draft.bin", "hard")
        os.symlink("draft.bin", "soft")
        for other in ("hard", "soft", "./draft.bin"):
            self.assert_nothing_written(told, "build", "draft.bin", "-o", other)
        self.answer("pattern", "a.pat", "world.feed", "-o", "a.bin")
        self.assert_nothing_written("is there already and is not a store", "build", "world.feed", "-o", "a.bin")
        self.assert_nothing_written("world.feed is read by this command", "text", "world.feed", "-o", "world.feed")
        self.answer("build", "draft.bin", "-o", "draft.bin", "--force")
        self.assertEqual(Path("draft.bin").read_bytes(), small_world().build().data)

    def test_names_over_anything_else(self):
        Path("world.names").write_text("mine")
        self.assert_nothing_written("world.names is there already and is not a file of names", "build", "world.feed", "-o", "world.store")
        self.answer("build", "world.feed", "-o", "world.store", "--force")
        self.assertEqual(Store.read("world.store").names.nodes.name(0), "english")

    def test_stores_of_one_stem_have_names_of_their_own(self):
        changed = Path("world.feed").read_text().replace("weight", "mass")
        Path("changed.feed").write_text(changed)
        self.answer("build", "world.feed", "-o", "world.v1")
        out = self.answer("build", "changed.feed", "-o", "world.v2")
        self.assertTrue(out.endswith("; names in world.v2.names\n"), out)
        self.assertIn("weight  feeding", self.answer("list", "world.v1", "a.pat"))
        self.assertIn("mass   feeding", self.answer("list", "world.v2", "a.pat"))

    def test_world_and_world_store_do_not_take_each_other_s_names(self):
        self.answer("build", "world.feed", "-o", "world.store")
        Path("changed.feed").write_text(Path("world.feed").read_text().replace("value = 100", "value = 99"))
        self.assert_nothing_written("world.names has the names of world.store: name", "build", "changed.feed", "-o", "world")
        self.answer("build", "changed.feed", "-o", "world.store")
        os.remove("world.store")
        self.answer("build", "world.feed", "-o", "world.store")

    def test_names_go_with_the_store_that_is_written_over(self):
        self.built()
        self.answer("build", "--draft", "world.feed", "-o", "draft.bin")
        self.answer("build", "--no-names", "draft.bin", "-o", "world.store")
        self.assertFalse(Path("world.names").exists())
        Path("world.names").write_text("mine")
        self.answer("build", "--no-names", "draft.bin", "-o", "world.store")
        self.assertEqual(Path("world.names").read_text(), "mine")

    def test_a_store_that_cannot_be_written_leaves_its_names(self):
        self.built()
        before = self.contents()
        Path("changed.feed").write_text(Path("world.feed").read_text().replace("weight", "mass"))
        replace, calls = os.replace, []

        def fails_the_second_time(*arguments):
            calls.append(arguments)
            if len(calls) == 2:
                raise PermissionError(1, "Operation not permitted", "world.store")
            return replace(*arguments)

        with mock.patch("os.replace", fails_the_second_time):
            self.assert_status(2, "world.store: Operation not permitted", "build", "changed.feed", "-o", "world.store")
        self.assertGreater(len(calls), 2)
        del before["world.feed"]
        self.assertEqual({name: self.contents()[name] for name in before}, before)
        self.assertEqual(sorted(os.listdir(".")), sorted([*before, "changed.feed", "world.feed"]))

    def test_a_directory_that_is_not_there(self):
        self.assert_nothing_written("no/world.store: No such file or directory", "build", "world.feed", "-o", "no/world.store")

    @unittest.skipUnless(hasattr(os, "mkfifo"), "there are no pipes with names here")
    def test_a_pipe_is_written_through(self):
        reader, writer = os.pipe()
        self.addCleanup(os.close, reader)
        self.answer("draw", "world.feed", "a.pat", "-o", f"/dev/fd/{writer}")
        os.close(writer)
        self.assertTrue(os.read(reader, 100).startswith(b"digraph "))


class Together(CommandCase):
    def test_all_or_none(self):
        Path("one").write_text("old")
        with self.assertRaises(OSError):
            write_together({"one": "new", "two": "new", "no/three": "new"})
        self.assertEqual(sorted(os.listdir(".")), ["a.pat", "one", "world.feed"])
        self.assertEqual(Path("one").read_text(), "old")
        with mock.patch("bahrufaz.files._sync_directory", side_effect=[None, KeyboardInterrupt]):
            with self.assertRaises(KeyboardInterrupt):
                write_together({"one": "new", "two": "new"})
        self.assertEqual(sorted(os.listdir(".")), ["a.pat", "one", "world.feed"])
        self.assertEqual(Path("one").read_text(), "old")
        write_together({"one": None, "two": "new"})
        self.assertEqual(sorted(os.listdir(".")), ["a.pat", "two", "world.feed"])
        self.assertEqual(stat.S_IMODE(os.stat("two").st_mode) & 0o600, 0o600)
