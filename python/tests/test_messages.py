"""What is said where something is wrong: the file, the line, what it is, and what to do."""

import os
import shutil
from pathlib import Path

from .commands import CommandCase


class Messages(CommandCase):
    def test_a_label_that_the_graph_has_not_names_file_and_line(self):
        Path("b.pat").write_text("node a field\n\nnode b fild\nnode c scren\nedge a -> b\nedge b -> c\n")
        for command in ("list", "plan", "draw"):
            self.assert_status(2, "bahrufaz: b.pat:3: no label is named fild; did you mean field?\nbahrufaz: b.pat:4:", command, "world.feed", "b.pat")

    def test_a_text_is_told_as_text(self):
        shutil.copy("world.feed", "world.txt")
        shutil.copy("a.pat", "a.txt")
        self.assert_status(2, "world.txt is text, and a store is asked for: name it world.feed", "list", "world.txt", "a.pat")
        self.assert_status(2, "a.txt is text, and a pattern is asked for: name it a.pat", "list", "world.feed", "a.txt")
        self.assert_status(2, "world.txt is text, and a store is asked for: name it world.feed", "admit", "world.txt")

    def test_swapped_arguments(self):
        self.answer("pattern", "a.pat", self.built(), "-o", "a.bin")
        order = "give them as bahrufaz list STORE PATTERN"
        self.assert_status(2, f"world.store is a store, and a pattern is asked for: {order}", "list", "a.pat", "world.store")
        self.assert_status(2, f"a.pat is the text of a pattern, and a store or a .feed file is asked for: {order}", "list", "a.pat", "a.pat")
        self.assert_status(2, f"a.bin is a pattern, and a store is asked for: {order}", "list", "a.bin", "world.store", "--count")
        self.assert_status(2, f"world.store is a store, and a pattern is asked for: {order}", "list", "world.store", "world.store")
        self.assert_status(2, "give them as bahrufaz pattern PATTERN STORE", "pattern", "world.store", "a.bin", "-o", "x.pat")
        self.assert_status(2, "world.names is a file of names, and a store is asked for", "show", "world.names")
        self.assert_status(2, "world.store is a store, and the text of a graph is asked for", "measure", "world.store")

    def test_missing_names(self):
        self.built()
        os.remove("world.names")
        told = "world.store has no names, since there is no world.names: give --names FILE"
        for command in ("list", "plan", "draw"):
            self.assert_status(2, told, command, "world.store", "a.pat")
        self.assert_status(2, "a.pat:3: no label is named locale", "list", "world.store", "a.pat")
        self.assertIn("german", self.answer("list", "--names", "world.feed", "world.store", "a.pat"))

    def test_a_cut_store_is_told_as_cut_before_its_names_are_looked_at(self):
        data = Path(self.built()).read_bytes()
        Path("world.store").write_bytes(data[:300])
        told = "its header says 432 bytes, and there are 300: the file was cut off"
        for command in (["list", "world.store", "a.pat"], ["show", "world.store"], ["admit", "world.store"]):
            self.assert_status(1, f"world.store: refused with 1: header, count limit, offset or length wrong\n  {told}", *command)
        Path("world.store").write_bytes(data + b"\n")
        self.assert_status(1, "and there are 433: something stands behind the store", "show", "world.store")
        Path("world.store").write_bytes(data[:20])
        self.assert_status(1, "world.store: refused with 1", "show", "world.store")

    def test_refusals_name_the_file(self):
        Path("only.pat").write_text("node a screen\n")
        self.assert_status(1, "bahrufaz: only.pat: refused with 7", "list", self.built(), "only.pat")
        Path("bad.bin").write_bytes(b"\0\0\0")
        self.assert_status(1, "bahrufaz: bad.bin: refused with 6", "list", "world.store", "bad.bin")
        self.assert_status(1, "bahrufaz: bad.bin: refused with 1", "list", "bad.bin", "a.pat")
        self.assert_status(1, "bahrufaz: world.store: refused with 1: header, count limit, offset or length wrong; also", "build", "world.store", "-o", "x")

    def test_refusal_10_tells_the_room_needed(self):
        Path("two.pat").write_text("node a locale\n")
        self.assert_status(1, "2 matches of 1 nodes take 2 words: --room 2", "list", "--room", "1", "world.feed", "two.pat")
        self.answer("list", "--room", "2", "world.feed", "two.pat")

    def test_file_names_are_shown_visibly(self):
        name = "a\x1b[31m.pat"
        Path(name).write_text("knot\n")
        self.assert_status(2, "a\\u001b[31m.pat:1: expected label", "list", "world.feed", name)
