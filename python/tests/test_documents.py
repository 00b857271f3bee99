"""The documents: their commands print what is shown, their texts can be read, their targets and links are there."""

import re
import sys
import unittest

from bahrufaz import Graph, Pattern

from .documents import ANY_LINES, CHECKOUT, Scratch, agrees, blocks, commands, documents

# 'text' is for what is neither run nor read
LANGUAGES = {"console", "feed", "pat", "python", "text", "rust", "c", "csv", "names", "json", ""}


class Commands(unittest.TestCase):
    maxDiff = None

    def test_they_print_what_is_shown(self):
        ran = 0
        for document in documents():
            with Scratch() as scratch:
                for block in (block for block in blocks(document) if block.language == "console"):
                    if not block.can_run:
                        print(f"{document.name}:{block.line}: not run, dot is not installed", file=sys.stderr)
                        continue
                    for command, shown in commands(block):
                        with self.subTest(document=document.name, command=command):
                            self.check(scratch.run(command), shown)
                            ran += 1
        self.assertGreater(ran, 20)

    def check(self, printed, shown):
        if ANY_LINES in shown:
            self.assertTrue(agrees(shown, printed), f"shown: {shown}\nprinted: {printed}")
        else:
            self.assertEqual(shown, printed)

    def test_only_make_and_pip_may_hide_what_they_print(self):
        for document in documents():
            for block in blocks(document):
                for command, shown in commands(block) if block.language == "console" else []:
                    if ANY_LINES in shown:
                        self.assertRegex(command, r"^(make|pip|python3 -m pip) ", document.name)

    def test_a_console_block_begins_with_a_command(self):
        for document in documents():
            for block in blocks(document):
                if block.language == "console":
                    self.assertTrue(block.text.startswith("$ "), f"{document.name}:{block.line}")

    def test_dots_agree_with_any_lines_and_nothing_else_does(self):
        self.assertTrue(agrees(["a", ANY_LINES, "d"], ["a", "b", "c", "d"]))
        self.assertTrue(agrees([ANY_LINES], []))
        self.assertFalse(agrees(["a", ANY_LINES, "d"], ["a", "b", "c"]))
        self.assertFalse(agrees(["a"], ["a", "b"]))
        self.assertFalse(agrees([], ["a"]))


class Texts(unittest.TestCase):
    def test_blocks_say_what_they_are(self):
        for document in documents():
            for block in blocks(document):
                self.assertIn(block.language, LANGUAGES, f"{document.name}:{block.line}")

    def test_feeds_and_patterns_can_be_read(self):
        read = 0
        for document in documents():
            for block in blocks(document):
                where = f"{document.name}:{block.line}"
                if block.language == "feed":
                    Graph.of_text(block.text, where)
                elif block.language == "pat":
                    Pattern.of_text(block.text, where)
                read += block.language in ("feed", "pat")
        self.assertGreater(read, 1)

    def test_the_small_world_is_shown_as_it_is(self):
        formats = list(blocks(CHECKOUT / "docs" / "FORMATS.md"))
        for language, file in {"feed": "world.feed", "pat": "a.pat"}.items():
            text = (CHECKOUT / "examples" / "small" / file).read_text(encoding="utf-8")
            self.assertIn(text, [block.text for block in formats if block.language == language])

    def test_python_runs(self):
        ran = 0
        for document in documents():
            with Scratch() as scratch:
                for block in (block for block in blocks(document) if block.language == "python"):
                    (scratch.path / "block.py").write_text(block.text, encoding="utf-8")
                    printed = scratch.run(f"{sys.executable} block.py")
                    expected = re.findall(r"# prints (.*)$", block.text, re.MULTILINE)
                    self.assertEqual(printed, expected, f"{document.name}:{block.line}")
                    ran += 1
        self.assertGreater(ran, 0)


class Mentions(unittest.TestCase):
    def test_make_targets_are_there(self):
        makefiles = [CHECKOUT / "Makefile", CHECKOUT / "board" / "board.mk"]
        text = "".join(makefile.read_text(encoding="utf-8") for makefile in makefiles)
        targets = {name for line in re.findall(r"^([a-z][a-z -]*):", text, re.MULTILINE) for name in line.split()}
        for document in documents():
            text = document.read_text(encoding="utf-8")
            for name in re.findall(r"(?:`|^    |^\$ )make ([a-z][a-z-]*)", text, re.MULTILINE):
                self.assertIn(name, targets, document.name)

    def test_links_lead_somewhere(self):
        for document in documents():
            text = document.read_text(encoding="utf-8")
            for link in re.findall(r"\]\(([^)#:]+)\)", text):
                self.assertTrue((document.parent / link).exists(), f"{document.name}: {link}")
