"""The report: one page with everything in it, and nothing outside it."""

import re
import shutil
import unittest
from html.parser import HTMLParser
from pathlib import Path
from unittest import mock

from .commands import CommandCase
from .worlds import EXAMPLES

PANEL = EXAMPLES / "panel"
HAS_DOT = shutil.which("dot") is not None
VOID = {"meta", "br"}


class Page(HTMLParser):
    """What a page says, and whether its elements are closed."""

    def __init__(self, text: str):
        super().__init__()
        self.open, self.texts, self.links, self.ids, self.unclosed = [], [], [], [], []
        self.feed(text)
        self.close()

    def handle_starttag(self, tag, attributes):
        if tag not in VOID:
            self.open.append(tag)
        for name, value in attributes:
            if name in ("href", "src", "xlink:href"):
                self.links.append(value)
            elif name == "id":
                self.ids.append(value)

    def handle_startendtag(self, tag, attributes):
        self.handle_starttag(tag, attributes)
        if tag not in VOID:
            self.open.pop()

    def handle_endtag(self, tag):
        if not self.open or self.open.pop() != tag:
            self.unclosed.append(tag)

    def handle_data(self, data):
        if data.strip():
            self.texts.append(data.strip())


class Report(CommandCase):
    def report(self, *patterns: str, store: str = "world.feed", status: int = 0, more: tuple = ()) -> Page:
        told, out, err = self.run_command("report", store, *patterns, "-o", "report.html", "--force", *more)
        self.assertEqual((told, err), (status, ""))
        page = Page(Path("report.html").read_text(encoding="utf-8"))
        self.assertEqual((page.open, page.unclosed), ([], []))
        self.assertTrue(all(link.startswith("#") and link[1:] in page.ids for link in page.links), page.links)
        self.assertNotRegex(Path("report.html").read_text(), r"url\(|@import|<script|<link")
        return page

    def test_the_checklist(self):
        patterns = sorted(map(str, (PANEL / "checklist").glob("*.pat")))
        page = self.report(*patterns, store=str(PANEL / "world.feed"), status=1)
        self.assertEqual(page.ids, [f"p{place}" for place in range(1, 9)])
        for told in (
            "Report on world.feed",
            "1. 1-comma-fields.pat",
            "Which fields take a decimal comma, and where do they stand? This is the list of the comma rule.",
            "T = 276: at most 276 entries read",
            "21 matches",
            "de.weighing",
            "locale -> format at most 2",
            "Refused with 7: a pattern node or edge is not covered.",
            "constraint -> caption at most 192",
        ):
            self.assertIn(told, page.texts)
        self.assertEqual(page.texts.count("de.weight"), 3)  # in the lists of patterns 1, 2 and 7

    @unittest.skipUnless(HAS_DOT, "dot is not installed")
    def test_pictures_stand_in_the_page(self):
        self.report("a.pat", "a.pat")
        text = Path("report.html").read_text()
        self.assertEqual(text.count("<svg"), 2)
        self.assertNotIn("<!DOCTYPE svg", text)

    def test_without_dot_the_pattern_is_text(self):
        with mock.patch("shutil.which", return_value=None):
            page = self.report("a.pat")
        self.assertTrue(any("node place   locale  value = 2" in text for text in page.texts), page.texts)

    def test_patterns_that_cannot_be_read_are_told(self):
        Path("wrong.pat").write_text("node a fild\n")
        Path("worse.pat").write_text("nod a\nedge a -> b\n")
        page = self.report("a.pat", "wrong.pat", "worse.pat", "none.pat", status=2)
        self.assertIn("wrong.pat:1: no label is named fild; did you mean field?", page.texts)
        self.assertTrue(any(text.startswith("worse.pat:1: expected label") and "worse.pat:2:" in text for text in page.texts))
        self.assertIn("none.pat: No such file or directory", page.texts)
        self.assertIn("german", page.texts)

    def test_limit_and_unchecked(self):
        Path("two.pat").write_text("node a locale\n")
        page = self.report("two.pat", more=("--limit", "1"))
        self.assertIn("2 matches, the first 1 shown", page.texts)
        self.assertNotIn("german", page.texts)
        self.answer("build", "--draft", "world.feed", "-o", "draft.bin")
        self.assert_status(1, "this is a draft", "report", "draft.bin", "a.pat", "-o", "x.html")
        page = self.report("a.pat", store="draft.bin", more=("--unchecked",))
        self.assertTrue(any(text.startswith("unchecked: ") for text in page.texts))

    def test_no_match_is_an_answer(self):
        Path("none.pat").write_text("node a locale value > 7\n")
        page = self.report("none.pat")
        self.assertIn("no match", page.texts)
        self.assertNotIn("not read", page.texts)

    def test_names_are_text_and_never_markup(self):
        Path("w.feed").write_text('label "<b>&" 1\nnode "<script>alert(1)</script>" 1\nconstraint -> 1 at most 1\n')
        Path("x.pat").write_text("# <i>who</i> & why?\nnode \"<u>\" \"<b>&\"\n")
        page = self.report("x.pat", store="w.feed")
        self.assertIn("<script>alert(1)</script>", page.texts)
        self.assertIn("<i>who</i> & why?", page.texts)

    def test_what_may_be_written_over(self):
        Path("mine.html").write_text("<!DOCTYPE html><html>mine</html>")
        self.assert_status(2, "mine.html is there already and is not a report", "report", "world.feed", "a.pat", "-o", "mine.html")
        self.assert_status(2, "the name of a report ends in .html", "report", "world.feed", "a.pat", "-o", "mine.txt")
        for _ in range(2):
            self.assertEqual(self.answer("report", "world.feed", "a.pat", "-o", "new.html"), "new.html: a report on 1 pattern\n")

    def test_figures_are_those_of_the_plan(self):
        self.report("a.pat")
        text = re.sub(r"<[^>]*>", "|", Path("report.html").read_text())
        self.assertEqual([int(one) for one in re.findall(r"\|(\d+)\|\|\n", text)][1:], [2, 2, 8, 8, 2, 8, 8])
