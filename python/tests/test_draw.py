"""Pictures: the DOT text, and what dot makes of it where it is installed."""

import contextlib
import html
import io
import math
import os
import re
import shutil
import tempfile
import unittest
import xml.etree.ElementTree as xml
from pathlib import Path
from unittest import mock

from bahrufaz import Graph, Pattern, Refused, Store, draw, list_unchecked, plan
from bahrufaz import list as list_matches
from bahrufaz.command import main
from bahrufaz.dot import DotMissing, picture

from .worlds import CHECKOUT, EXAMPLES, PATTERN_A, SMALL, pattern_of, random_pattern, random_world, small_world

HAS_DOT = shutil.which("dot") is not None


def texts(svg: bytes) -> list[str]:
    """The texts of an SVG picture, line by line."""
    return [element.text or "" for element in xml.fromstring(svg).iter() if element.tag.endswith("}text")]


class Dot(unittest.TestCase):
    def setUp(self):
        self.store, self.pattern = Graph.read(SMALL).build(), Pattern.read(PATTERN_A)

    def matches(self, listing, **given) -> str:
        return draw.draw_matches(listing, **given).dot

    def test_matches_with_their_neighbourhood(self):
        dot = self.matches(list_matches(self.store, self.pattern), title="a.pat")
        lines = [line.strip() for line in dot.split("\n")]
        self.assertIn('"german" [label="german\\nlocale, value 2\\nas place" fillcolor="#cfe3f5" penwidth="2"]', lines)
        self.assertIn('"count" [label="count\\nfield, value 101" color="#808080" fontcolor="#808080"]', lines)
        self.assertIn('"weight" -> "comma" [penwidth="2"]', lines)
        self.assertIn('"feeding" -> "count" [color="#808080"]', lines)
        self.assertFalse(any("english" in line or "point" in line for line in lines))
        for told in (
            "<B>Pattern A: the fields that use a format of locale 2, with the screens they stand on.</B>",
            "<TD>a.pat</TD>",
            "1 match; 8 entries read of at most 38",
            "the store has 8 entries in its index; its 6 edges were not read",
            '<TD BGCOLOR="#cfe3f5">place: locale</TD><TD BGCOLOR="#fbe3c0">format</TD>',
            "grey: a neighbour, in no match",
        ):
            self.assertIn(told, dot)

    def test_what_is_left_out_is_told(self):
        told = list_matches(self.store, pattern_of([1], []))
        self.assertIn("the first 1 of 2 matches", self.matches(told, most=1, near=0))
        world = small_world()
        world.constraints[1] = world.constraints[1]._replace(most=2)
        world.add_edge("english", "comma")
        listing = list_matches(world.build(), pattern_of([1, 2], [(0, 1)]))
        self.assertIn("comma\\nformat, value 44\\nin a match not drawn", self.matches(listing, most=1))
        world.add_edge("english", "count")
        locales = self.matches(list_matches(world.build(), pattern_of([1], [])), near=1)
        self.assertIn("english\\nlocale, value 1\\nas 0\\n1 more neighbour", locales)
        whole = self.matches(list_matches(self.store, pattern_of([1, 2], [(0, 1)])), most=1)
        self.assertNotIn("in a match not drawn", whole)

    def test_many_matches_are_drawn_small_and_without_neighbours(self):
        panel = EXAMPLES / "panel"
        listing = list_matches(Graph.read(panel / "world.feed").build(), Pattern.read(panel / "checklist" / "1-comma-fields.pat"))
        dot = self.matches(listing)
        self.assertIn('"de.weight" [label="de.weight" fillcolor', dot)
        self.assertNotIn("neighbour", dot)
        self.assertEqual(dot.count(" -> "), 21 + 21 + 3)
        self.assertIn('size="7.7,11.0"', dot)
        self.assertIn("grey: a neighbour", self.matches(listing, near=1))
        self.assertIn("neighbour", self.matches(listing, most=8))

    def test_plan(self):
        dot = draw.draw_plan(plan(self.store, self.pattern), "a.pat").dot
        self.assertIn("T = 2 + 2 + 8 + 8 + 2 + 8 + 8 = 38: at most 38 entries read, however large the graph is", dot.replace("<BR/>", " "))
        self.assertIn('"field" [label="field\\nstep 3: at most 2 × 4 = 8"', dot)
        self.assertIn('"format" -> "field" [label="each format: at most 4" style="dashed"', dot)
        self.assertIn('"screen" -> "field" [label="step 7: at most 8 × 1 = 8"]', dot)
        self.assertIn('[label="all locale nodes: at most 2" shape="plaintext"', dot)

    def test_the_figures_of_a_plan_are_those_of_its_rows(self):
        for seed in range(40):
            world, pattern = random_world(seed), random_pattern(seed)
            try:
                told = plan(world.build(), pattern)
            except Refused:
                continue
            dot = draw.draw_plan(told).dot
            shown = [(int(step), int(figure.replace(",", ""))) for step, figure in re.findall(r"step (\d+): at most (?:[^\"]* = )?([\d,]+)\"", dot)]
            self.assertEqual(sorted(shown), list(enumerate((row.figure for row in told), 1)), seed)
            for factors, product in re.findall(r"at most ([\d,× ]+) = ([\d,]+)", dot):
                numbers = [int(one.replace(",", "")) for one in factors.split(" × ")]
                self.assertEqual(math.prod(numbers), int(product.replace(",", "")), seed)

    def test_pattern_with_and_without_a_store(self):
        alone = draw.draw_pattern(self.pattern).dot
        self.assertIn('"place" [label="place\\nlocale\\nvalue = 2" fillcolor="white"]', alone)
        self.assertIn('fillcolor="#cfe3f5"', draw.draw_pattern(self.pattern, self.store.names).dot)
        self.assertIn("<B>pattern</B>", draw.draw_pattern(pattern_of([1], [])).dot)

    def test_texts_are_quoted(self):
        world = Graph()
        world.add_node('say "x"\\n', 1)
        world.add_label("<b>&", 1)
        world.add_constraint((), 1, 1)
        dot = self.matches(list_matches(world.build(), pattern_of([1], [])))
        self.assertIn('label="say \\"x\\"\\\\n\\n<b>&', dot)
        self.assertIn("0: &lt;b&gt;&amp;</TD>", dot)
        if HAS_DOT:
            self.assertIn('say "x"\\n', texts(picture(dot, "svg")))

    def test_a_store_with_wrong_edges_is_drawn_as_far_as_it_goes(self):
        data = bytearray(self.store.data)
        data[152 - 4 : 152] = (9).to_bytes(4, "little")  # the last edge goes to no node
        store = Store(bytes(data), self.store.names)
        dot = self.matches(list_unchecked(store, pattern_of([4, 2, 1], [(0, 1), (2, 1)])))
        self.assertIn('"9" [label="9" color', dot)


class Pictures(unittest.TestCase):
    def setUp(self):
        self.directory = tempfile.TemporaryDirectory()
        self.addCleanup(self.directory.cleanup)
        self.path = os.path.join(self.directory.name, "a.svg")
        quiet = contextlib.redirect_stdout(io.StringIO())
        quiet.__enter__()
        self.addCleanup(quiet.__exit__, None, None, None)

    @unittest.skipUnless(HAS_DOT, "dot is not installed")
    def test_every_text_of_the_dot_is_in_the_picture(self):
        for what in ("matches", "plan", "pattern"):
            written = os.path.join(self.directory.name, "a.dot")
            for path in (self.path, written):
                self.assertEqual(main(["draw", "--what", what, str(SMALL), str(PATTERN_A), "-o", path]), 0)
            dot = Path(written).read_text()
            labels = [text for label in re.findall(r'label="([^"]+)"', dot) for text in label.split("\\n")]
            heading = [html.unescape(text) for text in re.findall(r">([^<>\n]+)<", dot)]
            self.assertGreater(len(labels), 5)
            self.assertEqual(sorted(texts(Path(self.path).read_bytes())), sorted(labels + heading), what)

    @unittest.skipUnless(HAS_DOT, "dot is not installed")
    def test_titles_say_names_and_a_picture_is_at_most_a_page(self):
        world = str(EXAMPLES / "panel" / "world.feed")
        pattern = str(EXAMPLES / "panel" / "checklist" / "1-comma-fields.pat")
        self.assertEqual(main(["draw", world, pattern, "-o", self.path]), 0)
        root = xml.fromstring(Path(self.path).read_bytes())
        titles = [element.text for element in root.iter() if element.tag.endswith("}title")]
        self.assertIn("de.weight", titles)
        self.assertIn("de.weight->de.decimal", titles)
        self.assertTrue(titles[0].startswith("Which fields take a decimal comma"))
        width, height = (float(root.get(side).removesuffix("pt")) / 72 for side in ("width", "height"))
        self.assertLess((width, height), (8.3, 11.7))
        self.assertLess(height, 11.7)

    def test_without_dot_nothing_is_written(self):
        with mock.patch("shutil.which", return_value=None), mock.patch("sys.stderr"):
            self.assertEqual(main(["draw", str(SMALL), str(PATTERN_A), "-o", self.path]), 2)
            with self.assertRaisesRegex(DotMissing, "install graphviz, or write a .dot file instead"):
                picture("digraph {}", "svg")
        self.assertEqual(os.listdir(self.directory.name), [])

    @unittest.skipUnless(HAS_DOT, "dot is not installed")
    def test_a_text_that_dot_cannot_draw(self):
        with self.assertRaisesRegex(Exception, "dot cannot draw this"):
            picture("digraph {", "svg")

    @unittest.skipUnless(HAS_DOT, "dot is not installed")
    def test_the_picture_in_the_documents_is_the_one_drawn_today(self):
        main(["draw", str(SMALL), str(PATTERN_A), "-o", self.path])
        kept = (CHECKOUT / "docs" / "small-world.svg").read_bytes()
        self.assertEqual(sorted(texts(kept)), sorted(texts(Path(self.path).read_bytes())))

    @unittest.skipUnless(HAS_DOT, "dot is not installed")
    def test_the_checklist_can_be_drawn(self):
        world = str(EXAMPLES / "panel" / "world.feed")
        for pattern in sorted((EXAMPLES / "panel" / "checklist").glob("[1-7]*.pat")):
            self.assertEqual(main(["draw", world, str(pattern), "-o", self.path]), 0, pattern)
            self.assertTrue(texts(Path(self.path).read_bytes()))
