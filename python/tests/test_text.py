"""The text forms: what is read, what is written back, and what errors say."""

import random
import tempfile
import unittest
from pathlib import Path
from unittest import mock

from bahrufaz import Graph, Names, Pattern, Store, WrongGraph, WrongName, WrongText, feed
from bahrufaz.files import write_whole
from bahrufaz.lines import numbered_lines
from bahrufaz.namesfile import names_path, names_text, read_names
from bahrufaz.text import aligned, spelled

from .worlds import EXAMPLES, random_pattern, random_world, small_world


class RoundTrips(unittest.TestCase):
    def assert_same_graph(self, one: Graph, other: Graph, message: object = None):
        self.assertEqual(one.draft(), other.draft(), message)
        self.assertEqual(one.names.labels, other.names.labels, message)
        self.assertEqual(one.names.nodes, other.names.nodes, message)

    def test_random_worlds(self):
        for seed in range(300):
            graph = random_world(seed)
            self.assert_same_graph(Graph.of_text(graph.text()), graph, seed)

    def test_random_patterns(self):
        for seed in range(300):
            pattern = random_pattern(seed)
            again = Pattern.of_text(pattern.text())
            self.assertEqual(again.encode(), pattern.encode(), seed)
            self.assertEqual(Pattern.of_bytes(pattern.encode()).encode(), pattern.encode(), seed)

    def test_a_store_written_back_gives_the_same_draft(self):
        for name in ("small", "panel"):
            graph = Graph.read(EXAMPLES / name / "world.feed")
            store = graph.build()
            self.assert_same_graph(Graph.of_text(Graph.of_bytes(store.data, store.names).text()), graph)
            without_names = Graph.of_text(Graph.of_bytes(store.data).text())
            self.assertEqual(without_names.draft(), graph.draft())
            self.assertFalse(without_names.names)

    def test_extremes(self):
        graph = Graph()
        graph.add_label("lowest", 1)
        graph.add_label("highest", 65_535)
        graph.add_node("a", "lowest", -(1 << 31))
        graph.add_node("b", "highest", (1 << 31) - 1)
        graph.add_constraint(["highest", "lowest", 7], 7, 65_535)
        again = Graph.of_text(graph.text())
        self.assert_same_graph(again, graph)
        again.build().admit()
        self.assertEqual(Graph.of_text(Graph().text()).draft(), Graph().draft())

    def test_names_that_need_quotes(self):
        for name in ("", "12", "-3", "a b", 'say "x"', "a#b", "a,b", "a->b", "=", "≤", "tab\t", "line\nline", "\u2028"):
            with self.subTest(name=name):
                self.assertTrue(spelled(name).startswith('"'))
        for name in ("weight", "sv-SE", "a-", "de.weight", "Größe", "重量", "value", "-", "a\\b", "%", "'"):
            with self.subTest(name=name):
                self.assertEqual(spelled(name), name)

    def test_any_order_any_signs_any_line_ends(self):
        text = '\ufeffedge a→b # first\r\nnode "a" x value = -1\r\nconstraint x,y→x at most 2\r\nnode b y\r\nlabel x\r\nlabel y'
        with tempfile.TemporaryDirectory() as directory:
            path = Path(directory) / "w.feed"
            path.write_bytes(text.encode("utf-8"))
            graph = Graph.read(path)
        self.assertEqual(graph.nodes, [(1, -1), (2, 0)])
        self.assertEqual(graph.edges, {(0, 1)})
        self.assertEqual(graph.constraints, [((1, 2), 1, 2)])
        pattern = Pattern.of_text("node a 1 value ≤ 3 and value ≥ -3")
        self.assertEqual(pattern.nodes[0].conditions, (("<=", 3), (">=", -3)))

    def test_wide_characters_stand_in_columns(self):
        self.assertEqual(aligned([("重量", "1"), ("weight", "2")]), ["重量    1", "weight  2"])


def told(text: str) -> object:
    """What a text gives: a draft with its names, or its mistakes."""
    try:
        graph = Graph.of_text(text)
    except WrongText as error:
        return str(error)
    return graph.draft(), graph.names.nodes.items(), graph.names.labels.items()


def random_spelling(seed: int) -> str:
    """The text of a random world with blanks, comments and quotes as people type them, and now and then a mistake."""
    draw = random.Random(seed)
    lines = random_world(seed).text().split("\n")
    for place in draw.sample(range(len(lines)), len(lines) // 3):
        line = lines[place]
        lines[place] = draw.choice(
            [
                f"  {line}\t # said",
                line.replace(" -> ", draw.choice(["->", " →  ", "  ->\t", " - > ", " -> -> "])),
                line.replace("value = ", draw.choice(["value=", "value =  ", "value == ", "value = -"])),
                line.replace("node ", draw.choice(["node\t ", "node", "nodes ", 'node"x"'])),
                f"{line} {draw.choice(['more', '#', '1', chr(34)])}",
                line[: draw.randrange(len(line) + 1)],
            ]
        )
    return "\n".join(lines)


class FeedErrors(unittest.TestCase):
    HEAD = "label x 1\nlabel y 2\nnode a x\nnode b y\n"

    def assert_error(self, line: str, message: str):
        with self.assertRaises(WrongText) as caught:
            Graph.of_text(self.HEAD + line, "w.feed")
        self.assertEqual(str(caught.exception), f"w.feed:5: {message}")

    def test_lines(self):
        digits = "found 7; quote a name of digits: \"7\""
        for line, message in {
            "knot c x": "expected label, node, edge or constraint, found 'knot'",
            "label": "expected the name of a label, found the end of the line",
            "label 7": f"expected the name of a label, {digits}",
            "label z 0": "expected the number of label z, a whole number from 1 to 65,535, found '0'",
            "label z 65536": "expected the number of label z, a whole number from 1 to 65,535, found '65536'",
            "label x": "label x is there already, with number 1",
            "label z 1": "label 1 has the name x already",
            "node": "expected the name of a node, found the end of the line",
            "node 7 x": f"expected a name, or 2, the id of this node, {digits}",
            "node a x": "node a is there already, with number 0",
            "node c": "expected a label, found the end of the line",
            "node c z": "no label is named z",
            "node c -> x": "expected a label, found '->'",
            "node c 0": "the number of a label is 0, and must be from 1 to 65,535",
            "node c x value 3": "expected value =, found 'value'",
            "node c x value = 2,5": "expected the end of the line, found ','",
            "node c x value = 2.5": "expected a value, a whole number from -2,147,483,648 to 2,147,483,647, found '2.5'",
            "node c x value = 2147483648": "expected a value, a whole number from -2,147,483,648 to 2,147,483,647, "
            "found '2147483648'",
            "edge a b": "expected ->, found 'b'; a name with a blank in it is quoted, as \"a b\"",
            "edge a - > b": "expected ->, found '-'",
            "node c x 3": "expected value =, found '3'",
            "edge a -> b c": "expected the end of the line, found 'c'; a name with a blank in it is quoted, as \"b c\"",
            "node body weight x": "expected value =, found 'x'; a name with a blank in it is quoted, as \"body weight\"",
            "label body weight": "expected the number of label body, a whole number from 1 to 65,535, found 'weight'; "
            "a name with a blank in it is quoted, as \"body weight\"",
            "edge a -> c": "no node is named c",
            "edge a -> 2": "no node has the id 2: there are 2 nodes, from id 0",
            "edge a -> a": "an edge joins two different nodes, and a -> a does not",
            "constraint x y -> x at most 1": "expected ->, found 'y'; a name with a blank in it is quoted, as \"x y\"",
            "constraint x -> y": "expected at most, found the end of the line",
            "constraint x -> y at most 0": "expected N, a whole number from 1 to 65,535, found '0'",
            "constraint x, x -> y at most 1": "a constraint has at most 3 labels before ->, each once",
            "constraint 1, 2, 3, 4 -> y at most 1": "a constraint has at most 3 labels before ->, each once",
            'node "c x': "expected a closing quote",
            'node "\\q" x': 'expected a name quoted as in JSON, found "\\q"',
            'node "" x': "expected a name, found an empty one",
        }.items():
            with self.subTest(line=line):
                self.assert_error(line, message)

    def test_all_mistakes_at_once_in_line_order(self):
        text = "edge a -> d\nnode a z\nlabel y 0\nnode b y\nedge a -> b\nnode 2 y\nedge a -> 2\nconstraint -> z at most 1\n"
        with self.assertRaises(WrongText) as caught:
            Graph.of_text(text, "w")
        self.assertEqual(
            str(caught.exception),
            "w:1: no node is named d\n"
            "w:2: no label is named z\n"
            "w:3: expected the number of label y, a whole number from 1 to 65,535, found '0'\n"
            "w:8: no label is named z",
        )
        self.assertEqual([one.line for one in caught.exception.mistakes], [1, 2, 3, 8])

    def test_of_very_many_mistakes_the_first_are_told(self):
        with self.assertRaises(WrongText) as caught:
            Graph.of_text("".join(f"node n{place} x\n" for place in range(3_000)), "w")
        lines = str(caught.exception).split("\n")
        self.assertEqual((len(lines), lines[0], lines[-1]), (21, "w:1: no label is named x", "w: 980 more mistakes"))

    def test_lines_and_names_have_a_length(self):
        self.assert_error(f"node {'n' * 1_001} x", "a name has at most 1,000 characters, and this has 1,001")
        self.assert_error(f"node {'n' * 200_000} x", "a line has at most 100,000 characters, and this has 200,007")
        self.assert_error(f"edge a -> {'n' * 500}", f"no node is named {'n' * 60}..")

    def test_names_that_a_terminal_would_act_on_are_spelled_visibly(self):
        for name, shown in {"a\x1b[31m": '"a\\u001b[31m"', "\x9b2J": '"\\u009b2J"', "a\u202eb": '"a\\u202eb"'}.items():
            self.assertEqual(spelled(name), shown)
            self.assertEqual(Graph.of_text(f"label x\nnode {shown} x\n").names.nodes.name(0), name)
        self.assert_error("knot\x1b[31m", "expected label, node, edge or constraint, found 'knot\\u001b[31m'")

    def test_the_second_of_two_is_named(self):
        for line, message in {
            "edge a -> b\nedge 0 -> 1": "the edge a -> b is there already",
            "constraint -> y at most 1\nconstraint -> y at most 2": "a constraint between the same labels is there already",
        }.items():
            with self.assertRaises(WrongText) as caught:
                Graph.of_text(self.HEAD + line, "w.feed")
            self.assertEqual(str(caught.exception), f"w.feed:6: {message}")

    def test_lines_as_they_mostly_are_are_read_as_word_by_word(self):
        for seed in range(150):
            text = random_spelling(seed)
            quick = told(text)
            with mock.patch.object(feed, "_quick_node", return_value=False), mock.patch.object(feed, "_quick_edge", return_value=False):
                self.assertEqual(told(text), quick, text)

    def test_a_near_name_is_hinted_at(self):
        with self.assertRaisesRegex(WrongText, "^w:2: no label is named feild; did you mean field\\?$"):
            Graph.of_text("label field\nnode a feild", "w")

    def test_limits_of_a_store(self):
        lines = "".join(f"constraint -> {label} at most 1\n" for label in range(1, 34))
        with self.assertRaisesRegex(WrongText, "^w:33: a store has at most 32 constraints$"):
            Graph.of_text(lines + "no nodes", "w")
        graph = Graph()
        graph.nodes = [(1, 0)] * 65_535
        with self.assertRaisesRegex(WrongGraph, "at most 65,535 nodes"):
            graph.add_node("one too many", 1)
        graph.edges = set(range(262_144))
        with self.assertRaisesRegex(WrongGraph, "at most 262,144 edges"):
            graph.add_edge(0, 1)

    def test_a_graph_without_nodes_has_to_say_so(self):
        told = "expected a node line: a graph without nodes says so, by the line 'no nodes'"
        for text, line in {"": 1, "# nothing\n\n": 1, "label x\nlabel y\n": 2}.items():
            with self.assertRaises(WrongText) as caught:
                Graph.of_text(text, "w.feed")
            self.assertEqual(str(caught.exception), f"w.feed:{line}: {told}")
        self.assertEqual(Graph.of_text("no nodes").draft(), Graph().draft())
        self.assertEqual(Graph().text(), "no nodes\n")
        with self.assertRaisesRegex(WrongText, "w:2: expected no node line beside 'no nodes'"):
            Graph.of_text("node a 1\nno nodes", "w")
        with self.assertRaisesRegex(WrongText, "w:1: expected nodes, found 'edges'"):
            Graph.of_text("no edges", "w")

    def test_line_numbers_of_long_texts(self):
        with mock.patch("bahrufaz.lines._PART", 7):
            for text in ("", "a", "a\n", "\n\n\n", "ab\ncdefghij\n\nk\nlmnopq\nr\n", "x" * 30, "x\n" * 30):
                self.assertEqual(list(numbered_lines(text)), list(enumerate(text.split("\n"), 1)))

    def test_any_line_ends(self):
        text = (EXAMPLES / "small" / "world.feed").read_text(encoding="utf-8")
        with tempfile.TemporaryDirectory() as directory:
            path = Path(directory) / "w.feed"
            for ends in ("\n", "\r\n", "\r"):
                path.write_bytes(text.replace("\n", ends).encode("utf-8"))
                self.assertEqual(Graph.read(path).draft(), small_world().draft(), repr(ends))
            path.write_bytes(b"label a\rlabel b\rnode n c\r")
            with self.assertRaisesRegex(WrongText, "w.feed:3: no label is named c"):
                Graph.read(path)

    def test_names_that_cannot_be_written(self):
        for name in ("", "\ud800"):
            with self.assertRaisesRegex(WrongName, "a name has at least one character, all of them Unicode"):
                Graph().add_node(name, 1)
        with self.assertRaisesRegex(WrongName, "the name of a node is a text, and 17 is none"):
            Graph().add_node(17, 1)

    def test_other_bytes(self):
        with tempfile.TemporaryDirectory() as directory:
            path = Path(directory) / "w.feed"
            path.write_bytes(b"label a\nlabel \xff")
            with self.assertRaisesRegex(WrongText, "w.feed:2: expected UTF-8 text, found other bytes"):
                Graph.read(path)
            path.write_text("label a\n", encoding="utf-16")
            with self.assertRaisesRegex(WrongText, "w.feed:1: expected UTF-8 text, found UTF-16: save it as UTF-8"):
                Graph.read(path)


class PatternErrors(unittest.TestCase):
    def assert_error(self, text: str, message: str):
        with self.assertRaises(WrongText) as caught:
            Pattern.of_text(text, "a.pat")
        self.assertEqual(str(caught.exception), f"a.pat:{message}")

    def test_lines(self):
        self.assert_error("", "1: expected a node line: a pattern has at least one node")
        self.assert_error("# nothing\n\nlabel x 1", "3: expected a node line: a pattern has at least one node")
        self.assert_error("constraint -> x at most 1", "1: expected label, node or edge, found 'constraint'")
        self.assert_error("label x", "1: expected the number of label x, a whole number from 1 to 65,535, found the end of the line")
        self.assert_error("node a x\nnode b x value 3", "2: expected one of = < > <= >=, found '3'")
        self.assert_error("node a x value = 1 or value = 2", "1: expected the end of the line, found 'or'")
        self.assert_error(
            "node a x value > 1 and value < 5 and value = 3", "1: a pattern node has at most 2 conditions"
        )
        self.assert_error("node a x\nedge a -> b", "2: no pattern node is named b")
        self.assert_error("node a x\nedge a -> 4", "2: no pattern node has the number 4")
        self.assert_error("node a x\nedge a -> a", "2: an edge joins two different nodes, and a -> a does not")
        self.assert_error("node a 0", "1: expected a label, a whole number from 1 to 65,535, found '0'")
        nine = "".join(f"node n{place} x\n" for place in range(9))
        self.assert_error(nine, "9: a pattern has at most 8 nodes")

    def test_labels_come_from_the_graph_or_the_pattern(self):
        names = small_world().names
        with self.assertRaisesRegex(WrongText, "text:1: no label is named fild; did you mean field\\?"):
            Pattern.of_text("node a fild").encode(names)
        with self.assertRaisesRegex(WrongText, "text:1: no label is named field"):
            Pattern.of_text("node a field").encode()
        made = Pattern()
        made.add_node("a", "fild")
        with self.assertRaisesRegex(WrongName, "^no label is named fild; did you mean field\\?$"):
            made.encode(names)
        own = Pattern.of_text("label field 4\nnode a field")
        self.assertEqual(own.encode(), own.encode(names))
        other = Pattern.of_text("node a field\nnode b fild\n\nlabel field 5", "a.pat")
        with self.assertRaises(WrongText) as caught:
            other.encode(names)
        self.assertEqual(
            str(caught.exception),
            "a.pat:2: no label is named fild; did you mean field?\n"
            "a.pat:4: label field is 5 in the pattern and 4 in the graph",
        )

    def test_all_mistakes_at_once_in_line_order(self):
        self.assert_error(
            "edge a -> c\nnode a x value = 1.5\nnod b x\nnode c y\nedge c -> d\nlabel y 0\n",
            "2: expected a constant, a whole number from -2,147,483,648 to 2,147,483,647, found '1.5'\n"
            "a.pat:3: expected label, node or edge, found 'nod'\n"
            "a.pat:5: no pattern node is named d\n"
            "a.pat:6: expected the number of label y, a whole number from 1 to 65,535, found '0'",
        )


class NamesFiles(unittest.TestCase):
    def setUp(self):
        self.directory = tempfile.TemporaryDirectory()
        self.addCleanup(self.directory.cleanup)
        self.path = Path(self.directory.name) / "world.store"

    def test_names_stand_beside_the_store(self):
        store = small_world().build()
        self.assertEqual(store.write(self.path), names_path(self.path))
        again = Store.read(self.path)
        self.assertEqual(again.data, store.data)
        self.assertEqual(again.names.nodes, store.names.nodes)
        self.assertEqual(again.names.labels, store.names.labels)

    def test_without_names_numbers_are_shown(self):
        small_world().build().write(self.path)
        names_path(self.path).unlink()
        names = Store.read(self.path).names
        self.assertEqual((names.nodes.name(5), names.labels.name(4)), ("5", "4"))

    def test_names_of_another_store_are_refused(self):
        world = small_world()
        store = world.build()
        store.write(self.path)
        world.add_node("another", "field")
        self.path.write_bytes(world.build().data)
        with self.assertRaisesRegex(WrongText, "world.names:2: these are the names of another store"):
            Store.read(self.path)

    def test_a_long_file_is_looked_into(self):
        graph = Graph()
        graph.add_label("x")
        for place in range(3_000):
            graph.add_node(f"n{place}" if place % 3 else f"n {place}", "x")
        store = graph.build()
        store.write(self.path)
        again = Store.read(self.path)
        self.assertEqual([again.names.nodes.name(node) for node in (0, 1, 2_997)], ["n 0", "n1", "n 2997"])
        self.assertFalse("_whole" in vars(again.names.nodes))
        self.assertEqual(again.names.nodes.name(3_000), "3000")
        self.assertEqual(again.names.nodes, store.names.nodes)
        self.assertEqual(again.names.nodes.number("n7"), 7)

    def test_a_long_file_in_another_order_is_read_whole(self):
        graph = Graph()
        graph.add_label("x")
        for place in range(3_000):
            graph.add_node(f"n{place}", "x")
        store = graph.build()
        store.write(self.path)
        lines = names_path(self.path).read_text().splitlines()
        for swapped in (lines[:2] + lines[:1:-1], lines[:10] + [lines[11], lines[10]] + lines[12:], lines[:-1]):
            names_path(self.path).write_text("\n".join(swapped) + "\n")
            again = Store.read(self.path).names.nodes
            self.assertEqual([again.name(node) for node in range(10)], [f"n{node}" for node in range(10)])
        self.assertEqual(again.name(2_999), "2999")

    def test_wrong_names(self):
        store = small_world().build()
        text = names_text(store.names, store.data)
        for old, new, message in [
            ("store sha256", "# store sha256", ":1: expected a line 'store sha256"),
            ("node german   1", "node german 0", "node 0 has the name english already"),
            ("node german   1", "node english 1", "node english is there already, with number 0"),
            ("node german   1", "edge german 1", "expected store, label or node, found 'edge'"),
        ]:
            names_path(self.path).write_text(text.replace(old, new))
            self.assertNotEqual(text, text.replace(old, new))
            with self.assertRaisesRegex(WrongText, message):
                read_names(names_path(self.path), store.data)
        self.assertFalse(Names())


class WholeFiles(unittest.TestCase):
    def setUp(self):
        self.directory = tempfile.TemporaryDirectory()
        self.addCleanup(self.directory.cleanup)
        self.path = Path(self.directory.name) / "file"

    def entries(self):
        return sorted(path.name for path in Path(self.directory.name).iterdir())

    def test_a_failed_write_leaves_the_old_file_and_nothing_else(self):
        write_whole(self.path, "old")
        with self.assertRaises(UnicodeEncodeError):
            write_whole(self.path, "\ud800")
        with self.assertRaises(TypeError):
            write_whole(self.path, 3)
        self.assertEqual(self.path.read_text(), "old")
        self.assertEqual(self.entries(), ["file"])

    def test_the_mode_of_a_file_is_kept(self):
        write_whole(self.path, "old")
        self.path.chmod(0o640)
        write_whole(self.path, "new")
        self.assertEqual(self.path.stat().st_mode & 0o777, 0o640)
        self.assertEqual(self.path.read_text(), "new")

    def test_a_link_stays_and_a_pipe_is_not_replaced(self):
        write_whole(self.path, "old")
        link = self.path.with_name("link")
        link.symlink_to(self.path)
        write_whole(link, "new")
        self.assertTrue(link.is_symlink())
        self.assertEqual(self.path.read_text(), "new")
        write_whole("/dev/null", "gone")
        self.assertFalse(Path("/dev/null").is_file())
