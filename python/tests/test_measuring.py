"""Constraints that hold: all of them, or the few that patterns need."""

import unittest
from pathlib import Path

from bahrufaz import Graph, Pattern, Refused, plan
from bahrufaz import list as list_matches
from bahrufaz.measuring import measure, measure_for

from .commands import CommandCase
from .worlds import EXAMPLES, pattern_a, pattern_of, random_pattern, random_world, small_world, whole_search

PANEL = EXAMPLES / "panel"


def bare(graph: Graph) -> Graph:
    graph.constraints = []
    return graph


class Measured(unittest.TestCase):
    def test_each_holds_and_with_a_smaller_n_does_not(self):
        graph = bare(Graph.read(PANEL / "world.feed"))
        for one in measure(graph):
            graph.constraints = [one]
            graph.build()
            if one.most > 1:
                graph.constraints = [one._replace(most=one.most - 1)]
                with self.assertRaises(Refused) as caught:
                    graph.build()
                self.assertEqual(caught.exception.number, 4)

    def test_what_is_there_already_is_left_out(self):
        told = measure(small_world())
        self.assertNotIn(((), 1), [one[:2] for one in told])
        self.assertEqual(len(told) + 4, len(measure(bare(small_world()))))

    def test_few_for_a_pattern(self):
        graph = bare(small_world())
        graph.constraints = measure_for(graph, [pattern_a()])
        self.assertLess(len(graph.constraints), len(measure(bare(small_world()))))
        told = plan(graph.build(), pattern_a())
        self.assertEqual({row.constraint for row in told}, set(range(len(graph.constraints))))
        self.assertEqual(measure_for(graph, [pattern_a()]), [])

    def test_a_checklist_is_answered_by_them(self):
        graph = bare(Graph.read(PANEL / "world.feed"))
        patterns = [Pattern.read(path) for path in sorted((PANEL / "checklist").glob("*.pat"))]
        graph.constraints = measure_for(graph, patterns)
        self.assertLess(len(graph.constraints), 20)
        store = graph.build()
        captions = sum(node.label == graph.names.labels.number("caption") for node in graph.nodes)
        self.assertEqual([len(list_matches(store, one)) for one in patterns], [21, 2, 4, 18, 6, 24, 4, captions])

    def test_random_worlds(self):
        answered = 0
        for seed in range(60):
            graph, pattern = bare(random_world(seed)), random_pattern(seed)
            if not graph.nodes:
                continue
            graph.constraints = measure_for(graph, [pattern])
            self.assertEqual(list_matches(graph.build(), pattern).rows, whole_search(graph, pattern), seed)
            answered += 1
        self.assertGreater(answered, 40)

    def test_a_label_that_no_node_has(self):
        graph = bare(small_world())
        graph.constraints = measure_for(graph, [pattern_of([9], [])])
        self.assertEqual(list_matches(graph.build(), pattern_of([9], [])).rows, [])


class MeasureCommand(CommandCase):
    def setUp(self):
        super().setUp()
        text = Path("world.feed").read_text()
        Path("bare.feed").write_text("# mine\n" + "".join(line for line in text.splitlines(True) if not line.startswith("constraint")))

    def test_for_patterns_into_a_new_file(self):
        out = self.answer("measure", "bare.feed", "--for", "a.pat", "-o", "measured.feed")
        self.assertRegex(out, r"^measured.feed: \d constraints added, \d in all\n$")
        text = Path("measured.feed").read_text()
        self.assertTrue(text.startswith("# mine\n"))
        self.assertIn("german", self.answer("list", "measured.feed", "a.pat"))
        self.assertEqual(self.answer("measure", "measured.feed", "--for", "a.pat"), "")

    def test_into_its_own_file_only_by_force(self):
        self.assert_status(2, "bare.feed is read by this command", "measure", "bare.feed", "--for", "a.pat", "-o", "bare.feed")
        self.answer("measure", "bare.feed", "--for", "a.pat", "-o", "bare.feed", "--force")
        self.assertIn("german", self.answer("list", "bare.feed", "a.pat"))

    def test_more_than_a_store_can_have(self):
        lines = [f"label l{place}\nnode n{place} l{place}\n" for place in range(40)]
        Path("many.feed").write_text("".join(lines))
        status, out, err = self.run_command("measure", "many.feed")
        self.assertEqual((status, out.count("\n")), (0, 40))
        self.assertIn("40 constraints in all, and a store has at most 32: say by --for PATTERN", err)
        self.assert_status(2, "40 constraints in all", "measure", "many.feed", "-o", "all.feed")
        Path("one.pat").write_text("node a l7\n")
        self.assertEqual(self.answer("measure", "many.feed", "--for", "one.pat"), "constraint -> l7 at most 1\n")

    def test_a_pattern_that_is_wrong(self):
        Path("wrong.pat").write_text("node a fild\n")
        self.assert_status(2, "wrong.pat:1: no label is named fild", "measure", "bare.feed", "--for", "wrong.pat")
