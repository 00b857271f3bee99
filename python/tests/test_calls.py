"""The calls through the package: the small world with its cases, and random worlds against a whole search."""

import struct
import unittest

from bahrufaz import AdmittedStore, Graph, Pattern, Refused, Store, Wrong, WrongGraph, library, list_unchecked, plan
from bahrufaz import list as list_matches

from .worlds import (
    PATTERN_A,
    SMALL,
    pattern_a,
    pattern_of,
    random_pattern,
    random_world,
    small_world,
    stale_world,
    whole_search,
)


class SmallWorld(unittest.TestCase):
    def setUp(self):
        self.store = small_world().build()

    def test_lengths(self):
        self.assertEqual(len(small_world().draft()), 200)
        self.assertEqual(len(self.store.data), 432)
        self.assertEqual(len(pattern_a().encode()), 94)
        header = struct.unpack_from("<12I", self.store.data)
        self.assertEqual(header, (1, 7, 6, 4, 7, 8, 48, 104, 152, 200, 368, 432))

    def test_text_examples_are_the_small_world_and_pattern_a(self):
        graph, pattern = Graph.read(SMALL), Pattern.read(PATTERN_A)
        self.assertEqual(graph.draft(), small_world().draft())
        self.assertEqual(pattern.encode(graph.names), pattern_a().encode())

    def test_plan_of_a(self):
        told = plan(self.store, pattern_a())
        self.assertEqual(told.bound, 38)
        self.assertEqual([row.figure for row in told.rows], [2, 2, 8, 8, 2, 8, 8])
        self.assertEqual([row.constraint for row in told.rows], [0, 1, 2, 3, 1, 2, 3])
        self.assertEqual([row.chosen for row in told.rows], [(), (0,), (1,), (2,), (0,), (1,), (2,)])

    def test_listing_of_a(self):
        told = list_matches(self.store, pattern_a())
        self.assertEqual((told.matches, told.node_entries, told.edge_entries, told.bound), (1, 5, 3, 38))
        self.assertEqual(told.rows, [(1, 3, 5, 4)])
        named = {"0": "german", "1": "comma", "2": "weight", "3": "feeding"}
        self.assertEqual(list(told.named()), [named])

    def results(self, pattern):
        told = list_matches(self.store, pattern)
        return told.rows, told.node_entries, told.edge_entries, told.bound

    def test_other_cases(self):
        turned = pattern_of([1, 2, 4, 3], [(1, 0), (2, 1), (3, 2)], {0: [("=", 2)]})
        self.assertEqual(self.results(turned), ([], 5, 3, 38))
        two_fields = pattern_of([1, 2, 4, 4], [(0, 1), (2, 1), (3, 1)])
        self.assertEqual(self.results(two_fields), ([], 8, 6, 38))
        self.assertEqual(self.results(pattern_of([1], [])), ([(0,), (1,)], 2, 0, 2))
        clash = pattern_of([1], [], {0: [(">", 1), ("<", 2)]})
        self.assertEqual(self.results(clash), ([], 2, 0, 2))

    def refusal(self, work):
        with self.assertRaises(Refused) as caught:
            work()
        return caught.exception

    def test_refusals(self):
        world = small_world()
        del world.constraints[2]
        refused = self.refusal(lambda: plan(world.build(), pattern_a()))
        self.assertEqual((refused.number, refused.sentence), (7, "a pattern node or edge is not covered"))
        self.assertEqual(self.refusal(lambda: Store(b"")).number, 1)
        self.assertEqual(self.refusal(lambda: Store(self.store.data + b"x")).number, 1)
        self.assertEqual(self.refusal(lambda: library.build(self.store.data)).number, 1)
        self.assertEqual(self.refusal(lambda: Pattern.of_bytes(b"")).number, 6)
        self.assertEqual(self.refusal(lambda: list_matches(self.store, pattern_a(), 3)).number, 10)
        self.assertEqual(list_matches(self.store, pattern_a(), 4).matches, 1)

    def test_a_large_bound_is_refused_with_8(self):
        world = Graph()
        world.add_constraint((), 1, 32_768)
        world.add_constraint((), 2, 32_768)
        draft = Store(world.draft())
        self.assertEqual(plan(draft, pattern_of([1, 2], [])).bound, 65_536)
        world.constraints[1] = world.constraints[1]._replace(most=32_769)
        refused = self.refusal(lambda: plan(Store(world.draft()), pattern_of([1, 2], [])))
        self.assertEqual((refused.number, refused.sentence), (8, "T above 65,536"))

    def test_admitting(self):
        again = Store(self.store.data).admit()
        self.assertIsInstance(again, AdmittedStore)
        self.assertIs(again.admit(), again)
        draft = self.refusal(Store(small_world().draft()).admit)
        self.assertEqual((draft.number, draft.detail), (5, "this is a draft: it has no index yet"))
        damaged = bytearray(self.store.data)
        damaged[-4] ^= 1
        other = self.refusal(Store(bytes(damaged)).admit)
        self.assertEqual((other.number, other.sentence[:5], other.detail), (5, "index", ""))
        damaged[368 + 8 * 6 + 5] = 1  # a last byte of the entry that field 5 has its screen from
        listing = self.refusal(lambda: list_unchecked(Store(bytes(damaged)), pattern_a()))
        self.assertEqual((listing.number, listing.sentence), (5, "a list read is unfit"))

    def test_an_empty_draft_is_its_own_store(self):
        graph = Graph()
        self.assertEqual(Store(graph.draft()).admit().data, graph.build().data)

    def test_listing_takes_an_admitted_store(self):
        store = Store(self.store.data)
        with self.assertRaisesRegex(Wrong, "this store is not admitted, so matches may be missing: list\\(store.admit"):
            list_matches(store, pattern_a())
        self.assertFalse(list_unchecked(store, pattern_a()).admitted)
        self.assertTrue(list_matches(store.admit(), pattern_a()).admitted)
        with self.assertRaises(AttributeError):
            self.store.data = b""

    def test_an_index_left_behind_lacks_matches_and_is_not_admitted(self):
        stale = Store(stale_world())
        self.assertEqual(list_unchecked(stale, pattern_a()).rows, [])
        self.assertEqual(list_matches(self.store, pattern_a()).rows, [(1, 3, 5, 4)])
        self.assertEqual(self.refusal(stale.admit).number, 5)

    def test_a_listing_has_the_length_of_its_matches_and_iterates_over_them(self):
        told = list_matches(self.store, pattern_of([1], []))
        self.assertEqual(len(told), 2)
        self.assertEqual(list(told), [{"0": "english"}, {"0": "german"}])
        self.assertEqual(told[-1], {"0": "german"})
        none = list_matches(self.store, pattern_of([1], [], {0: [(">", 1), ("<", 2)]}))
        self.assertEqual((len(none), list(none)), (0, []))
        steps = plan(self.store, pattern_a())
        self.assertEqual((len(steps), [row.figure for row in steps][:3], steps[-1].figure), (7, [2, 2, 8], 8))

    def test_what_is_no_store_or_pattern_is_told(self):
        for work, message in [
            (lambda: plan(small_world(), pattern_a()), "plan takes a store first, and not a Graph: build\\(\\) gives"),
            (lambda: list_matches("world.store", pattern_a()), "list takes a store first, and not a str: Store.read"),
            (lambda: plan(self.store, "a.pat"), "plan takes a pattern second, and not a str: Pattern.read gives one"),
        ]:
            with self.assertRaisesRegex(Wrong, message):
                work()

    def test_numbers_that_are_not_whole_are_refused_as_they_are_given(self):
        world = small_world()
        for number in (2.5, True, "2", None):
            for work in (
                lambda: world.add_node("new", "field", number),
                lambda: world.add_label("new", number) if number is not None else world.add_constraint([], 1, None),
                lambda: world.add_constraint([], "field", number),
                lambda: pattern_a().add_node("new", "field", [("=", number)]),
            ):
                with self.assertRaisesRegex(WrongGraph, "is a whole number, and .* is none"):
                    work()
        for work in (lambda: world.add_edge(True, 5), lambda: pattern_a().add_node("new", 2.0)):
            with self.assertRaisesRegex(WrongGraph, "is a whole number, and .* is none"):
                work()
        self.assertEqual(world.draft(), small_world().draft())
        self.assertNotIn("new", world.names.labels)

    def test_lists_that_are_none_are_refused(self):
        with self.assertRaisesRegex(WrongGraph, "given as a list: \\['locale'\\]"):
            small_world().add_constraint("locale", "format", 1)
        for conditions in ("=2", ("=", 2)):
            with self.assertRaisesRegex(WrongGraph, "conditions are a list of pairs"):
                pattern_a().add_node("new", "field", conditions)
        with self.assertRaisesRegex(WrongGraph, "one of the signs = < > <= >=, and not '=='"):
            pattern_a().add_node("new", "field", [("==", 2)])

    def test_a_list_that_is_too_long_is_named(self):
        world = small_world()
        world.constraints[0] = world.constraints[0]._replace(most=1)
        world.add_edge("english", "comma")
        refused = self.refusal(world.build)
        self.assertEqual(refused.number, 4)
        self.assertEqual(
            refused.detail,
            "-> locale at most 1: the list of the empty key has 2\n"
            "locale -> format at most 1: the list of english has 2",
        )

    def test_wrong_records_are_refused_before_they_are_shown_as_a_graph(self):
        draft = bytearray(small_world().draft())
        draft[50] = 1  # the filler of node 0
        self.assertEqual(self.refusal(lambda: Graph.of_bytes(bytes(draft))).number, 2)
        draft = bytearray(small_world().draft())
        draft[152] = 9  # S of the first constraint is then 9, with the right N and l: still right
        Graph.of_bytes(bytes(draft))
        draft[154] = 9
        self.assertEqual(self.refusal(lambda: Graph.of_bytes(bytes(draft))).number, 3)


class RandomWorlds(unittest.TestCase):
    def test_listing_gives_the_matches_of_the_whole_graph(self):
        answered = found = 0
        for seed in range(300):
            world, pattern = random_world(seed), random_pattern(1_000 + seed)
            store = Store(world.build().data, world.names).admit()
            try:
                told = list_matches(store, pattern)
            except Refused as refused:
                self.assertIn(refused.number, (7, 8), seed)
                continue
            self.assertEqual(told.rows, whole_search(world, pattern), seed)
            self.assertLessEqual(told.entries, told.bound, seed)
            answered, found = answered + 1, found + told.matches
        self.assertGreater(answered, 200)
        self.assertGreater(found, 300)

    def test_a_room_that_must_grow(self):
        world = Graph()
        for place in range(400):
            world.add_node(None, 1, place)
        world.add_constraint((), 1, 400)
        told = list_matches(world.build(), pattern_of([1, 1], []))
        self.assertEqual(told.matches, 400 * 399)
        self.assertEqual(told.rows[0], (0, 1))
        self.assertEqual(told.rows[-1], (399, 398))
        self.assertEqual(len(set(told.rows)), 400 * 399)
