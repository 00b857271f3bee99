"""No answer from a store that is not admitted, unless it is asked for and says so."""

import json
from pathlib import Path

from bahrufaz import Pattern
from bahrufaz.tables import UNCHECKED

from .commands import CommandCase
from .worlds import small_world, stale_world

COMMANDS = (["list", "stale", "a.pat"], ["list", "--count", "stale", "a.pat"], ["draw", "stale", "a.pat"], ["show", "stale"])


class Trust(CommandCase):
    def setUp(self):
        super().setUp()
        Path("stale").write_bytes(stale_world())
        labels = "label locale 1\nlabel format 2\nlabel screen 3\nlabel field 4\n"
        Path("a.pat").write_text(labels + Path("a.pat").read_text())

    def test_a_stale_index_is_refused_with_5_and_what_to_do(self):
        for command in COMMANDS:
            status, out, err = self.run_command(*command)
            self.assertEqual((status, out), (1, ""), command)
            self.assertIn("refused with 5: index differs from the one built", err)
            self.assertIn("build the store again from its .feed file\n", err)
            self.assertIn("give --unchecked\n", err)

    def test_in_json_too(self):
        for command in (["list", "--json", "stale", "a.pat"], ["show", "--json", "stale"]):
            status, out, _ = self.run_command(*command)
            self.assertEqual((status, json.loads(out)["answer"]), (1, 5))

    def test_unchecked_says_so_in_its_first_line(self):
        for command in COMMANDS[:2] + COMMANDS[3:]:
            self.assertEqual(self.answer(*command, "--unchecked").split("\n")[0], UNCHECKED)
        self.assertIn("no match; ", self.answer("list", "--unchecked", "stale", "a.pat"))
        for command in (["list", "--csv", "stale", "a.pat"], ["list", "--json", "stale", "a.pat"], ["draw", "stale", "a.pat"]):
            status, out, err = self.run_command(*command, "--unchecked")
            self.assertEqual((status, err), (0, f"bahrufaz: {UNCHECKED}\n"))
            self.assertNotEqual(out.split("\n")[0], UNCHECKED)
        self.assertIn(UNCHECKED, out)  # in the title of the picture

    def test_json_says_whether_the_store_was_admitted(self):
        def admitted(*command):
            return json.loads(self.run_command(*command)[1])["admitted"]

        self.assertFalse(admitted("list", "--json", "--unchecked", "stale", "a.pat"))
        self.assertFalse(admitted("show", "--json", "--unchecked", "stale"))
        for store in (self.built(), "world.feed"):
            self.assertTrue(admitted("list", "--json", store, "a.pat"))
            self.assertTrue(admitted("show", "--json", store))

    def test_a_draft_is_refused_as_a_draft(self):
        self.answer("build", "--draft", "world.feed", "-o", "draft.bin")
        for command in (["list", "draft.bin", "a.pat"], ["show", "draft.bin"], ["admit", "draft.bin"]):
            status, out, err = self.run_command(*command)
            self.assertEqual((status, out), (1, ""), command)
            self.assertIn("this is a draft: it has no index yet\n  build it: bahrufaz build DRAFT -o STORE\n", err)
        self.assertIn("There is no index", self.answer("show", "--unchecked", "draft.bin"))
        self.assertIn("T = 38", self.answer("plan", "draft.bin", "a.pat"))

    def test_what_reads_no_index_needs_no_admitted_store(self):
        self.assertIn("T = 38", self.answer("plan", "stale", "a.pat"))
        self.assertIn("digraph", self.answer("draw", "--what", "plan", "stale", "a.pat"))
        self.assertIn("edge 5 -> 3", self.answer("text", "stale"))

    def test_the_stale_world_has_the_records_of_the_small_one(self):
        self.assertEqual(Pattern.read("a.pat").encode(), Pattern.read("a.pat").encode(small_world().names))
        self.assertEqual(stale_world()[48:200], small_world().draft()[48:200])
