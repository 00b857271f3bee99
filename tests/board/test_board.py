"""The drawing board in a real browser: each flow by touch and by keys, files good and bad, offline, two sizes."""

from __future__ import annotations

import hashlib
import json
import tempfile
import unittest
from pathlib import Path

from browser import CHECKOUT, PAGE, Browser, Server
from selenium.webdriver.common.keys import Keys
from selenium.webdriver.support.ui import Select

EXAMPLES = CHECKOUT / "examples"
NODE = '[data-key="node {}"]'
HANDLE = "[data-handle='{}'] .dot"
ROWS = "return [...document.querySelectorAll('#results tbody tr')].map(r => [...r.children].map(c => c.textContent))"


class Page(unittest.TestCase):
    """A page in one size of window, fresh for each test; nothing may be complained of in the console."""

    SIZE = (1180, 820)

    @classmethod
    def setUpClass(cls):
        cls.server = Server()
        cls.browser = Browser(*cls.SIZE)
        cls.addClassCleanup(cls.server.stop)
        cls.addClassCleanup(cls.browser.close)
        cls.folder = Path(tempfile.mkdtemp())

    def setUp(self):
        self.browser.forget(self.server.url)
        self.browser.open(self.server.url)
        self.addCleanup(lambda: self.assertEqual(self.browser.complaints(), []))

    # what a person does

    def tap(self, selector):
        self.browser.tap(selector)

    def place(self, x, y):
        """A place on the board, from parts of its width and height."""
        self.browser.middle("#canvas")
        left, top, width, height = self.browser.run(
            "const r = document.querySelector('#canvas').getBoundingClientRect();"
            "return [r.left, r.top, r.width, r.height]"
        )
        return int(left + x * width), int(top + y * height)

    def choose_label(self, name):
        self.browser.wait("#chooser[open]")
        buttons = "document.querySelectorAll('#chooser-labels button')"
        labels = self.browser.run(f"return [...{buttons}].map(b => b.firstChild.textContent)")
        self.tap(f"#chooser-labels button:nth-child({labels.index(name) + 1})")

    def add_by_touch(self, label, x, y):
        self.browser.finger(self.place(x, y))
        self.choose_label(label)

    def drag(self, start, end):
        self.browser.finger(start, ((start[0] + end[0]) // 2, (start[1] + end[1]) // 2), end)

    def connect_by_touch(self, start, end):
        self.drag(self.browser.middle(HANDLE.format(start)), self.browser.middle(NODE.format(end) + " .box"))

    def give_world(self, *paths):
        self.browser.give_files("#world-files", *paths)

    def open_world(self, *paths):
        self.give_world(*paths)
        self.assert_text("#world", f"{paths[0].name}admitted")

    def written(self, name, data):
        path = self.folder / name
        path.write_bytes(data if isinstance(data, bytes) else data.encode())
        return path

    # what the page shows

    def state(self):
        return self.browser.run("return bahrufazBoard.drawing.state")

    def names(self):
        return [node["name"] for node in self.state()["nodes"]]

    def assert_text(self, selector, wanted):
        self.browser.until_text(selector, wanted)

    def rows(self):
        return self.browser.run(ROWS)

    def assert_soon(self, what, wanted):
        """Holds it to what comes of a touch or a key, whose click may follow a moment after it."""
        try:
            self.browser.until(lambda: what() == wanted, "")
        except AssertionError:
            self.assertEqual(what(), wanted)


class Touch(Page):
    def test_a_first_visit_shows_the_small_world_admitted_and_its_bound(self):
        self.assert_text("#admitted", "admitted: building it afresh gives the same bytes")
        self.assertEqual(self.browser.text("#t"), "38")
        self.assertEqual(self.browser.text("#sentence"), "reads at most 38 entries, whatever the graph")
        self.tap("#list")
        self.assert_text("#summary", "1 match; 8 entries read of at most 38 (5 for nodes, 3 for edges)")
        self.assertEqual(self.rows(), [["german", "comma", "weight", "feeding"]])

    def test_a_pattern_is_drawn_by_touch(self):
        self.tap("#new-pattern")
        self.add_by_touch("locale", 0.2, 0.3)
        self.assert_text("#t", "2")
        self.drag(self.browser.middle(HANDLE.format(0)), self.place(0.75, 0.3))
        self.choose_label("format")
        self.assert_soon(lambda: self.state()["edges"], [[0, 1]])
        self.assert_text("#t", "6")
        self.add_by_touch("field", 0.75, 0.75)
        self.assert_text("#t", "Not covered")
        self.connect_by_touch(2, 1)
        self.assert_text("#t", "22")
        self.tap(NODE.format(0) + " .box")
        Select(self.browser.wait("#operator-0")).select_by_visible_text("=")
        self.tap("#constant-0")
        self.browser.keys("2", Keys.TAB)
        self.assert_soon(lambda: self.state()["nodes"][0]["conditions"], [{"operator": "=", "constant": 2}])
        self.tap("#list")
        self.assert_text("#summary", "1 match")
        self.assertEqual(self.rows(), [["german", "comma", "weight"]])

    def test_moving_deleting_undoing_and_redoing_by_touch(self):
        before = self.state()
        self.drag(self.browser.middle(NODE.format(0) + " .box"), self.place(0.3, 0.6))
        moved = self.state()
        self.assertNotEqual(moved["nodes"][0]["x"], before["nodes"][0]["x"])
        self.assertEqual(moved["nodes"][1:], before["nodes"][1:])
        self.tap(NODE.format(1) + " .box")
        self.tap("#remove")
        self.assert_soon(lambda: (self.names(), self.state()["edges"]), (["place", "field", "screen"], [[2, 1]]))
        self.assert_text("#t", "Not covered")
        self.tap("#undo")
        self.assert_soon(lambda: self.state(), moved)
        self.tap("#redo")
        self.assert_soon(lambda: self.names(), ["place", "field", "screen"])
        self.tap("#undo")
        self.tap("#undo")
        self.assert_soon(lambda: self.state()["edges"], before["edges"])
        self.assertTrue(self.browser.all("#undo[disabled]"))


class Drawing(Page):
    def test_an_arrow_is_tapped_turned_and_deleted(self):
        self.browser.run("document.querySelector('[data-key=\"edge 0\"]').focus()")
        self.browser.keys(Keys.ENTER)
        self.tap("#turn")
        self.assert_soon(lambda: self.state()["edges"][0], [1, 0])
        self.tap("#list")
        self.assert_text("#summary", "no match; 8 entries read of at most 38")
        self.tap("#remove")
        self.assert_soon(lambda: self.state()["edges"], [[2, 1], [3, 2]])

    def test_a_pattern_is_drawn_by_keys_alone(self):
        browser = self.browser
        browser.run("document.querySelector('#new-pattern').focus()")
        browser.keys(Keys.ENTER)
        for turns in (0, 1):  # the first label, then the second
            browser.keys("n")
            browser.wait("#chooser[open]")
            for _ in range(turns):
                browser.keys(Keys.TAB)
            browser.keys(Keys.ENTER)
        self.assert_soon(lambda: self.names(), ["locale", "format"])
        browser.run("document.querySelector('[data-key=\"node 0\"]').focus()")
        browser.keys("c")
        self.assert_text("#hint", "Now the node that the arrow from locale goes to.")
        browser.keys(Keys.TAB)
        browser.keys(Keys.ENTER)
        self.assert_soon(lambda: self.state()["edges"], [[0, 1]])
        browser.run("document.querySelector('[data-key=\"node 1\"]').focus()")
        x = self.state()["nodes"][1]["x"]
        browser.keys(Keys.ARROW_RIGHT, Keys.ARROW_RIGHT)
        self.assertGreater(self.state()["nodes"][1]["x"], x)
        browser.keys(Keys.ENTER)
        self.assertEqual(browser.run("return document.activeElement.id"), "node-name")
        browser.keys(Keys.CONTROL, "a")
        browser.keys("sign", Keys.TAB)
        self.assert_soon(lambda: self.names(), ["locale", "sign"])
        browser.keys(Keys.ESCAPE)
        browser.keys(Keys.CONTROL, Keys.ENTER)
        self.assert_text("#summary", "2 matches; 6 entries read of at most 6")
        browser.run("document.querySelector('[data-key=\"node 1\"]').focus()")
        browser.keys(Keys.DELETE)
        self.assert_soon(lambda: self.names(), ["locale"])
        browser.keys(Keys.CONTROL, "z")
        self.assert_soon(lambda: self.names(), ["locale", "sign"])

    def test_a_pattern_is_saved_and_opened_again_as_it_was_drawn(self):
        self.drag(self.browser.middle(NODE.format(3) + " .box"), self.place(0.6, 0.8))
        drawn = self.state()
        self.tap("#save-pattern")
        text = self.browser.kept("a.pat")
        self.assertIn("node place   locale  value = 2\n", text)
        path = self.written("again.pat", text)
        self.browser.give_files("#pattern-files", path)
        self.assert_text("#patterns .current", "again")
        opened = self.state()
        for one, other in zip(drawn["nodes"], opened["nodes"]):
            self.assertAlmostEqual(one["x"], other["x"], 2)
            for member in ("name", "label", "conditions"):
                self.assertEqual(one[member], other[member])
        self.assertEqual((opened["edges"], opened["question"]), (drawn["edges"], drawn["question"]))

    def test_one_s_own_patterns_are_there_again_when_the_page_is(self):
        self.tap("#new-pattern")
        self.add_by_touch("screen", 0.5, 0.5)
        self.browser.open(self.server.url)
        self.assert_text("#patterns", "pattern 1")

    def test_an_arrow_is_tapped(self):
        self.browser.finger(self.browser.middle('[data-key="edge 1"] .figure'))
        self.assert_text("#inspector", "field → format")

    def test_patterns_are_named_and_removed(self):
        self.tap("#title")
        self.browser.keys(Keys.CONTROL, "a")
        self.browser.keys("the comma", Keys.TAB)
        self.assert_text("#patterns .current", "the comma")
        self.tap("#new-pattern")
        self.assert_text("#patterns .current", "pattern 1")
        self.tap("#remove-pattern")
        self.assert_text("#patterns .current", "the comma")
        self.assertEqual(len(self.browser.all("#patterns li")), 1)

    def test_a_chooser_can_be_left(self):
        self.tap("#add-node")
        self.browser.wait("#chooser[open]")
        self.browser.keys(Keys.ESCAPE)
        self.browser.until(lambda: not self.browser.all("#chooser[open]"), "no chooser")
        self.assertEqual(len(self.names()), 4)

    def test_a_ninth_node_is_not_offered(self):
        self.tap("#new-pattern")
        for _ in range(8):
            self.tap("#add-node")
            self.choose_label("field")
        self.assertTrue(self.browser.all("#add-node[disabled]"))
        self.assertEqual(len(set(self.names())), 8)
        self.browser.finger(self.place(0.02, 0.02))
        self.assertFalse(self.browser.all("#chooser[open]"))


class Knowing(Page):
    def test_what_is_not_covered_is_red_with_what_would_cover_it(self):
        self.tap("[data-world=panel]")
        self.assert_text("#t", "276")
        self.tap('[data-key="choose 7"]')
        self.assert_text("#t", "Not covered")
        self.assertTrue(self.browser.all(".node.red"))
        self.assertTrue(self.browser.all("#list[disabled]"))
        remedy = "“locale, field -> caption at most 1” would, from a covered locale that it is joined with."
        self.assert_text("#why", f"node caption{remedy}")

    def test_a_bound_above_the_limit_names_the_step_that_multiplies(self):
        feed = "label a\nlabel b\nnode x a\nconstraint -> a at most 400\nconstraint a -> b at most 900\n"
        self.open_world(self.written("wide.feed", feed))
        self.add_by_touch("a", 0.3, 0.5)
        self.assert_text("#t", "400")
        self.drag(self.browser.middle(HANDLE.format(0)), self.place(0.75, 0.5))
        self.choose_label("b")
        self.assert_text("#t", "720,400")
        self.assert_text("#sentence", "would be T, and it may be 65,536 at most (8).")
        self.assert_text("#why", "“a -> b at most 900” multiplies by 900.")
        self.assert_text("#why", "400 × 900 = 360,000")
        self.assertTrue(self.browser.all(".node.amber"))
        self.assertTrue(self.browser.all("#list[disabled]"))

    def test_figures_stand_at_nodes_and_edges(self):
        figures = "document.querySelectorAll('.badge text, .figure text')"
        badges = self.browser.run(f"return [...{figures}].map(t => t.textContent).sort()")
        self.assertEqual(badges, ["≤ 2", "≤ 2", "≤ 2", "≤ 8", "≤ 8", "≤ 8", "≤ 8"])

    def test_a_label_that_the_world_has_not_is_told(self):
        self.browser.give_files("#pattern-files", self.written("other.pat", "node a feild\n"))
        self.assert_text("#sentence", "no label is named feild; did you mean field?")


class Listing(Page):
    def test_the_checklist_has_every_count(self):
        self.tap("[data-world=panel]")
        self.assert_text("#t", "276")
        self.tap("#list-all")
        for place, (matches, bound) in enumerate([(21, 276), (2, 220), (4, 276), (18, 920), (6, 916), (24, 604), (4, 204)]):
            self.assert_text(f'[data-key="choose {place}"]', f"{matches} matches, T {bound}")
        self.assert_text('[data-key="choose 7"]', "not covered")
        self.tap('[data-key="tick 0"]')
        self.assertTrue(self.browser.all("#patterns li.done"))

    def test_rows_are_sorted_filtered_drawn_and_kept(self):
        self.tap("[data-world=panel]")
        self.assert_text("#t", "276")
        self.tap("#list")
        self.assert_text("#summary", "21 matches; 110 entries read of at most 276 (57 for nodes, 53 for edges)")
        self.assertEqual(self.rows()[0], ["de.water", "de.decimal", "de-DE", "de.feeding"])
        self.tap('[data-key="sort 0"]')
        self.assertEqual(self.rows()[0][0], "de.dry-matter")
        self.tap('[data-key="sort 0"]')
        self.assertEqual(self.rows()[0][0], "sv.weight")
        self.tap("#filter")
        self.browser.keys("weight")
        self.assertEqual([row[0] for row in self.rows()], ["sv.weight", "fr.weight", "de.weight"])
        self.tap("#csv")
        kept = self.browser.kept("1-comma-fields.csv").split("\n")
        self.assertEqual(kept[:2], ["field,sign,market,screen", "sv.weight,sv.decimal,sv-SE,sv.weighing"])
        self.tap("#json")
        told = json.loads(self.browser.kept("1-comma-fields.json"))
        self.assertEqual((told["answer"], told["matches"], told["bound"], len(told["rows"])), (0, 21, 276, 21))
        self.tap("#view-pictures")
        self.assertEqual(len(self.browser.all(".pictures .picture")), 3)
        said = self.browser.wait(".pictures .picture").get_attribute("aria-label")
        self.assertEqual(said, "sv.weight, sv.decimal, sv-SE, sv.weighing")

    def test_a_page_is_printed(self):
        self.tap("#list")
        self.assert_text("#summary", "1 match")
        self.browser.run("window.print = () => dispatchEvent(new Event('beforeprint'))")
        self.tap("#print")
        self.browser.driver.execute_cdp_cmd("Emulation.setEmulatedMedia", {"media": "print"})
        shown = self.browser.run("return document.body.innerText")
        self.browser.driver.execute_cdp_cmd("Emulation.setEmulatedMedia", {"media": ""})
        question, read = "Pattern A: the fields that use a format of locale 2", "1 match; 8 entries read of at most 38"
        for wanted in (question, "The small world", read, "feeding"):
            self.assertIn(wanted, shown)
        self.assertNotIn("Open a world", shown)

    def test_a_change_takes_the_old_list_away(self):
        self.tap("#list")
        self.assert_text("#summary", "1 match")
        self.tap(NODE.format(3) + " .box")
        self.tap("#remove")
        self.assertTrue(self.browser.all("#results[hidden]"))

    def test_another_world_takes_the_old_list_away(self):
        self.tap("#list")
        self.assert_text("#summary", "1 match")
        self.tap("[data-world=panel]")
        self.assert_text("#t", "276")
        self.assertTrue(self.browser.all("#results[hidden]"))

    def test_the_story_of_the_weight_field(self):
        self.tap("[data-world=weight]")
        self.assert_text("#story", "25 kg")
        self.tap("#compare")
        self.assert_text("#missing", "old-list has 18 fields, 1-comma-fields has 21.")
        self.assert_text("#missing", "Missing from the old list: de.weight, sv.weight, fr.weight.")


class Files(Page):
    FEED = (EXAMPLES / "small" / "world.feed").read_text(encoding="utf-8")

    def store(self):
        """The small world's store, built by the page itself."""
        return bytes(self.browser.run("return [...bahrufazBoard.world.store]"))

    def test_a_store_with_its_names(self):
        store = self.store()
        names = f"store sha256 {hashlib.sha256(store).hexdigest()}\nlabel locale 1\nnode german 1\n"
        self.open_world(self.written("w.store", store), self.written("w.names", names))
        self.add_by_touch("locale", 0.5, 0.5)
        self.tap("#list")
        self.assert_text("#summary", "2 matches")
        self.assertEqual(self.rows(), [["0"], ["german"]])

    def test_a_store_without_names_shows_numbers(self):
        self.open_world(self.written("bare.store", self.store()))
        self.add_by_touch("4", 0.5, 0.5)
        self.assert_text("#t", "Not covered")

    def test_bad_files_are_refused_in_words_and_the_world_stays(self):
        store = self.store()
        damaged = bytearray(store)
        damaged[-4] = 1
        for name, data, wanted in [
            ("wrong.feed", "label field\nnode weight feild\n", "wrong.feed:2: no label is named feild; did you mean field?"),
            ("twice.feed", "label a\nnode b c\nknot\n", "twice.feed:3: expected label, node, edge or constraint, found 'knot'"),
            ("bytes.feed", b"label a\nlabel \xff", "bytes.feed:2: expected UTF-8 text, found other bytes"),
            ("more.feed", self.FEED + "edge english -> comma\n", "refused with 4: a list of the graph exceeds its N"),
            ("more2.feed", self.FEED + "edge english -> comma\n", "locale -> format at most 1: the list of english has 2"),
            ("damaged.store", bytes(damaged), "refused with 5: index differs from the one built"),
            ("short.store", store[:100], "refused with 1: header, count limit, offset or length wrong"),
            ("empty.store", b"", "refused with 1"),
            ("wrong.pat", "node a field\nedge a -> b\n", "wrong.pat:2: no pattern node is named b"),
            ("alone.names", "label a 1\n", "names alone are no world"),
        ]:
            with self.subTest(name):
                self.give_world(self.written(name, data))
                self.assert_text("#world .refusal", wanted)
                self.assert_text("#world", "The small world")
                self.assertEqual(self.browser.text("#t"), "38")

    def test_a_world_from_a_file_is_there_again_when_the_page_is(self):
        self.open_world(self.written("kept.feed", self.FEED))
        self.add_by_touch("screen", 0.5, 0.5)
        self.browser.until_kept("kept.feed")
        self.browser.open(self.server.url)
        self.assert_text("#world", "kept.feedadmitted")
        self.assert_soon(lambda: self.names(), ["screen"])

    def test_names_of_another_store_are_refused(self):
        names = f"store sha256 {'0' * 64}\n"
        self.give_world(self.written("x.store", self.store()), self.written("x.names", names))
        self.assert_text("#world .refusal", "x.names:1: these are the names of another store")

    def test_files_are_dropped(self):
        self.browser.run(
            "const files = new DataTransfer(); files.items.add(new File([arguments[0]], 'dropped.feed'));"
            "files.items.add(new File(['node a field\\n'], 'dropped.pat'));"
            "dispatchEvent(new DragEvent('drop', {dataTransfer: files, cancelable: true}))",
            self.FEED.replace("weight", "mass"),
        )
        self.assert_text("#world", "dropped.feedadmitted")
        self.assert_text("#patterns .current", "dropped")

    def test_sixty_thousand_nodes(self):
        self.browser.run(
            "new MutationObserver(() => window.sawProgress ||= document.querySelector('#world progress') !== null)"
            ".observe(document.querySelector('#world'), {childList: true})"
        )
        self.open_world(self.written("large.feed", large_feed(60_000)))
        self.assert_text("#world", "60,000 nodes")
        self.assertTrue(self.browser.run("return window.sawProgress"))
        self.add_by_touch("screen", 0.3, 0.5)
        self.drag(self.browser.middle(HANDLE.format(0)), self.place(0.75, 0.5))
        self.choose_label("field")
        self.assert_text("#t", "17,000")
        self.tap("#list")
        self.assert_text("#summary", "matches")
        self.assertEqual(len(self.rows()), 200)


def large_feed(count: int) -> str:
    """Screens with 7 fields each, so many nodes in all; only the first 1,000 screens bear the label that is asked for."""
    lines = ["label screen", "label field", "label old"]
    lines += ["constraint -> screen at most 1000", "constraint screen -> field at most 8"]
    screen = ""
    for node in range(count):
        if node % 8 == 0:
            screen = f"s{node}"
            lines.append(f"node {screen} {'screen' if node < 8_000 else 'old'} value = {node}")
        else:
            lines += [f"node f{node} field value = {node}", f"edge {screen} -> f{node}"]
    return "\n".join(lines) + "\n"


class TouchOnATelephone(Touch):
    """The same in a small window."""

    SIZE = (390, 844)

    def test_nothing_goes_past_the_side(self):
        for world in ("small", "panel", "weight"):
            self.tap(f"[data-world={world}]")
            self.assert_text("#admitted", "admitted")
            self.assertLessEqual(self.browser.run("return document.documentElement.scrollWidth"), self.SIZE[0])


class OneFile(unittest.TestCase):
    def test_the_page_in_one_file_opens_from_a_folder(self):
        browser = Browser(1180, 820)
        self.addCleanup(browser.close)
        browser.open((PAGE / "bahrufaz-board.html").as_uri())
        browser.until_text("#t", "38")
        browser.tap("[data-world=panel]")
        browser.until_text("#t", "276")
        browser.tap("#list")
        browser.until_text("#summary", "21 matches")
        self.assertEqual(browser.complaints(), [])


class Offline(Page):
    def test_the_page_works_when_the_server_is_gone(self):
        server = Server()
        self.browser.open(server.url)
        controlled = "return navigator.serviceWorker.controller !== null"
        self.browser.until(lambda: self.browser.run(controlled), "a service worker")
        server.stop()
        self.browser.open(server.url)
        self.tap("[data-world=panel]")
        self.assert_text("#t", "276")
        self.tap("#list")
        self.assert_text("#summary", "21 matches")

    def test_the_page_can_be_installed(self):
        manifest = json.loads(self.browser.driver.execute_cdp_cmd("Page.getAppManifest", {})["data"])
        self.assertEqual(manifest["display"], "standalone")
        self.assertEqual(self.browser.driver.execute_cdp_cmd("Page.getInstallabilityErrors", {})["installabilityErrors"], [])


if __name__ == "__main__":
    unittest.main()
