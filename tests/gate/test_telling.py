"""What the gate tells of a step's output, what it expects, and when its last line comes."""

import os
import shutil
import signal
import subprocess
import tempfile
import unittest
from pathlib import Path

from estimate import Estimate, expected_items, roughly, spoken
from tell import Teller
from times import compared, put_table, table

HERE = Path(__file__).resolve().parent

TIMES = """# Seconds
| step | seconds |
|---|---|
| proofs | 30 |
| desk | 60 |
"""


class Clock:
    """A clock that goes on when it is told to."""

    def __init__(self):
        self.now = 0

    def __call__(self):
        return self.now


class InRepository(unittest.TestCase):
    """A small repository: a library, a static one above it with an edit, a program above both; of 10, 20 and 30 lines."""

    def setUp(self):
        self.root = Path(tempfile.mkdtemp())
        self.addCleanup(shutil.rmtree, self.root)
        self.write("docs/CHECK-TIMES.md", TIMES)
        self.write("crates.txt", "# three\nwords:\nplan staticlib: words\nshow: plan io # a program\n")
        self.write("crates/words/src/lib.rt", "\n" * 10)
        self.write("crates/plan/src/lib.rt", "\n" * 5)
        self.write("crates/plan/specs/Lib.antt", "\n" * 5)
        self.write("crates/plan/proofs/f/Answers.antt", "\n" * 10)
        self.write("crates/plan/must-fail/other.edit", "")
        self.write("crates/show/src/main.rt", "\n" * 30)

    def write(self, path, text, mode=0o644):
        file = self.root / path
        file.parent.mkdir(parents=True, exist_ok=True)
        file.write_text(text)
        file.chmod(mode)


class Telling(InRepository):
    def setUp(self):
        super().setUp()
        self.told, self.clock = [], Clock()
        items = expected_items(self.root, [], True)
        self.teller = Teller("proofs", Estimate(self.root, items), self.told.append, self.clock)

    def tell(self, *lines):
        for line in lines:
            self.teller.take(line)
        return self.told

    def test_a_proved_crate_has_its_place_and_what_is_left(self):
        self.clock.now = 200
        told = self.tell("== words", "fn words::u16_at: proved", "statements std: modules loaded=0 checked=0", "logic=proved functions=1", "rt: words proved")
        self.assertEqual(told, ["1/3 words proved, about 2 min left"])

    def test_an_edit_and_a_program_have_places_of_their_own(self):
        told = self.tell(
            "rt: must-fail plan/other.edit: refused, as it must be: ./proofs/f/Answers.antt:1:2: error: `returns`: no",
            "rt: show ran, and wrote what its file stdout has",
            "rt: show ran (built by Rattle's own compiler), and wrote what its file stdout has",
        )
        self.assertEqual([line.split(", about")[0] for line in told], ["1/1 edit plan/other refused", "1/1 show ran"])

    def test_an_edit_that_is_refused_for_little_is_told_so(self):
        little = "(only because a proof file names what the edit took away, so this says little)"
        told = self.tell(f"rt: must-fail plan/other.edit: refused, as it must be {little}: ./proofs/f/Answers.antt:1:2: error: no field")
        self.assertTrue(told[0].startswith("1/1 edit plan/other refused, only because a proof file names what the edit took away"), told)

    def test_of_a_crate_that_is_not_proved_the_errors_are_told(self):
        told = self.tell("a.antt:3:1: note: no matter", "a.antt:3:1: error: no proof", "logic=not-proved", "rt: plan NOT PROVED")
        self.assertTrue(told[0].startswith("1/3 plan NOT PROVED"), told)
        self.assertEqual(told[1:], ["    a.antt:3:1: error: no proof"])

    def test_crates_above_one_that_failed_are_counted(self):
        told = self.tell("rt: plan NOT PROVED: its library words failed", "show: not run, since words failed")
        self.assertEqual(told, [])
        self.teller.end(1)
        self.assertEqual(told, ["proofs: FAILED, 0 s (2 crates above not tried); the whole output is in target/gate/proofs.log"])

    def test_tests_of_a_crate_that_are_not_proved_are_told(self):
        told = self.tell("rt: show proved", "rt: show: its tests are NOT PROVED")
        self.assertTrue(told[1].startswith("1/3 show tests are NOT PROVED"), told)

    def test_of_an_edit_that_failed_what_follows_is_told(self):
        told = self.tell("rt: must-fail plan/other.edit: BAD EDIT: it did not reach the prover", "a.rt:1:1: error: no sense", "rt: FAILED: plan/other.edit")
        self.assertEqual(told[1:], ["    a.rt:1:1: error: no sense"])

    def test_each_fault_of_a_program_is_told(self):
        told = self.tell(
            "rt: show: the program ended with status 1, and not 0; it said: ",
            "rt: show (built by Rattle's own compiler; the LLVM build passed): what the program wrote, out/stdout, is not it",
        )
        self.assertTrue(told[0].startswith("1/1 show the program ended with status 1"), told)
        self.assertTrue(told[1].startswith("1/1 show what the program wrote, out/stdout, is not it"), told)

    def test_a_check_that_keeps_its_work_is_told_of_by_its_verdict(self):
        self.tell("rt: chose --jobs 2 for words", "crate words: modules loaded=3 checked=2", "axioms std: none", "logic=proved functions=1")
        told = self.tell("a.antt:3:1: error: no proof", "crate plan: modules loaded=0 checked=5", "logic=not-proved")
        self.assertEqual([line.split(", about")[0] for line in told], ["1/3 words proved", "2/3 plan NOT PROVED", "    a.antt:3:1: error: no proof"])

    def test_the_summary_of_a_check_of_all_tells_nothing_twice(self):
        self.tell("crate plan: modules loaded=0 checked=5", "logic=not-proved")
        told = self.tell("== summary", "words: ok", "plan: failed (1)", "show: failed (2)")
        self.assertEqual([line.split(", about")[0] for line in told if line.startswith(("1", "2", "3"))], ["1/3 plan NOT PROVED", "3/3 show failed (2)"])

    def test_kept_crates_are_told_of_once_at_the_end(self):
        told = self.tell("rt: words is kept: an earlier run proved the same", "plan: ok", "crate words: modules loaded=3 checked=0", "logic=proved functions=1")
        self.assertEqual(told, [])
        self.clock.now = 61
        self.teller.end(0)
        self.assertEqual(told, ["proofs: passed, 1 min 1 s (2 crates kept from earlier runs)"])

    def test_each_test_has_a_line(self):
        told = self.tell("test src/store.rs - Store::admit (line 3) ... ok", "test_empty (tests.test_calls.Calls.test_empty) ... skipped 'no dot'", "test other ... FAILED")
        self.assertEqual(told, ["proofs: src/store.rs - Store::admit (line 3) ok", "proofs: test_empty skipped 'no dot'", "proofs: other FAILED"])

    def test_what_is_not_run_is_told(self):
        self.assertEqual(self.tell("boundary: NOT RUN, no compiler"), ["    boundary: NOT RUN, no compiler"])

    def test_at_a_failure_the_lines_since_the_last_event_are_told(self):
        told = self.tell("test one ... ok", "thread 'two' panicked")
        self.teller.end(1)
        self.assertEqual(told[1:], ["    thread 'two' panicked", "proofs: FAILED, 0 s; the whole output is in target/gate/proofs.log"])


class Estimating(InRepository):
    def test_a_crate_is_expected_with_those_below_it(self):
        self.assertEqual(expected_items(self.root, ["plan"], False), [("crate", "plan"), ("crate", "words")])

    def test_edits_and_programs_are_expected(self):
        items = expected_items(self.root, [], True)
        self.assertEqual(items[3:], [("edit", "plan/other"), ("run", "show")])

    def test_what_is_left_falls_and_follows_the_pace(self):
        # 60 lines of crates, and 4 for an edit, took 30 seconds of the clock
        estimate = Estimate(self.root, expected_items(self.root, [], True), ["desk"])
        self.assertAlmostEqual(estimate.left(0), 90)
        estimate.done("crate", "words", True)
        self.assertAlmostEqual(estimate.left(30 * 10 / 64), 60 + 30 * 54 / 64)
        self.assertGreater(estimate.left(100), 100)

    def test_those_below_a_crate_that_is_told_of_are_done(self):
        estimate = Estimate(self.root, expected_items(self.root, [], False))
        estimate.done("crate", "plan", True)
        self.assertAlmostEqual(estimate.left(30 * 20 / 64), 30 * 30 / 64)

    def test_kept_crates_say_nothing_of_the_pace_and_take_their_edits_off(self):
        estimate = Estimate(self.root, expected_items(self.root, [], True))
        estimate.done("crate", "plan", False)
        self.assertAlmostEqual(estimate.left(0), 30 * 30 / 64)

    def test_edits_are_done_when_those_of_the_next_crate_are_begun(self):
        estimate = Estimate(self.root, expected_items(self.root, [], True))
        estimate.trying("plan")
        self.assertAlmostEqual(estimate.left(0), 30)
        estimate.trying("show")
        self.assertAlmostEqual(estimate.left(30 * 4 / 64), 30 * 60 / 64)

    def test_edits_are_done_when_the_first_is_told_of(self):
        self.write("crates/plan/must-fail/third.edit", "")
        estimate = Estimate(self.root, expected_items(self.root, [], True))
        estimate.done("edit", "plan/other", True)
        self.assertAlmostEqual(estimate.left(30 * 4 / 68), 30 * 60 / 68)

    def test_times_are_spoken(self):
        self.assertEqual([spoken(59), spoken(61)], ["59 s", "1 min 1 s"])
        self.assertEqual([roughly(3), roughly(41), roughly(200)], ["10 s", "50 s", "3 min"])


class Times(InRepository):
    def logs(self, name, proofs):
        self.write(f"{name}/proofs.log", proofs)
        self.write(f"{name}/seconds.txt", "proofs: 60\ngate: 99\ngate: 75\n")
        return self.root / name

    def test_a_note_has_the_whole_and_how_much_was_done(self):
        before = self.logs("before", "rt: ok; handles allowed: none; every proof and must-fail edit was done in this run\n")
        edits = "must-fail edits: 5 refused; done in this run: 1 of the 4 proofs (of crates and of their tests) and 2 of the 5 must-fail edits"
        after = self.logs("after", f"rt: ok; handles allowed: none; {edits}; the others are kept\n")
        self.assertEqual(
            compared(before, after)[2:],
            [
                "| whole `make test` | 1 min 15 s | 1 min 15 s |",
                "| `rt ci` | 1 min 0 s | 1 min 0 s |",
                "| done in the run | all | 1 of the 4 proofs and 2 of the 5 must-fail edits |",
            ],
        )

    def test_a_table_takes_the_place_of_the_one_before(self):
        page = ["# Title", "", "| crate | seconds |", "|---|---|", "| old | 1 |", "", "Text."]
        new = table(["crate", "seconds"], [["new", 2]])
        self.assertEqual(put_table(page, new), ["# Title", "", "| crate | seconds |", "| --- | --- |", "| new | 2 |", "", "Text."])

    def test_a_table_that_the_page_has_not_yet_comes_first(self):
        new = table(["step", "seconds"], [["proofs", 2]])
        self.assertEqual(put_table(["# Title", "", "Text."], new), ["# Title", "", *new, "", "Text."])


FAKE_RT = """#!/bin/sh
case $1 in
version) echo kit ;;
ci)
    [ "$#" = 1 ] || exit 2
    echo 'rt: words proved'
    [ "$FAILS" != proofs ] || { echo '1 passed, 1 failed'; exit 1; }
    [ "$FAILS" != nothing-but-waits ] || sleep 60
    [ "$FAILS" != bad-edit ] || bad=', 1 bad'
    [ "$FAILS" = unsaid ] || echo "rt: ok; handles allowed: none; must-fail edits: 1 refused$bad; every proof was done"
    echo '2 passed, 0 failed'
    ;;
esac
"""
FAKE_MAKE = """#!/bin/sh
for target; do :; done
echo "test $target ... ok"
[ "$FAILS-$target" != nothing-but-waits-reading ] || sleep 60
[ "$FAILS" != "$target" ]
"""
FAKE_LIBRARY = """#!/bin/sh
echo "of ci: $*"
[ "$FAILS" != library ]
"""
FAKE_CONTRACTS = """#!/bin/sh
[ "$FAILS" != contracts ]
"""


class LastLine(InRepository):
    """The gate over commands that do nothing, one of which may fail."""

    def start(self, fails):
        shutil.copytree(HERE, self.root / "tests" / "gate", ignore=shutil.ignore_patterns("__pycache__"))
        self.write("bin/rt", FAKE_RT, 0o755)
        self.write("bin/make", FAKE_MAKE, 0o755)
        self.write("tests/contracts.sh", FAKE_CONTRACTS, 0o755)
        self.write("lib/here.sh", FAKE_LIBRARY, 0o755)
        path = f"{self.root / 'bin'}:{os.environ['PATH']}"
        return subprocess.Popen(
            [self.root / "tests/gate/gate.sh"],
            env={**os.environ, "PATH": path, "FAILS": fails},
            stdout=subprocess.PIPE,
            encoding="utf-8",
            # as a terminal starts it: with a group of its own that an interrupt reaches
            start_new_session=True,
            preexec_fn=lambda: signal.signal(signal.SIGINT, signal.SIG_DFL),
        )

    def gate(self, fails):
        started = self.start(fails)
        output, _ = started.communicate()
        return started.returncode, output.splitlines()

    def test_it_is_that_of_rt_ci_and_comes_once(self):
        status, lines = self.gate("nothing")
        self.assertEqual(status, 0)
        self.assertEqual([line for line in lines if "passed, 0 failed" in line], ["2 passed, 0 failed"])
        self.assertEqual(lines[-1], "2 passed, 0 failed")
        self.assertIn("rt: words proved", (self.root / "target/gate/proofs.log").read_text())
        self.assertEqual((self.root / "target/gate/library.log").read_text(), "of ci: --proved\n")

    def test_the_library_is_not_of_what_earlier_checks_left(self):
        self.write("crates/words/out/rlib/words.rlib/format", "")
        self.gate("nothing")
        self.assertEqual((self.root / "target/gate/library.log").read_text(), "of ci: \n")

    def test_it_does_not_come_where_anything_fails(self):
        proofs = ("proofs", "unsaid", "bad-edit")
        for step in ("kit", "layout", "contracts", "telling", "reading", *proofs, "library", "programs", "boundary", "desk", "wasm-test", "board-test"):
            with self.subTest(step):
                shutil.rmtree(self.root / "tests", ignore_errors=True)
                status, lines = self.gate(step)
                self.assertNotEqual(status, 0)
                self.assertFalse([line for line in lines if "passed, 0 failed" in line])

    def test_it_does_not_come_after_an_interrupt_and_the_logs_stay(self):
        started = self.start("nothing-but-waits")
        awaited = {"words proved", "reading ok"}
        while awaited:
            line = started.stdout.readline()
            self.assertTrue(line, awaited)
            awaited = {each for each in awaited if each not in line}
        os.killpg(started.pid, signal.SIGINT)
        output, _ = started.communicate(timeout=30)
        self.assertEqual(started.returncode, 130)
        self.assertIn("proofs: stopped", output)
        self.assertIn("reading: stopped", output)
        self.assertIn("rt: words proved", (self.root / "target/gate/proofs.log").read_text())


if __name__ == "__main__":
    unittest.main()
