"""What the pages made from the code have of it, and which names in documents are found wanting."""

import shutil
import tempfile
import unittest
from pathlib import Path
from unittest import mock

import contracts
import laws
import names

SOURCE = """// Planning.
#![tactic(auto)]

mod inner;
pub use inner::{other, shown};
ghost use Rattle.std.specs.Prelude.{◌≡◌, length};
ghost use Rattle.io.specs.Counts.{Given, other};
ghost use Rattle.plan.specs.Plans.{plan_outcome, told};

// A step inside.
fn step(x: u32) -> u32 {
    x
}

// Plans, for any bytes.
#[unsafe(no_mangle)]
#[tactic(auto, using(crate::proofs::Plans::told),
    unfolding(crate::specs::Plans::plan_outcome))]
pub fn plan<'a>(
    s: &'a [u8],
    made: &(impl Files + Print),
    room: &mut [u32],
) -> u32
    requires { Given s.now }
    ensures number { told result room.new
        ≡ plan_outcome s.now room.old }
    ensures room { length room.new ≡ length room.old }
{
    step(0)
}
"""
INNER = """// Named from outside.
pub fn shown() -> u32
    ensures { result ≡ 1 }
{
    1
}

pub fn hidden() -> u32 {
    1
}
"""
LAWS = """-- Laws of loops. Assumes nothing.
pub record AllLeft (p : ℕ) : Type 0 where
  pub within : p

unfoldable pub cap : ℕ
pub ruleset turns = (all-next)
module _ {p : ℕ} where
  turn : p

  pub all-next : p
"""


class Checkout(unittest.TestCase):
    def setUp(self):
        self.root = Path(tempfile.mkdtemp())
        self.addCleanup(shutil.rmtree, self.root)
        names.words_of.cache_clear()
        for module in (contracts, laws, names):
            patch = mock.patch.object(module, "ROOT", self.root)
            patch.start()
            self.addCleanup(patch.stop)
        for path, text in {
            "crates/plan/src/lib.rt": SOURCE,
            "crates/plan/src/inner.rt": INNER,
            "crates/plan/must-fail/wrong.edit": "",
            "crates/plan/proofs/plan/Proof.antt": "plan-spec",
            "crates/laws/src/lib.rt": "",
            "crates/laws/specs/Loops.antt": LAWS,
        }.items():
            self.write(path, text)

    def write(self, path, text):
        (self.root / path).parent.mkdir(parents=True, exist_ok=True)
        (self.root / path).write_text(text, encoding="utf-8")


class Contracts(Checkout):
    def test_a_contract_stands_in_the_words_of_the_page(self):
        text, _ = contracts.section(self.root / "crates" / "plan")
        self.assertIn(
            "// Plans, for any bytes.\nplan(s: &'a [u8], made: &(impl Files + Print), room: &mut [u32]) -> u32\n"
            "    requires Given s\n    ensures number: told result room′ ≡ plan_outcome s room\n"
            "    ensures room: length room′ ≡ length room\n",
            text,
        )

    def test_the_files_of_definitions_are_named(self):
        self.write("crates/plan/specs/Plans.antt", "")
        text, _ = contracts.section(self.root / "crates" / "plan")
        self.assertIn("- io/Counts of the kit: `Given`\n- [plan/Plans](../crates/plan/specs/Plans.antt): `plan_outcome`, `told`\n", text)
        self.assertNotIn("Prelude", text)

    def test_functions_inside_a_crate_are_marked_and_private_ones_left_out(self):
        text, functions = contracts.section(self.root / "crates" / "plan")
        self.assertEqual([(function.name, function.seen) for function in functions], [("plan", True), ("shown", True), ("hidden", False)])
        self.assertIn("// (inside this crate alone)\nhidden() -> u32", text)

    def test_a_form_that_cannot_be_read_is_an_error(self):
        self.write("crates/plan/src/inner.rt", "mod odd {\n    pub fn odd() -> u32 {\n    }\n}\n")
        with self.assertRaises(SystemExit):
            contracts.section(self.root / "crates" / "plan")

    def test_methods_and_what_a_function_takes_closures_of_are_told(self):
        self.write(
            "crates/plan/src/inner.rt",
            "pub struct S;\n\nimpl<'a> S {\n    // The best.\n    pub fn best(self) -> u32\n        ensures { result ≡ 1 }\n    {\n    }\n}\n\n"
            "pub fn each<F: Fn(usize) -> bool>(test: F)\n    ensures { ⊤ }\n{\n}\n",
        )
        text, _ = contracts.section(self.root / "crates" / "plan")
        self.assertIn("// The best.\n// (inside this crate alone)\nS::best(self) -> u32\n    ensures result ≡ 1\n", text)
        self.assertIn("each<F: Fn(usize) -> bool>(test: F)\n    ensures ⊤\n", text)

    def test_what_a_type_asks_stands_among_what_a_function_requires(self):
        self.write(
            "crates/plan/src/inner.rt",
            "pub struct Lent<'a> {\n    pub b: &'a [u8],\n    pub ghost ready: { Ready b.now },\n}\n\n"
            "impl<'a> Lent<'a> {\n    pub fn best(self) -> u32\n        ensures { result ≡ least self.entry.b.now }\n    {\n    }\n}\n\n"
            "pub fn all(lent: &Lent, n: usize) -> u32\n    requires { n ≤ 8 }\n    ensures { result ≡ n }\n{\n}\n",
        )
        text, _ = contracts.section(self.root / "crates" / "plan")
        self.assertIn("best(self) -> u32\n    requires (by the type Lent) Ready self.b\n    ensures result ≡ least self.b\n", text)
        self.assertIn("all(lent: &Lent, n: usize) -> u32\n    requires (by the type Lent) Ready lent.b\n    requires n ≤ 8\n", text)

    def test_a_clause_that_cannot_be_read_is_an_error(self):
        self.write("crates/plan/src/inner.rt", INNER.replace("{ result ≡ 1 }", "{ result ≡ 1"))
        with self.assertRaises(SystemExit):
            contracts.section(self.root / "crates" / "plan")

    def test_a_function_without_a_contract_needs_an_exception(self):
        self.assertFalse(contracts.is_excepted("plan", "hidden", "| `plan::other` | nothing is promised of it |"))
        self.assertTrue(contracts.is_excepted("plan", "hidden", "| `plan::hidden` | nothing is promised of it |"))


class Laws(Checkout):
    def test_names_are_told_and_fields_are_not(self):
        self.assertEqual(laws.names_in(LAWS), ["AllLeft", "cap", "turns", "all-next"])


class Names(Checkout):
    def test_what_is_there_is_found(self):
        for token in ("plan::shown", "plan/src/inner.rt", "plan/wrong", "plan/proofs/plan", "laws/Loops", "laws/Loops.all-next", "crates/plan"):
            self.assertTrue(names.is_there(token), token)

    def test_what_is_not_there_is_told(self):
        for token in ("plan::gone", "gone::plan", "plan/right", "plan/proofs/gone", "laws/Loop", "laws/Loops.all-last", "gone/Loops"):
            self.assertIs(names.is_there(token), False, token)

    def test_a_bare_name_must_stand_in_a_crate_that_its_line_cites(self):
        self.assertEqual(names.missing_in("`laws/Loops`: `turns`, `twists`, `x + 1`", "PROVING.md"), ["twists"])
        self.assertEqual(names.missing_in("`laws/Loops`: `twists`", "DEMANDS.md"), [])

    def test_of_decisions_only_statements_and_items_are_looked_for(self):
        self.assertEqual(names.missing_in("`plan/plan.h`, `laws/Gone`, `plan::gone`", "DECISIONS.md"), ["laws/Gone", "plan::gone"])


if __name__ == "__main__":
    unittest.main()
