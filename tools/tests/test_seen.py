"""Whether a kept refusal still counts: which changes of a source change what a function's goals see, and which don't.

The tree of these tests has three crates. `album_low` has a clock; `album_mid`, above it, has a function `helper`, which
calls `Clock::next` and whose wrong body was refused; `album_high`, above both, is seen by neither."""
from __future__ import annotations

import pathlib
import tempfile
import unittest
from unittest import mock

import loading  # noqa: F401 (the scripts' folders)
import seen
import tree

ROWS = {"album_low": [], "album_mid": ["album_low"], "album_high": ["album_mid", "album_low"]}
LOW, MID = "album_low/src/clocks.rt", "album_mid/src/lib.rt"
WRONG = "file: src/lib.rt\nold: clock.next()\nnew: 7\n"
SOURCES = {
    "album_low/src/lib.rt": """\
//! A clock.
mod clocks;

pub use clocks::{Clock, Early};
""",
    LOW: """\
//! What a clock is.
ghost use Rattle.album_low.specs.Clocks.{later, early};
ghost use Rattle.std.specs.Prelude.{◌≡◌};

/// A clock.
#[derive(Clone)]
pub struct Clock {
    now: u64,
}

/// What says whether it is early.
pub trait Early {
    fn is_asleep(&self) -> bool
        ensures asleep { result ≡ false }
    {
        false
    }
}

impl Clock {
    /// The next counter.
    pub fn next(&self) -> u64
        ensures later { later self.now result }
    {
        let step = 1;
        self.now + step
    }

    /// Whether it is early.
    #[tactic(auto, using(crate::proofs::ClockLemmas))]
    pub fn is_early(&self) -> bool
        ensures early { result ≡ early self.now }
    {
        let bound = 5;
        self.now < bound
    }

    fn bare(&self) -> u64
        ensures same { result ≡ self.now }
    {
        self.now
    }
}

impl Early for Clock {
    fn is_asleep(&self) -> bool
        ensures never { result ≡ false }
    {
        false
    }
}
""",
    "album_low/specs/Lib.antt": "pub mod Clocks\n",
    "album_low/specs/Clocks.antt": """\
-- a counter after another
abbrev pub later : ℕ → ℕ → Type
later one other = one < other
""",
    "album_low/proofs/Lib.antt": "mod ClockLemmas\npub mod Counting\n",
    "album_low/proofs/ClockLemmas.antt": "pub early_is_early : Unit\nearly_is_early = unit\n",
    "album_low/proofs/Counting.antt": "use Rattle.album_low.proofs.Inner.{inner}\npub counts : Unit\ncounts = inner\n",
    "album_low/proofs/Inner.antt": "pub inner : Unit\ninner = unit\n",
    "album_low/proofs/clocks/Clock/next/Answers.antt": "pub returns-clause-later : Unit\nreturns-clause-later = unit\n",
    MID: """\
//! What is made of a clock.
ghost use Rattle.album_low.specs.Clocks.{later};
ghost use Rattle.std.specs.Prelude.{◌≡◌};

use album_low::Clock;

/// Twice as late.
pub fn twice(clock: &Clock) -> u64
    ensures later { later clock.now result }
{
    let first = helper(clock);
    first + step()
}

fn helper(clock: &Clock) -> u64
    ensures later { later clock.now result }
{
    clock.next()
}

fn step() -> u64
    ensures one { result ≡ 1 }
{
    1
}
""",
    "album_mid/specs/Lib.antt": "pub mod Times\n",
    "album_mid/specs/Times.antt": "pub number_of_hours : ℕ\nnumber_of_hours = 24\n",
    "album_mid/proofs/Lib.antt": "mod TimeLemmas\n",
    "album_mid/proofs/TimeLemmas.antt": """\
use Rattle.album_low.proofs.Counting.{counts}
pub times : Unit
times = counts
""",
    "album_mid/proofs/helper/Answers.antt": "pub returns-clause-later : Unit\nreturns-clause-later = unit\n",
    "album_mid/proofs/twice/Answers.antt": "pub returns-clause-later : Unit\nreturns-clause-later = unit\n",
    "album_high/src/lib.rt": "//! Above.\nuse album_mid::twice;\n\npub fn thrice() -> u64 {\n    3\n}\n",
}


class Tree(unittest.TestCase):
    """A tree in a folder of its own, whose checksums are those of `doubt/refused`."""

    def setUp(self):
        top = tempfile.TemporaryDirectory()
        self.addCleanup(top.cleanup)
        self.root = pathlib.Path(top.name)
        for name, text in SOURCES.items():
            self.write(name, text)
        for patcher in (mock.patch.object(seen, "ROOT", self.root),
                        mock.patch.object(seen, "logic", lambda: b"logic 1")):
            patcher.start()
            self.addCleanup(patcher.stop)
        self.addCleanup(forget)
        self.before = self.sum()

    def write(self, name, text):
        path = self.root / "crates" / name
        path.parent.mkdir(parents=True, exist_ok=True)
        path.write_text(text)

    def change(self, name, *pairs):
        """Replaces these texts, each of which is there."""
        path = self.root / "crates" / name
        text = path.read_text()
        for old, new in pairs:
            self.assertIn(old, text)
            text = text.replace(old, new)
        path.write_text(text)

    def sum(self, text=WRONG):
        """What is kept of the wrong body of `helper`."""
        forget()
        return seen.Seen(ROWS).by("album_mid", {"helper"}, text)

    def assert_stale(self):
        self.assertNotEqual(self.before, self.sum())

    def assert_counts(self):
        self.assertEqual(self.before, self.sum())


def forget():
    """Forgets what was read of sources: they have changed."""
    for function in vars(seen).values():
        if hasattr(function, "cache_clear"):
            function.cache_clear()


class Stale(Tree):
    """A refusal counts no more where something has changed that the goals of the function see."""

    def test_its_own_body(self):
        self.change(MID, ("    clock.next()", "    let next = clock.next();\n    next"))
        self.assert_stale()

    def test_its_own_contract(self):
        head = "fn helper(clock: &Clock) -> u64\n    ensures later "
        self.change(MID, (head + "{ later clock.now result }", head + "{ result ≡ result }"))
        self.assert_stale()

    def test_the_wrong_body(self):
        self.assertNotEqual(self.before, self.sum(WRONG.replace("7", "8")))

    def test_the_logic(self):
        with mock.patch.object(seen, "logic", lambda: b"logic 2"):
            self.assert_stale()

    def test_the_contract_of_a_function_that_it_calls(self):
        self.change(LOW, ("ensures later { later self.now result }", "ensures other { result ≡ 7 }"))
        self.assert_stale()

    def test_the_contract_of_a_function_that_only_the_wrong_body_calls(self):
        wrong = WRONG.replace("new: 7", "new: step()")
        before = self.sum(wrong)
        self.change(MID, ("ensures one { result ≡ 1 }", "ensures one { result ≡ 2 }"))
        self.assertNotEqual(before, self.sum(wrong))

    def test_a_new_name_of_a_function_that_it_calls(self):
        self.change(LOW, ("fn next(", "fn following("))
        self.change(MID, ("clock.next()", "clock.following()"))
        self.assert_stale()

    def test_a_definition_below(self):
        self.change("album_low/specs/Clocks.antt", ("later one other = one < other", "later one other = other < one"))
        self.assert_stale()

    def test_a_definition_of_its_own_crate(self):
        self.change("album_mid/specs/Times.antt", ("24", "12"))
        self.assert_stale()

    def test_a_new_name_of_a_file_of_definitions(self):
        (self.root / "crates/album_low/specs/Clocks.antt").rename(self.root / "crates/album_low/specs/Counters.antt")
        self.assert_stale()

    def test_a_field_of_a_type_below(self):
        self.change(LOW, ("    now: u64,\n", "    now: u64,\n    then: u64,\n"))
        self.assert_stale()

    def test_the_contract_of_a_traits_impl_which_is_called_without_its_name(self):
        self.change(LOW, ("ensures never { result ≡ false }", "ensures always { result ≡ true }"))
        self.assert_stale()

    def test_the_contract_of_a_trait(self):
        self.change(LOW, ("ensures asleep { result ≡ false }", "ensures asleep { result ≡ true }"))
        self.assert_stale()

    def test_its_answers(self):
        self.change("album_mid/proofs/helper/Answers.antt", ("= unit", "= id unit"))
        self.assert_stale()

    def test_a_lemma_of_its_own_crate(self):
        self.change("album_mid/proofs/TimeLemmas.antt", ("times = counts", "times = id counts"))
        self.assert_stale()

    def test_the_contract_of_a_function_that_a_lemma_of_its_crate_names(self):
        self.change("album_mid/proofs/TimeLemmas.antt", ("times = counts", "times = is_early counts"))
        before = self.sum()
        self.change(LOW, ("ensures early { result ≡ early self.now }", "ensures early { result ≡ true }"))
        self.assertNotEqual(before, self.sum())

    def test_a_lemma_below_that_its_crate_imports(self):
        self.change("album_low/proofs/Counting.antt", ("counts = inner", "counts = id inner"))
        self.assert_stale()

    def test_a_lemma_that_such_a_lemma_imports(self):
        self.change("album_low/proofs/Inner.antt", ("inner = unit", "inner = id unit"))
        self.assert_stale()

    def test_a_new_file_of_definitions(self):
        self.write("album_low/specs/More.antt", "pub more : ℕ\nmore = 1\n")
        self.assert_stale()


class Counts(Tree):
    """A refusal still counts where only what the goals of the function don't see has changed."""

    def test_comments_and_empty_lines(self):
        self.change(LOW, ("/// The next counter.", "/// The counter after this one.\n    // (as it is)\n"))
        self.change("album_low/specs/Clocks.antt", ("-- a counter after another", "-- one that comes later\n"))
        self.change(MID, ("    clock.next()", "    // The next one.\n    clock.next()"))
        self.assert_counts()

    def test_the_body_of_a_function_that_it_calls(self):
        self.change(LOW, ("let step = 1;\n        self.now + step", "self.now + 1"))
        self.assert_counts()

    def test_a_new_name_within_another_body(self):
        self.change(LOW, ("bound", "least"))
        self.change(MID, ("first", "once"))
        self.assert_counts()

    def test_the_contract_of_a_function_that_it_does_not_name(self):
        self.change(LOW, ("ensures early { result ≡ early self.now }", "ensures early { result ≡ true }"))
        self.change(MID, ("ensures one { result ≡ 1 }", "ensures one { result ≡ 1 + 0 }"))
        self.assert_counts()

    def test_a_new_name_of_a_function_that_it_does_not_name(self):
        self.change(LOW, ("fn is_early(", "fn is_soon("))
        self.change(MID, ("fn step(", "fn pace("), ("first + step()", "first + pace()"))
        self.assert_counts()

    def test_a_private_function_below_though_its_name_is_said(self):
        wrong = WRONG.replace("new: 7", "new: bare()")
        before = self.sum(wrong)
        self.change(LOW, ("ensures same { result ≡ self.now }", "ensures same { self.now ≡ result }"))
        self.assertEqual(before, self.sum(wrong))

    def test_a_function_that_its_crate_has_besides(self):
        pause = "fn pause() -> u64\n    ensures none { result ≡ 0 }\n{\n    0\n}\n\n"
        self.change(MID, ("fn step()", pause + "fn step()"))
        self.assert_counts()

    def test_an_import_that_is_not_used(self):
        self.change(LOW, ("{later, early}", "{later, early, hours}"))
        self.assert_counts()

    def test_the_order_of_imported_names(self):
        self.change(LOW, ("{later, early}", "{early, later}"))
        self.assert_counts()

    def test_a_name_that_is_passed_on_and_that_nobody_says(self):
        self.change("album_low/src/lib.rt", ("{Clock, Early}", "{Clock, Early, Hour}"))
        self.assert_counts()

    def test_a_module_that_is_named(self):
        self.change("album_low/src/lib.rt", ("mod clocks;", "mod clocks;\nmod hours;"))
        self.assert_counts()

    def test_how_a_value_is_let_go(self):
        self.change(LOW, ("#[derive(Clone)]", "#[derive(Clone, Drop)]"))
        self.assert_counts()

    def test_a_drop_by_hand(self):
        by_hand = "\nimpl Drop for Clock {\n    fn drop(self) {\n        let _ = self.now;\n    }\n}\n"
        self.write(LOW, SOURCES[LOW] + by_hand)
        self.assert_counts()

    def test_the_tactic_of_another_function(self):
        self.change(LOW, ("using(crate::proofs::ClockLemmas)", "using(crate::proofs::Counting)"))
        self.assert_counts()

    def test_a_lemma_below_that_nobody_above_imports(self):
        self.change("album_low/proofs/ClockLemmas.antt", ("= unit", "= id unit"))
        self.assert_counts()

    def test_the_answers_of_other_functions(self):
        self.change("album_low/proofs/clocks/Clock/next/Answers.antt", ("= unit", "= id unit"))
        self.change("album_mid/proofs/twice/Answers.antt", ("= unit", "= id unit"))
        self.assert_counts()

    def test_a_crate_that_is_not_below(self):
        self.change("album_high/src/lib.rt", ("pub fn thrice()", "pub struct Hour;\n\npub fn thrice()"))
        self.write("album_high/specs/Hours.antt", "pub hours : ℕ\nhours = 24\n")
        self.assert_counts()


class Kept(Tree):
    """The lines of `doubt/refused`."""

    def setUp(self):
        super().setUp()
        (self.root / "doubt").mkdir()
        for patcher in (mock.patch.object(tree, "ROOT", self.root),
                        mock.patch.object(tree.Kept, "FILE", self.root / "doubt" / "refused")):
            patcher.start()
            self.addCleanup(patcher.stop)

    def test_what_is_kept_counts_until_its_sum_changes(self):
        kept = tree.Kept("goals")
        self.assertFalse(kept.has("mid/wrong", self.before))
        kept.keep("mid/wrong", self.before)
        self.assertTrue(kept.has("mid/wrong", self.sum()))
        self.change("album_low/specs/Clocks.antt", ("one < other", "other < one"))
        self.assertFalse(kept.has("mid/wrong", self.sum()))

    def test_a_name_and_a_kind_have_a_line_of_their_own(self):
        tree.Kept("goals").keep("mid/wrong", self.before)
        self.assertFalse(tree.Kept("goals").has("mid/wronger", self.before))
        self.assertFalse(tree.Kept("laws").has("mid/wrong", self.before))

    def test_a_new_sum_takes_the_place_of_the_one_before(self):
        kept = tree.Kept("goals")
        kept.keep("mid/other", "sum")
        kept.keep("mid/wrong", "sum")
        kept.keep("mid/wrong", "another sum")
        self.assertFalse(kept.has("mid/wrong", "sum"))
        self.assertTrue(kept.has("mid/wrong", "another sum"))
        self.assertTrue(kept.has("mid/other", "sum"))


class Parts(unittest.TestCase):
    """How a formatted source is taken apart."""

    def functions(self, text):
        return {part.name: part for part in seen.parts_of(text) if not isinstance(part, str)}

    def test_a_contract_is_what_stands_above_the_body(self):
        text = "pub fn one() -> u64\n    ensures one { result ≡ 1 }\n{\n    let a = 1;\n    a\n}\n"
        function = self.functions(text)["one"]
        self.assertEqual("pub fn one() -> u64\n    ensures one { result ≡ 1 }\n{", function.contract)
        self.assertEqual("    let a = 1;\n    a", function.body)
        self.assertTrue(function.is_public)

    def test_arguments_may_have_lines_of_their_own(self):
        text = "fn long(\n    first: u64,\n    second: u64,\n) -> u64 {\n    first\n}\n"
        function = self.functions(text)["long"]
        self.assertEqual("fn long(\n    first: u64,\n    second: u64,\n) -> u64 {", function.contract)
        self.assertEqual("    first", function.body)

    def test_what_a_crate_alone_sees_is_not_public(self):
        functions = self.functions("pub(crate) fn one() {\n    go();\n}\n\nfn two() {\n    go();\n}\n")
        self.assertFalse(functions["one"].is_public or functions["two"].is_public)

    def test_a_method_of_a_trait_or_of_its_impl_is_a_traits(self):
        text = ("impl Clock {\n    fn one(&self) {\n        go();\n    }\n}\n\n"
                "impl<T> Early\n    for Clock<T>\n{\n    fn two(&self) {\n        go();\n    }\n}\n\n"
                "pub trait Late {\n    fn three(&self) {\n        go();\n    }\n}\n\n"
                "fn four() {\n    go();\n}\n")
        functions = self.functions(text)
        self.assertEqual([False, True, True, False],
                         [functions[name].is_of_trait for name in ("one", "two", "three", "four")])

    def test_a_tactic_is_part_of_the_body(self):
        text = "#[tactic(auto)]\nfn one() {\n    go();\n}\n"
        text_above, function, _ = seen.parts_of(text)
        self.assertEqual("", text_above)
        self.assertIn("#[tactic(auto)]", function.body)

    def test_a_function_without_lines_of_its_own_is_text(self):
        text = "pub fn a_law()\n    ensures so { 1 ≡ 1 }\n{}\n"
        self.assertEqual({}, self.functions(text))
        self.assertIn("ensures so { 1 ≡ 1 }", "\n".join(part for part in seen.parts_of(text)))

    def test_only_names_that_are_used_are_imported(self):
        text = ("use album_low::{Clock, Hour};\nghost use Rattle.album_low.specs.Clocks.{later};\n"
                "fn f(clock: Clock) {}\n")
        self.assertEqual("album_low::Clock\nfn f(clock: Clock) {}", seen.with_imports_used(text))

    def test_only_names_that_are_said_are_passed_on(self):
        text = "pub use clocks::{Clock, Early};\n"
        self.assertEqual("pub use clocks::Clock;\n", seen.passed_on(text, {"Clock", "clocks"}))
