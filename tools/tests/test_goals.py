"""What doubt/goals takes from the prover's answers."""
from __future__ import annotations

import pathlib
import tempfile
import unittest
from types import SimpleNamespace
from unittest import mock

from loading import script

goals = script("doubt/goals")

# `Clock::see` has two open goals, of which one may be false; `Clock::foresee` and `Clock::seen` have one.
OPEN = """\
fn album_stamps::clocks::Clock::next: proved
fn album_stamps::clocks::Clock::foresee: no proof: expected answers in ./proofs/clocks/Clock/foresee/Answers.antt; \
`search` did not prove `overflow_sub-result`
fn album_stamps::clocks::Clock::see: no proof: expected answers in ./proofs/clocks/Clock/see/Answers.antt; `search` \
did not prove `returns-clause-clock`, `returns-clause-never_lowered`
help: write ./proofs/clocks/Clock/see/Answers.antt with these lines, and check again: each hole's goal is what is left
    pub returns-clause-never_lowered : goal.returns-clause-never_lowered
    returns-clause-never_lowered c = ?
note: `returns-clause-clock` of proofs/clocks/Clock/see/Answers.antt must prove: Fits w64 (c.args.count + 1)
note: `returns-clause-never_lowered` of proofs/clocks/Clock/see/Answers.antt may be false: the known facts allow ..
fn album_stamps::clocks::Clock::seen: no proof: expected answers in ./proofs/clocks/Clock/seen/Answers.antt; `search` \
did not prove `overflow_add-result`
"""
SEE = ("fn album_stamps::clocks::Clock::see: no proof: expected answers in ./proofs/clocks/Clock/see/Answers.antt; "
       "`search` did not prove `returns-clause-clock`, `returns-clause-never_lowered`")
# An answer by hand is refused; a function calls one that isn't proved; one is refused before any goal is made.
REFUSED = ("fn album_lists::names::Name::of: not proved; it cites `Rattle.album_lists.proofs.names.Name.of.Answers."
           "returns-in-Some`, which antt refuses\n")
CALLS = "fn album_lists::names::all: not proved; it calls `album_lists::names::Name::of`, which is not proved\n"
NOTED = """\
fn album_lists::names::first: proved
note: ./src/names.rt:7:5: it is not proved that the index is in range (`index-in-name`)
note: ./src/names.rt:9:5: it is not proved that the sum fits (`overflow_add-len`)
fn album_lists::names::last: not proved
"""


class Answers(unittest.TestCase):
    def test_open_goals_are_those_of_the_functions_line(self):
        outcome = goals.outcome_of({"see"}, OPEN)
        self.assertEqual(SEE, outcome.line)
        self.assertEqual(["returns-clause-clock", "returns-clause-never_lowered"], outcome.goals)

    def test_a_goal_is_false_where_a_note_of_the_functions_file_says_so(self):
        self.assertEqual(["returns-clause-never_lowered"], goals.outcome_of({"see"}, OPEN).false)

    def test_a_note_of_another_functions_file_makes_no_goal_false(self):
        said = OPEN.replace("note: `returns-clause-never_lowered` of proofs/clocks/Clock/see/",
                            "note: `returns-clause-never_lowered` of proofs/clocks/Clock/seen/")
        self.assertEqual([], goals.outcome_of({"see"}, said).false)

    def test_a_function_whose_name_begins_or_ends_alike_is_another(self):
        self.assertEqual(["overflow_add-result"], goals.outcome_of({"seen"}, OPEN).goals)
        self.assertEqual(["overflow_sub-result"], goals.outcome_of({"foresee"}, OPEN).goals)
        self.assertEqual([], goals.outcome_of({"fore"}, OPEN).goals)

    def test_names_behind_the_open_goals_are_none(self):
        said = ("fn low::first: no proof: expected answers in ./proofs/first/Answers.antt; `search` did not prove "
                "`index-in-name`; it calls `second`, which is not proved\n")
        self.assertEqual(["index-in-name"], goals.outcome_of({"first"}, said).goals)

    def test_of_several_functions_the_line_that_says_most_counts(self):
        self.assertEqual(["index-in-name", "overflow_add-len"], goals.outcome_of({"all", "last"}, NOTED).goals)
        outcome = goals.outcome_of({"all", "see"}, CALLS + OPEN)
        self.assertEqual(SEE, outcome.line)
        unmeasured = "fn album_stamps::clocks::Clock::wait: no proof: expected a measure of its loop\n"
        self.assertEqual(SEE, goals.outcome_of({"wait", "see"}, unmeasured + OPEN).line)

    def test_a_proved_function_has_nothing_open(self):
        outcome = goals.outcome_of({"next"}, OPEN)
        self.assertEqual(([], [], []), (outcome.goals, outcome.false, outcome.refused))
        self.assertNotIn("fn ", outcome.line)

    def test_a_function_that_nothing_is_said_of_has_nothing_open(self):
        self.assertEqual([], goals.outcome_of({"tick"}, OPEN).goals)
        self.assertEqual([], goals.outcome_of({"see"}, "error: expected `;`\n").goals)

    def test_a_refused_answer_is_its_file_and_its_name(self):
        outcome = goals.outcome_of({"of"}, REFUSED)
        self.assertEqual([("names.Name.of", "returns-in-Some")], outcome.refused)
        self.assertEqual([], outcome.goals)

    def test_who_calls_an_unproved_function_has_no_goal(self):
        outcome = goals.outcome_of({"all"}, CALLS)
        self.assertEqual(([], []), (outcome.goals, outcome.refused))

    def test_goals_without_an_answers_file_are_those_noted_above_the_line(self):
        self.assertEqual(["index-in-name", "overflow_add-len"], goals.outcome_of({"last"}, NOTED).goals)

    def test_notes_above_another_function_are_its_own(self):
        said = ("note: ./src/names.rt:7:5: it is not proved that the index is in range (`index-in-name`)\n"
                "fn album_lists::names::first: not proved\nfn album_lists::names::last: not proved\n")
        self.assertEqual(["index-in-name"], goals.outcome_of({"first"}, said).goals)
        self.assertEqual([], goals.outcome_of({"last"}, said).goals)


def outcome(open_=(), false=(), refused=()):
    return goals.Outcome("fn f: ..", list(open_), list(false), [("f", name) for name in refused])


def edit(*functions, false=()):
    """A wrong body of these functions, which says of these goals that they are false."""
    made = goals.Edit.__new__(goals.Edit)
    made.name, made.functions, made.false = "+".join(functions), set(functions), list(false)
    return made


class Counting(unittest.TestCase):
    def test_an_open_goal_that_had_no_answer_counts(self):
        self.assertEqual(["a"], goals.counts(edit("f"), outcome(["a", "b"]), ["b"]))

    def test_a_goal_that_had_an_answer_counts_where_it_is_false(self):
        self.assertEqual(["b"], goals.counts(edit("f"), outcome(["b", "c"], false=["b"]), ["b", "c"]))

    def test_a_goal_counts_that_the_edit_gives_values_for(self):
        goal = "returns-clause-b"
        self.assertEqual([goal], goals.counts(edit("f", false=["clause-b"]), outcome([goal]), [goal]))

    def test_a_refused_answer_alone_counts_for_nothing(self):
        self.assertEqual([], goals.counts(edit("f"), outcome(refused=["a"]), []))

    def test_a_refused_answer_counts_where_the_edit_gives_values_for_its_goal(self):
        self.assertEqual(["a"], goals.counts(edit("f", false=["a"]), outcome(refused=["a"]), []))

    def test_nothing_open_counts_for_nothing(self):
        self.assertEqual([], goals.counts(edit("f", false=["a"]), outcome(), []))


ANSWERS = """\
-- How a name is read.
use Rattle.album_lists.proofs.names.Name.of.Goals.{returns-in-Some, returns-in-None}
use Rattle.album_lists.proofs.names.Name.of.Goals.{ensures-clause-short}
use Rattle.album_lists.proofs.Names.{short_enough}

pub returns-in-Some : returns-in-Some.goal
returns-in-Some c = short_enough c

pub ensures-clause-short : ensures-clause-short.goal
ensures-clause-short c = short_enough c
"""


class AnswersTakenAway(unittest.TestCase):
    def test_the_answer_goes_and_so_does_what_it_alone_imports(self):
        wanted = """\
-- How a name is read.
use Rattle.album_lists.proofs.names.Name.of.Goals.{ensures-clause-short}
use Rattle.album_lists.proofs.Names.{short_enough}

pub ensures-clause-short : ensures-clause-short.goal
ensures-clause-short c = short_enough c
"""
        self.assertEqual(wanted, goals.without_answer(ANSWERS, "returns-in-Some"))

    def by_itself(self, *answers, false=()):
        """What comes of a wrong body whose answer is refused, where the prover says these one after another."""
        with tempfile.TemporaryDirectory() as top:
            file = pathlib.Path(top) / "proofs" / "names" / "Name" / "of" / "Answers.antt"
            file.parent.mkdir(parents=True)
            file.write_text(ANSWERS)
            wrong = edit("of", false=false)
            with mock.patch.object(goals, "checked", side_effect=answers):
                now, answered = goals.by_itself(wrong, pathlib.Path(top), goals.outcome_of({"of"}, REFUSED))
        return answered, goals.counts(wrong, now, answered)

    OPEN = ("fn album_lists::names::Name::of: no proof: expected answers in ./proofs/names/Name/of/Answers.antt; "
            "`search` did not prove `returns-in-Some`\n")
    FALSE = "note: `returns-in-Some` of proofs/names/Name/of/Answers.antt may be false: the known facts allow ..\n"

    def test_a_goal_that_needed_an_answer_counts_for_nothing_where_it_may_be_true(self):
        self.assertEqual((["returns-in-Some"], []), self.by_itself(self.OPEN))

    def test_it_counts_where_the_prover_finds_it_false(self):
        self.assertEqual((["returns-in-Some"], ["returns-in-Some"]), self.by_itself(self.OPEN + self.FALSE))

    def test_further_answers_are_taken_away_where_they_are_refused_then(self):
        second = REFUSED.replace("returns-in-Some", "ensures-clause-short")
        both = self.OPEN.replace("`returns-in-Some`", "`returns-in-Some`, `returns-in-None`")
        answered = ["returns-in-Some", "ensures-clause-short"]
        self.assertEqual((answered, ["returns-in-None"]), self.by_itself(second, both))


class TriedTogether(unittest.TestCase):
    def names(self, *edits):
        taken, left = goals.together(list(edits))
        return [one.name for one in taken], [one.name for one in left]

    def test_those_of_different_functions_are_tried_together(self):
        self.assertEqual((["f", "g"], ["f"]), self.names(edit("f"), edit("g"), edit("f")))

    def test_one_of_two_functions_is_tried_alone(self):
        self.assertEqual((["f", "g"], ["f+g"]), self.names(edit("f"), edit("f", "g"), edit("g")))
        self.assertEqual((["f+g"], ["h"]), self.names(edit("f", "g"), edit("h")))

    def test_one_of_no_function_is_tried_alone(self):
        self.assertEqual((["f"], [""]), self.names(edit("f"), edit()))
        self.assertEqual(([""], ["f"]), self.names(edit(), edit("f")))


SOURCE = """\
use low::Clock;

fn first() -> u64 {
    let a = 1;
    a
}

impl Clock {
    pub fn second(&self) -> u64
        ensures same { result ≡ self.now }
    {
        self.now
    }
}
"""


class WrongBodies(unittest.TestCase):
    def setUp(self):
        top = tempfile.TemporaryDirectory()
        self.addCleanup(top.cleanup)
        self.crate = pathlib.Path(top.name)
        (self.crate / "src").mkdir()
        (self.crate / "src" / "lib.rt").write_text(SOURCE)

    def edit(self, text):
        path = self.crate / "wrong.edit"
        path.write_text(text)
        return goals.Edit(path, self.crate)

    def test_it_is_of_the_functions_whose_bodies_it_changes(self):
        self.assertEqual({"second"}, self.edit("file: src/lib.rt\nold:         self.now\nnew:         7\n").functions)
        both = self.edit("file: src/lib.rt\nold: let a = 1;\nnew: let a = 2;\nold:         self.now\nnew:         7\n")
        self.assertEqual({"first", "second"}, both.functions)

    def test_a_change_of_an_import_is_of_no_function(self):
        made = self.edit("file: src/lib.rt\nold: use low::Clock;\nnew: use low::{Clock, zero};\n"
                         "old: let a = 1;\nnew: let a = zero();\n")
        self.assertEqual({"first"}, made.functions)

    def test_it_applies_once(self):
        made = self.edit("file: src/lib.rt\nold: let a = 1;\nnew: let a = 2;\n")
        self.assertTrue(made.applies(self.crate))
        self.assertIn("let a = 2;", (self.crate / "src" / "lib.rt").read_text())
        self.assertFalse(made.applies(self.crate))

    def test_what_is_false_is_named_before_the_colon(self):
        made = self.edit("file: src/lib.rt\nold: let a = 1;\nnew: let a = 2;\nfalse: returns-clause-one: it is 2\n")
        self.assertTrue(made.names_any(["returns-clause-one"]))
        self.assertFalse(made.names_any(["returns-clause-two"]))


class Left(unittest.TestCase):
    def test_what_is_kept_under_the_same_sum_is_not_left(self):
        one, other = edit("f"), edit("g")
        one.text = other.text = ""
        kept = SimpleNamespace(has=lambda name, sum_: (name, sum_) == ("low/f", "sum of f"))
        seen = SimpleNamespace(by=lambda crate, functions, text: f"sum of {''.join(functions)}")
        with mock.patch.object(goals, "edits_of", return_value=[one, other]):
            self.assertEqual(([other], 1), goals.left_of("low", [], seen, kept))
