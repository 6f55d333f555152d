"""When misuse/run takes a program for refused as it must be, and which programs it tries."""
from __future__ import annotations

import unittest

from loading import script

misuse = script("misuse/run")
DROPPED = """\
error[linear-value-let-go]: `permit` is let go where its block ends, and `Permit` is not `Drop`
  --> src/main.rt:9:5
"""
PRIVATE = "error[private-field]: field `view` of struct `Permit` is private\n"


class Refusals(unittest.TestCase):
    def fault(self, status, said, error="linear-value-let-go", text="`Permit` is not `Drop`"):
        return misuse.fault_of(status, said, error, text)

    def test_the_error_that_is_wanted_refuses_it(self):
        self.assertIsNone(self.fault(1, DROPPED))
        self.assertIsNone(self.fault(1, DROPPED + DROPPED))

    def test_a_program_that_compiles_is_wrong(self):
        self.assertEqual("compiles", self.fault(0, ""))

    def test_another_error_is_wrong_be_it_alone_or_beside_it(self):
        self.assertIsNotNone(self.fault(1, PRIVATE))
        self.assertIsNotNone(self.fault(1, DROPPED + PRIVATE))

    def test_another_error_with_the_same_words_is_wrong(self):
        self.assertIsNotNone(self.fault(1, DROPPED.replace("linear-value-let-go", "unsatisfied-bound")))

    def test_the_same_error_of_another_value_is_wrong(self):
        self.assertIsNotNone(self.fault(1, DROPPED.replace("`Permit`", "`Writes`")))

    def test_no_error_at_all_is_wrong(self):
        self.assertIsNotNone(self.fault(137, "Killed\n"))


class Named(unittest.TestCase):
    def test_a_crate_is_its_caller_and_its_edits(self):
        names = misuse.named(["album_audit"])
        self.assertEqual("album_audit/caller", names[0])
        self.assertIn("album_audit/share_dropped", names)

    def test_a_program_is_itself(self):
        self.assertEqual(["album_permits/permit_copied"], misuse.named(["album_permits/permit_copied"]))

    def test_with_no_word_all_crates_are_tried(self):
        crates = sorted(path.parent.name for path in misuse.MISUSE.glob("*/caller.rt.in"))
        names = misuse.named([])
        self.assertEqual([f"{crate}/caller" for crate in crates], [name for name in names if name.endswith("/caller")])
        self.assertIn("album_permits/permit_dropped", names)

    def test_crates_below_are_found_once_each(self):
        lower = {"low": ["json"], "mid": ["low"], "high": ["mid", "low", "bytes"]}
        self.assertEqual(["mid", "low", "json", "bytes"], misuse.below("high", lower))
