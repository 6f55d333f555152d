"""Tests of tools/index."""
import unittest

from loading import script

index = script("tools/index")

SPECS = """-- A file of definitions.
use Rattle.std.specs.Prelude.{Nat}

-- ---- a part

-- what is asked
-- of a number
pub record IsAsked (number : Nat) (other : List
    Nat) : Type 0 where
  pub first : Nat

abbrev pub is_low : Nat → Bool
is_low n = n < 7

-- low, or not
pub data Either : Nat → Type 0 where
  Low : Either 0
"""


class Definitions(unittest.TestCase):
    def test_a_record_has_its_head_and_its_comment(self):
        self.assertEqual(("IsAsked (number : Nat) (other : List Nat)", "what is asked of a number"),
                         index.defined(SPECS, "IsAsked"))

    def test_a_function_has_its_type(self):
        self.assertEqual(("is_low : Nat → Bool", ""), index.defined(SPECS, "is_low"))

    def test_an_inductive_type_has_its_head(self):
        self.assertEqual("low, or not", index.defined(SPECS, "Either")[1])

    def test_a_name_is_whole(self):
        with self.assertRaises(ValueError):
            index.defined(SPECS, "is_lo")

    def test_a_title_of_a_part_is_no_comment(self):
        self.assertEqual("", index.comment_above(["-- said", "-- ---- a part", "pub x : Nat"], 2))


class Page(unittest.TestCase):
    def test_the_index_takes_the_place_of_the_last_part(self):
        old = "# Proofs\n\nText.\n\n## Index of definitions\n\nstale\n"
        new = index.page(old)
        self.assertTrue(new.startswith("# Proofs\n\nText.\n\n## Index of definitions\n\nMade by"))
        self.assertNotIn("stale", new)
        self.assertEqual(new, index.page(new))

    def test_there_are_80_at_most(self):
        self.assertLessEqual(len(list(index.rows())), 80)


if __name__ == "__main__":
    unittest.main()
