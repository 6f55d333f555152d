"""What doubt/laws takes from the prover's answers."""
from __future__ import annotations

import pathlib
import tempfile
import unittest
from unittest import mock

from loading import script

laws = script("doubt/laws")

SAID = """\
./proofs/Judging.antt:12:7: goal ? in `denials_name_what_denies`
  at : ℕ
  ⊢ verdict_of (entry ∷ entries)
      ≡ Denied at
./proofs/Judging.antt:30:1: error: `one_verdict` has another type
./proofs/Judging.antt:44:1: error: refused, like all declarations that depend on `one_verdict`
./proofs/judging/denials_name_what_denies/Answers.antt:9:3: goal ? in `returns-clause-at`
  ⊢ at ≡ 0
note: `returns-clause-at` of proofs/judging/denials_name_what_denies/Answers.antt must prove: at ≡ 0
note: 3 lemmas were kept
fn album_tests_laws::judging::denials_name_what_denies: no proof: a hole is open
"""


class WhatIsOpen(unittest.TestCase):
    def test_holes_have_their_goals_and_errors_their_words(self):
        goal = "verdict_of (entry ∷ entries) ≡ Denied at"
        wanted = [f"proofs/Judging.antt: the hole in `denials_name_what_denies`: {goal}",
                  "proofs/Judging.antt: `one_verdict` has another type",
                  "proofs/judging/denials_name_what_denies/Answers.antt: the hole in `returns-clause-at`: at ≡ 0",
                  "`returns-clause-at` of proofs/judging/denials_name_what_denies/Answers.antt must prove: at ≡ 0"]
        self.assertEqual(wanted, laws.open_in(SAID))

    def test_a_law_is_refused_where_it_is_not_proved_and_no_definition_is_wrong(self):
        self.assertTrue(laws.Outcome("no proof: a hole is open", laws.open_in(SAID)).is_refused())

    def test_a_refused_definition_counts_for_nothing(self):
        said = "./specs/Verdicts.antt:3:1: error: `Denied` has two arguments\n"
        self.assertFalse(laws.Outcome("no proof: ..", laws.open_in(said)).is_refused())

    def test_a_law_that_nothing_is_said_of_counts_for_nothing(self):
        self.assertFalse(laws.Outcome("", []).is_refused())

    def test_a_proved_law_refuses_nothing(self):
        self.assertFalse(laws.Outcome("proved", []).is_refused())
        self.assertTrue(laws.Outcome("proved", []).is_proved())


class Laws(unittest.TestCase):
    def setUp(self):
        top = tempfile.TemporaryDirectory()
        self.addCleanup(top.cleanup)
        self.top = pathlib.Path(top.name)
        patcher = mock.patch.object(laws, "ROOT", self.top)
        patcher.start()
        self.addCleanup(patcher.stop)

    def test_a_patch_names_its_law_in_its_first_line(self):
        patch = self.top / "one.patch"
        patch.write_text("law: album_tests_laws titles_are_as_asked\n\ndiff --git a/x b/x\n")
        self.assertEqual(("album_tests_laws", "titles_are_as_asked"), laws.law_of(patch))

    def test_a_patch_without_a_law_is_refused(self):
        patch = self.top / "one.patch"
        patch.write_text("diff --git a/x b/x\n-law: a b\n")
        with self.assertRaises(SystemExit):
            laws.law_of(patch)

    def test_a_law_is_found_by_its_module(self):
        source = self.top / "crates" / "low" / "src"
        (source / "views").mkdir(parents=True)
        laws_of_views = "pub fn views_are_fresh_again()\n{}\n\npub fn views_are_fresh()\n{}\n"
        (source / "views" / "fresh.rt").write_text(laws_of_views)
        (source / "lib.rt").write_text("pub fn all_is_well()\n{}\n")
        self.assertEqual("low::views::fresh::views_are_fresh", laws.Law("low", "views_are_fresh").path())
        self.assertEqual("low::all_is_well", laws.Law("low", "all_is_well").path())
        with self.assertRaises(SystemExit):
            laws.Law("low", "views_are").path()

    def test_crates_above_a_changed_one_are_read_as_sources(self):
        patch = self.top / "one.patch"
        file = "crates/mid/src/lib.rt"
        patch.write_text(f"law: top a_law\n\n--- a/{file}\n+++ b/{file}\n@@ -1 +1 @@\n-a\n+b\n")
        rows = {"low": [], "mid": ["low"], "beside": ["low"], "high": ["mid"], "top": ["high", "beside"],
                "other": ["mid"]}
        self.assertEqual({"mid", "high"}, laws.sources_of(rows, laws.Law("top", "a_law"), patch))
        self.assertEqual(set(), laws.sources_of(rows, laws.Law("top", "a_law"), None))
