"""Which names of rows and of tests are a crate's."""
from __future__ import annotations

import unittest

from loading import script

map_of = script("tools/map")


class Names(unittest.TestCase):
    def test_rows_are_named_after_what_a_crate_is_named_after(self):
        for name, crate in (("talks", "album_talk"), ("asking", "album_ask"), ("audits", "album_audit"),
                            ("alarm_and_audit", "album_audit"), ("restarts", "album_restarts"),
                            ("racing_lists", "album_lists"), ("explain", "album_explain_store"),
                            ("judge", "album_judge_alone")):
            with self.subTest(name):
                self.assertTrue(map_of.is_named_after(name, crate))

    def test_others_are_not(self):
        for name, crate in (("longest_last_line", "album_lasting"), ("full_album", "album"), ("talks", "album_turns"),
                            ("restart", "album_stamps"), ("serving", "album_server")):
            with self.subTest(name):
                self.assertFalse(map_of.is_named_after(name, crate))

    def test_imports_name_crates(self):
        text = ("ghost use Rattle.album_views.specs.Asks.{ask};\nuse album_items::{Item, Value};\n"
                "use crate::values::{\n    list,\n    head,\n};\nuse album_threads::{\n    Opened,\n    Service,\n};\n")
        self.assertEqual(({"album_items", "album_threads"}, {"album_views"}), map_of.named_in(text))

    def test_tests_and_laws_are_found_by_their_heads(self):
        text = "#[test]\nfn one() {\n}\n\n#[test]\n#[tactic(auto)]\nfn two() {\n}\n\nfn helper() {\n}\n"
        self.assertEqual(["one", "two"], map_of.TEST.findall(text))
        text = "pub fn a_law()\n    ensures so { 1 ≡ 1 }\n{}\nfn helper() {\n}\n"
        self.assertEqual(["a_law"], map_of.LAW.findall(text))

    def test_lines_keep_to_their_columns(self):
        lines = map_of.shown("rows", [f"a_name_of_some_length_{number}" for number in range(20)])
        self.assertTrue(len(lines) > 1 and max(map(len, lines)) <= 120)
        self.assertTrue(lines[0].startswith("  rows (20)"))
