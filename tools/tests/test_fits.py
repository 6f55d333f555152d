"""What doubt/fits finds wrong with a wrong body, a patch or a source."""
from __future__ import annotations

import pathlib
import tempfile
import unittest
from unittest import mock

from loading import script

fits = script("doubt/fits")

PATCH = """\
law: low a_law

--- a/crates/low/src/lib.rt
+++ b/crates/low/src/lib.rt
@@ -1,3 +1,3 @@
 pub fn a_law()
-    ensures so { 1 ≡ 1 }
+    ensures so { 2 ≡ 2 }
 {}
"""


class Fits(unittest.TestCase):
    def setUp(self):
        top = tempfile.TemporaryDirectory()
        self.addCleanup(top.cleanup)
        self.root = pathlib.Path(top.name)
        for patcher in (mock.patch.object(fits, "ROOT", self.root),
                        mock.patch.object(fits, "CRATES", self.root / "crates")):
            patcher.start()
            self.addCleanup(patcher.stop)
        self.crate = self.root / "crates" / "low"
        self.source = self.write("crates/low/src/lib.rt", "pub fn a_law()\n    ensures so { 1 ≡ 1 }\n{}\n")

    def write(self, name, text):
        path = self.root / name
        path.parent.mkdir(parents=True, exist_ok=True)
        path.write_text(text)
        return path

    def edit_wrong(self, text):
        return fits.edit_wrong(self.write("doubt/low/wrong.edit", text), self.crate)

    def test_a_wrong_body_fits_where_its_text_stands_once(self):
        self.assertIsNone(self.edit_wrong("file: src/lib.rt\nold: so { 1\nnew: so { 2\nfalse: so: at 1\n"))

    def test_one_whose_text_is_gone_or_there_twice_does_not(self):
        self.assertEqual("src/lib.rt: 'so { 3' is there 0 times, and not once",
                         self.edit_wrong("file: src/lib.rt\nold: so { 3\nnew: so { 2\n"))
        self.assertEqual("src/lib.rt: '1' is there 2 times, and not once",
                         self.edit_wrong("file: src/lib.rt\nold: 1\nnew: 2\n"))

    def test_one_that_changes_nothing_is_wrong(self):
        self.assertEqual("it changes nothing", self.edit_wrong("file: src/lib.rt\nold: so {\nnew: so {\n"))

    def test_one_whose_file_is_gone_is_wrong(self):
        self.assertEqual("there is no file src/none.rt", self.edit_wrong("file: src/none.rt\nold: so {\nnew: if {\n"))

    def test_a_word_that_nobody_reads_is_wrong(self):
        self.assertEqual("nobody reads its lines of flase",
                         self.edit_wrong("file: src/lib.rt\nold: so {\nnew: if {\nflase: so: at 1\n"))

    def test_a_misuse_has_its_text_in_the_caller_and_says_the_error(self):
        self.write("misuse/low/caller.rt.in", "drop(permit);\n")
        for text, is_right in (("error: e\nsays: s\nold: drop(permit);\nnew:\n", True),
                               ("error: e\nsays: s\nold: drop(writes);\nnew:\n", False),
                               ("error: e\nold: drop(permit);\nnew:\n", False),
                               ("error: e\nsays: s\nfalse: f\nold: drop(permit);\nnew:\n", False)):
            with self.subTest(text):
                self.assertEqual(is_right, fits.misuse_wrong(self.write("misuse/low/one.edit", text)) is None)

    def test_a_patch_applies_and_its_law_is_there(self):
        patch = self.write("doubt/definitions/one.patch", PATCH)
        self.assertIsNone(fits.patch_wrong(patch))
        self.assertIn("{ 1 ≡ 1 }", self.source.read_text())

    def test_a_patch_whose_law_is_gone_is_wrong(self):
        patch = self.write("doubt/definitions/one.patch", PATCH.replace("law: low a_law", "law: low another_law"))
        self.assertEqual("there is no another_law in low", fits.patch_wrong(patch))

    def test_a_patch_with_another_line_beside_its_change_is_wrong(self):
        self.source.write_text("pub fn a_law()\n    ensures so { 1 ≡ 1 }\n{\n}\n")
        self.assertIsNotNone(fits.patch_wrong(self.write("doubt/definitions/one.patch", PATCH)))

    def test_a_source_that_forgets_a_value_is_named(self):
        self.assertIsNone(fits.forgotten())
        for text in ("mem::forget(x);\n", "use std::mem::{swap, forget};\n"):
            self.source.write_text(text)
            self.assertEqual("low/src/lib.rt names `forget` of std", fits.forgotten())
        self.source.write_text("mem::swap(x, y);\nself.forget(x);\n")
        self.assertIsNone(fits.forgotten())
