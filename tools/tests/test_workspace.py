"""What crates.txt, edits and patches say."""
from __future__ import annotations

import pathlib
import tempfile
import unittest

import loading  # noqa: F401 (the scripts' folders)
import tree
import workspace
from workspace import Pair, edit_in, edited, edited_files, of_toolchain, patch_in, patched, uses_in

CRATES = """\
# One line a crate, lowest first.
album_stamps: thiserror
album_access: album_stamps bitflags   # masks

app may_wait=2: album_access album_stamps
alone:
"""


class Crates(unittest.TestCase):
    def test_each_line_is_a_crate_and_what_it_uses(self):
        wanted = {"album_stamps": ["thiserror"], "album_access": ["album_stamps", "bitflags"],
                  "app": ["album_access", "album_stamps"], "alone": []}
        self.assertEqual(wanted, uses_in(CRATES))

    def test_crates_keep_the_order_of_their_lines(self):
        self.assertEqual(["album_stamps", "album_access", "app", "alone"], list(uses_in(CRATES)))

    def test_what_no_line_names_is_the_toolchains(self):
        self.assertEqual({"thiserror", "bitflags"}, of_toolchain(uses_in(CRATES)))

    def test_a_line_without_a_colon_or_a_name_is_refused(self):
        for line in ("album_stamps thiserror", ": album_stamps"):
            with self.subTest(line), self.assertRaises(ValueError):
                uses_in(line)

    def test_tree_reads_the_same(self):
        uses = workspace.uses()
        below = {name: [other for other in used if other in uses] for name, used in uses.items()}
        self.assertEqual(below, tree.cited())


class Edits(unittest.TestCase):
    def test_an_edit_has_its_file_its_texts_and_why_a_goal_is_false(self):
        edit = edit_in("file: src/masks.rt\nold: if bits != 0 => Ok(mask),\nnew: if bits != 1 => Ok(mask),\n"
                       "false: returns-in-Some: of the bits 1\n")
        self.assertEqual([("src/masks.rt", "if bits != 0 => Ok(mask),", "if bits != 1 => Ok(mask),")], edit.pairs)
        self.assertEqual({"false": ["returns-in-Some: of the bits 1"]}, edit.further)

    def test_one_space_parts_a_word_from_its_text(self):
        [pair] = edit_in("file: a.rt\nold:     drop(x);\nnew:\n").pairs
        self.assertEqual(("    drop(x);", ""), (pair.old, pair.new))

    def test_a_file_is_that_of_all_pairs_up_to_the_next(self):
        edit = edit_in("file: a.rt\nold: 1\nnew: 2\nold: 3\nnew: 4\nfile: b.rt\nold: 5\nnew: 6\n")
        self.assertEqual([("a.rt", "1", "2"), ("a.rt", "3", "4"), ("b.rt", "5", "6")], edit.pairs)

    def test_a_misuse_names_no_file(self):
        edit = edit_in("error: linear-value-let-go\nsays: `Permit` is not `Drop`\nold: a\nnew: b\n")
        self.assertEqual([(None, "a", "b")], edit.pairs)
        self.assertEqual({"error": ["linear-value-let-go"], "says": ["`Permit` is not `Drop`"]}, edit.further)

    def test_what_has_no_partner_is_refused(self):
        for text in ("", "file: a.rt\n", "old: 1\n", "new: 2\n", "old: 1\nold: 2\nnew: 3\n",
                     "old: 1\nnew: 2\nnew: 3\n"):
            with self.subTest(text), self.assertRaises(ValueError):
                edit_in(text)

    def test_a_text_is_replaced_where_it_stands_once(self):
        self.assertEqual("let b = 1;", edited("let a = 1;", [Pair(None, "a = 1", "b = 1")]))

    def test_a_text_that_is_twice_or_never_there_is_refused(self):
        for text in ("aa", "b"):
            with self.subTest(text), self.assertRaises(ValueError):
                edited(text, [Pair(None, "a", "c")])

    def test_a_pair_may_stand_on_what_the_one_before_made(self):
        self.assertEqual("third", edited("first", [Pair(None, "first", "second"), Pair(None, "second", "third")]))

    def test_pairs_of_several_files_are_each_applied_to_its_own(self):
        with tempfile.TemporaryDirectory() as top:
            folder = pathlib.Path(top)
            (folder / "a.rt").write_text("one two")
            (folder / "b.rt").write_text("one")
            pairs = [Pair("a.rt", "one", "1"), Pair("b.rt", "one", "I"), Pair("a.rt", "two", "2")]
            self.assertEqual({folder / "a.rt": "1 2", folder / "b.rt": "I"}, edited_files(folder, pairs))
            self.assertEqual("one two", (folder / "a.rt").read_text())
            for pair in (Pair("c.rt", "one", "1"), Pair(None, "one", "1"), Pair("a.rt", "three", "3")):
                with self.subTest(pair), self.assertRaises(ValueError):
                    edited_files(folder, [pair])


PATCH = """\
law: album_audit each_record_counts_once

diff --git a/notes/first b/notes/first
--- a/notes/first
+++ b/notes/first
@@ -1,3 +1,3 @@
 above
-law: this is a line of the file
+law: so is this
 below
diff --git a/crates/album_audit/src/totals.rt b/crates/album_audit/src/totals.rt
--- a/crates/album_audit/src/totals.rt
+++ b/crates/album_audit/src/totals.rt
@@ -1 +1 @@
-old
+new
"""


class Patches(unittest.TestCase):
    def setUp(self):
        top = tempfile.TemporaryDirectory()
        self.addCleanup(top.cleanup)
        self.top = pathlib.Path(top.name)
        self.patch = self.top / "one.patch"
        self.patch.write_text(PATCH)
        self.first = self.top / "tree" / "notes" / "first"
        self.totals = self.top / "tree" / "crates" / "album_audit" / "src" / "totals.rt"
        for file, text in ((self.first, "above\nlaw: this is a line of the file\nbelow\n"), (self.totals, "old\n")):
            file.parent.mkdir(parents=True)
            file.write_text(text)

    def test_only_lines_above_the_first_diff_are_its_head(self):
        self.assertEqual({"law": ["album_audit each_record_counts_once"]}, patch_in(PATCH).head)

    def test_a_word_may_stand_several_times(self):
        patch = patch_in("test: low sessions::two\ntest: mid runs::one\n--- a/x\n+++ b/x\n@@ -1 +1 @@\n-a: 1\n+a: 2\n")
        self.assertEqual({"test": ["low sessions::two", "mid runs::one"]}, patch.head)

    def test_it_names_the_files_and_crates_that_it_changes(self):
        patch = patch_in(PATCH)
        self.assertEqual(["notes/first", "crates/album_audit/src/totals.rt"], patch.files)
        self.assertEqual({"album_audit"}, patch.crates())

    def test_so_does_one_without_a_line_of_git(self):
        patch = patch_in("memory: judge/names\n--- a/crates/low/src/lib.rt\n+++ b/crates/low/src/lib.rt\n"
                         "@@ -1 +1 @@\n-a\n+b\n--- /dev/null\n+++ b/crates/mid/src/new.rt\n@@ -0,0 +1 @@\n+a\n")
        self.assertEqual(["crates/low/src/lib.rt", "crates/mid/src/new.rt"], patch.files)
        self.assertEqual({"low", "mid"}, patch.crates())

    def test_it_is_applied(self):
        self.assertIsNone(patched(self.top / "tree", self.patch))
        self.assertEqual("above\nlaw: so is this\nbelow\n", self.first.read_text())
        self.assertEqual("new\n", self.totals.read_text())

    def test_where_it_is_tried_nothing_is_written(self):
        self.assertIsNone(patched(self.top / "tree", self.patch, is_tried=True))
        self.assertEqual("old\n", self.totals.read_text())

    def test_it_does_not_apply_where_a_line_beside_the_change_is_another(self):
        self.first.write_text("above\nlaw: this is a line of the file\nfurther below\n")
        self.assertIsNotNone(patched(self.top / "tree", self.patch, is_tried=True))
        self.assertIsNotNone(patched(self.top / "tree", self.patch))


class Copies(unittest.TestCase):
    def test_a_try_has_sources_and_definitions_and_no_proofs(self):
        with tempfile.TemporaryDirectory() as top:
            workspace.copy_crate("album_terminate", pathlib.Path(top))
            parts = {path.name for path in (pathlib.Path(top) / "album_terminate").iterdir()}
        self.assertEqual({"src", "specs"}, parts)
