"""How ./check counts what its commands say, and when it says that the program is older than the sources."""
from __future__ import annotations

import contextlib
import io
import os
import pathlib
import tempfile
import unittest
from unittest import mock

from loading import script

check = script("check")


def counts_of(text, status=0):
    """The counts of a command that prints this text, and what is passed on."""
    printed = io.StringIO()
    with contextlib.redirect_stdout(printed):
        counts = check.passed_and_failed(["sh", "-c", f"printf '{text}'; exit {status}"])
    return counts, printed.getvalue()


class Counts(unittest.TestCase):
    def test_they_are_those_of_the_last_line(self):
        self.assertEqual((12, 3), counts_of("1 passed, 1 failed\\nmore\\n12 passed, 3 failed\\n", 1)[0])
        self.assertEqual((12, 0), counts_of("12 passed, 0 failed\\n\\n")[0])

    def test_a_command_without_counts_fails_once(self):
        self.assertEqual((0, 1), counts_of("all is well\\n")[0])
        self.assertEqual((0, 1), counts_of("")[0])
        self.assertEqual((0, 1), counts_of("3 passed, 0 failed\\nKilled\\n", 137)[0])

    def test_a_status_that_no_count_explains_is_a_failure(self):
        self.assertEqual((0, 1), counts_of("12 passed, 0 failed\\n", 2)[0])

    def test_what_it_says_is_passed_on_and_its_sum_is_not_taken_for_the_last(self):
        self.assertEqual("one\ncheck: 2 passed, 0 failed\n", counts_of("one\\n2 passed, 0 failed\\n")[1])

    def test_a_command_that_cannot_be_started_fails(self):
        with contextlib.redirect_stdout(io.StringIO()):
            self.assertEqual((0, 1), check.passed_and_failed(["/nowhere/at-all"]))


class Lanes(unittest.TestCase):
    def test_there_is_one_a_processor_where_memory_suffices(self):
        self.assertEqual(4, check.lanes(4, 22_000_000))
        self.assertEqual(2, check.lanes(2, 64_000_000))

    def test_there_are_as_many_as_memory_holds_and_one_at_least(self):
        self.assertEqual(3, check.lanes(4, 21_999_999))
        self.assertEqual(1, check.lanes(4, 1_000_000))


class Commands(unittest.TestCase):
    def test_nothing_that_proves_is_quick(self):
        quick = [" ".join(words) for words in check.quick_commands(None)]
        for words in ("tools/index --check", "doubt/fits", "tools/unspecified --check", "tools/tests/run",
                      "rows/run --quick"):
            self.assertIn(words, quick)
        for words in ("rt ci", "./build", "doubt/goals", "doubt/laws", "doubt/tests", "doubt/memory"):
            self.assertNotIn(words, quick)
        self.assertIn("rows/run --quick /tmp/album", [" ".join(words) for words in check.quick_commands("/tmp/album")])

    def test_all_of_the_quick_ones_but_the_sample_are_in_the_whole(self):
        whole = [" ".join(words) for words in check.CHECKS]
        for words in ("tools/index --check", "doubt/fits", "tools/unspecified --check", "tools/tests/run",
                      "misuse/run", "rt ci", "rows/run"):
            self.assertIn(words, whole)


class Programs(unittest.TestCase):
    def test_a_source_that_is_newer_than_the_program_is_named(self):
        with tempfile.TemporaryDirectory() as top:
            root = pathlib.Path(top)
            source = root / "crates" / "album" / "src" / "main.rt"
            other = root / "crates" / "album_bench" / "src" / "lib.rt"
            program = root / "program"
            for file, seconds in ((program, 200), (source, 100), (other, 300)):
                file.parent.mkdir(parents=True, exist_ok=True)
                file.write_text("")
                os.utime(file, (seconds, seconds))
            with mock.patch.object(check, "ROOT", root), \
                    mock.patch.object(check, "cited", lambda: {"album": [], "album_bench": []}):
                self.assertIsNone(check.newer_source(program))
                os.utime(source, (201, 201))
                self.assertEqual(source, check.newer_source(program))
                self.assertIsNone(check.newer_source(root / "none"))
