"""The form that all scripts have: none runs when it is loaded, and lines keep to their columns."""
from __future__ import annotations

import contextlib
import io
import pathlib
import unittest

from loading import ROOT, SCRIPTS, script

COLUMNS = 120
FOLDERS = ("rows", "doubt", "tools", "tools/tests")


def sources() -> list[pathlib.Path]:
    return [*(ROOT / name for name in SCRIPTS), *(path for folder in FOLDERS for path in (ROOT / folder).glob("*.py"))]


class Scripts(unittest.TestCase):
    def test_none_runs_when_it_is_loaded(self):
        for name in SCRIPTS:
            printed = io.StringIO()
            with self.subTest(name), contextlib.redirect_stdout(printed):
                self.assertTrue(callable(script(name).main))
            self.assertEqual("", printed.getvalue())

    def test_each_says_what_it_does_and_what_its_last_line_is(self):
        for name in SCRIPTS:
            with self.subTest(name):
                self.assertTrue(script(name).__doc__.startswith(("./", name)))

    def test_lines_have_120_columns_at_most(self):
        for path in sources():
            with self.subTest(path.name):
                lines = enumerate(path.read_text().splitlines(), 1)
                self.assertEqual([], [number for number, line in lines if len(line) > COLUMNS])
