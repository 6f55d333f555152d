"""Which rows rows/run takes, how it counts them, and how it runs several side by side."""
from __future__ import annotations

import os
import pathlib
import subprocess
import sys
import tempfile
import unittest

from loading import ROOT, script

rows = script("rows/run")

# A program that answers a replay as the row of the repository has it, and that one row otherwise whose name is given by
# its environment.
STUB = f"""\
#!{sys.executable}
import os, pathlib, sys
given = sys.stdin.buffer.read()
for path in pathlib.Path({str(ROOT / "rows" / "replay")!r}).glob("*.jsonl"):
    if path.read_bytes() == given:
        printed = path.with_suffix(".out").read_bytes()
        sys.stdout.buffer.write(b"other" if path.stem == os.environ.get("WRONG") else printed)
"""
TRIMS = "rows/replay/trim_"  # two rows: trim_full and trim_then_gone


def is_even(_, number):
    return None if number % 2 == 0 else f"{number} is odd"


def fails(_, error):
    raise error


def has_a_port_of_its_own(_, count):
    """Of so many processes, of which each has the pairs of ports of its number."""
    ports = rows.serving.PORTS
    wanted = (count, rows.serving.free_port() // 2 % count)
    return None if (ports.count, ports.number) == wanted else f"{wanted} of {ports.count, ports.number}"


class Selected(unittest.TestCase):
    ROWS = [("rows/judge/a.jsonl", is_even, 0), ("serve/a talk", is_even, 1),
            ("serve/a talk, byte by byte", is_even, 2)]

    def names(self, word):
        return [name for name, *_ in rows.named(self.ROWS, word)]

    def test_those_whose_name_has_the_word(self):
        self.assertEqual(["serve/a talk", "serve/a talk, byte by byte"], self.names("a talk"))
        self.assertEqual(["serve/a talk, byte by byte"], self.names("byte by byte"))
        self.assertEqual([], self.names("replay"))

    def test_all_without_a_word(self):
        self.assertEqual(self.ROWS, rows.named(self.ROWS, ""))

    def test_every_row_has_a_name_of_its_own(self):
        names = [name for name, *_ in rows.checks(is_built=False)]
        self.assertEqual(len(names), len(set(names)))

    def test_the_quick_ones_are_some_of_all(self):
        names = [name for name, *_ in rows.checks(is_built=False)]
        quick = [name for name, *_ in rows.checks(is_built=False, is_quick=True)]
        self.assertEqual([name for name in names if name in set(quick)], quick)
        for part in ("rows/judge/one_allow.jsonl", "examples/story.jsonl", "examples: the client",
                     "the commands of README.md", "names: each flag"):
            self.assertIn(part, quick)
        self.assertFalse([name for name in quick if name.startswith(("serve", "kills", "chances"))])

    def test_each_kind_is_among_all(self):
        names = [name for name, *_ in rows.checks(is_built=False)]
        for kind in ("rows/judge/", "rows/replay/", "rows/explain/", "replay/", "explain/", "program: ", "names: ",
                     "serve/", "serve: ", "serve, races: ", "options: ", "data: ", "kills: ", "turns: ", "epochs: ",
                     "strangers: ", "many: ", "audits: ", "chances: ", "restarts: ", "watching: ",
                     "serve, as in replay/", "examples: ", "ask: ", "the commands of "):
            with self.subTest(kind):
                self.assertTrue([name for name in names if name.startswith(kind)])


class Outcomes(unittest.TestCase):
    def test_a_row_that_cannot_be_run_is_wrong(self):
        self.assertEqual("no file", rows.wrong_with("", ("row", fails, OSError("no file"))))
        self.assertIn("slow", rows.wrong_with("", ("row", fails, subprocess.TimeoutExpired("slow", 60))))

    def test_a_fault_of_a_rows_own_ends_the_run(self):
        with self.assertRaises(ZeroDivisionError):
            rows.wrong_with("", ("row", fails, ZeroDivisionError()))

    def test_several_side_by_side_keep_their_order(self):
        given = [(f"row {number}", is_even, number) for number in range(20)]
        wanted = [None if number % 2 == 0 else f"{number} is odd" for number in range(20)]
        for jobs in (1, 3):
            with self.subTest(jobs):
                self.assertEqual(wanted, list(rows.outcomes("", given, jobs)))

    def test_processes_have_ports_of_their_own(self):
        self.assertEqual({None}, set(rows.outcomes("", [("row", has_a_port_of_its_own, 3)] * 30, 3)))
        ports = rows.serving.Ports()
        ports.take(1, 3)
        # (pairs of ports are dealt by turns: 0 and 1 to the first of three, 2 and 3 to the second)
        self.assertEqual([2, 3, 8, 9], [port for port in range(12) if ports.has(port)])
        self.assertTrue(rows.serving.Ports().has(40001))


class Runs(unittest.TestCase):
    """The script itself, over a program that knows the answers."""

    def setUp(self):
        top = tempfile.TemporaryDirectory()
        self.addCleanup(top.cleanup)
        self.program = pathlib.Path(top.name) / "stub"
        self.program.write_text(STUB)
        self.program.chmod(0o755)

    def run_rows(self, *words, wrong=""):
        done = subprocess.run([ROOT / "rows" / "run", *words], capture_output=True, text=True, timeout=60,
                              env={**os.environ, "WRONG": wrong})
        return done.returncode, done.stdout.splitlines()

    def test_one_row_by_its_name(self):
        self.assertEqual((0, ["1 passed, 0 failed"]), self.run_rows("-k", TRIMS + "full.jsonl", self.program))

    def test_some_rows_side_by_side(self):
        self.assertEqual((0, ["2 passed, 0 failed"]), self.run_rows("-k", TRIMS, "-j", "2", self.program))

    def test_a_row_that_is_answered_otherwise_is_named(self):
        for jobs in ("1", "2"):
            status, lines = self.run_rows("-k", TRIMS, "-j", jobs, self.program, wrong="trim_then_gone")
            self.assertEqual((1, "1 passed, 1 failed"), (status, lines[-1]))
            self.assertTrue(lines[0].startswith("rows: rows/replay/trim_then_gone.jsonl: answer 1 is b'other', and "))

    def test_names_are_listed_and_nothing_is_run(self):
        names = [TRIMS + "full.jsonl", TRIMS + "then_gone.jsonl"]
        self.assertEqual((0, names), self.run_rows("--list", "-k", TRIMS))
        self.assertEqual((0, names), self.run_rows("--list", "-k", TRIMS, "/nowhere/album"))

    def test_a_word_that_no_name_has_fails(self):
        status, lines = self.run_rows("-k", "no such row", self.program)
        self.assertEqual((1, ["rows: no row's name has 'no such row'", "0 passed, 1 failed"]), (status, lines))

    def test_a_program_that_is_not_there_fails(self):
        status, lines = self.run_rows("-k", TRIMS, "/nowhere/album")
        self.assertEqual((1, "0 passed, 1 failed"), (status, lines[-1]))
        self.assertIn("there is no program /nowhere/album", lines[0])
