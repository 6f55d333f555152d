"""Which functions promise nothing but safety."""
from __future__ import annotations

import pathlib
import unittest

from loading import script

unspecified = script("tools/unspecified")

SOURCE = """\
use low::Clock;
pub struct Desk<'a, F: for<'b> Fn(&'b u64) -> u64> {
    first: F,
}
pub fn bare(first: u64) -> u64 {
    first
}
pub fn only_required(first: u64) -> u64
    requires small { first < 10 }
{
    first
}
pub fn promised(
    first: u64,
    second: u64,
) -> u64
    requires small { first < 10 }
    ensures one { result ≡ first }
    ensures two {
        result ≡ second
    }
{
    first
}
pub fn a_law()
    ensures so { 1 ≡ 1 }
{}
pub fn empty() {}
fn private() -> u64 {
    1
}
pub(crate) fn of_the_crate() -> u64 {
    1
}
impl<'a, F: for<'b> Fn(&'b u64) -> u64> Desk<'a, F> {
    #[tactic(auto)]
    pub fn new(first: F) -> Desk<'a, F> {
        Desk { first }
    }
    pub fn first(&self) -> u64
    where
        F: Copy,
        ensures one { result ≡ 1 }
    {
        1
    }
}
impl<F> Read for Desk<F> {
    fn read(&mut self) -> u64 {
        1
    }
}
impl<F> Gate<F>
    for Desk<F>
{
    pub fn enter(&self) -> u64 {
        1
    }
}
impl Plain {
    pub const fn number() -> u64 {
        1
    }
}
pub trait Journal {
    fn note(&self) -> u64;
}
pub fn after_them(first: u64) -> u64 {
    first
}
"""


class Functions(unittest.TestCase):
    def test_those_without_a_clause_that_says_what_they_do(self):
        found = [(one.owner, one.name) for one in unspecified.functions_in(SOURCE) if not one.is_specified]
        self.assertEqual([(None, "bare"), (None, "only_required"), (None, "empty"), ("Desk", "new"),
                          ("Plain", "number"), (None, "after_them")], found)

    def test_those_with_one(self):
        found = [(one.owner, one.name) for one in unspecified.functions_in(SOURCE) if one.is_specified]
        self.assertEqual([(None, "promised"), (None, "a_law"), ("Desk", "first")], found)

    def test_a_path_has_crate_module_type_and_name(self):
        for file, owner, wanted in (("lib.rt", None, "low::go"), ("main.rt", "Desk", "low::Desk::go"),
                                    ("views/fresh.rt", "Desk", "low::views::fresh::Desk::go"),
                                    ("views/mod.rt", None, "low::views::go")):
            with self.subTest(file):
                function = unspecified.Function(owner, "go", False)
                self.assertEqual(wanted, unspecified.path_of("low", pathlib.PurePath(file), function))

    def test_the_type_of_a_block_is_found_behind_its_parameters(self):
        for block, wanted in (("impl Clock {", "Clock"), ("impl<T> Clock<T> {", "Clock"),
                              ("pub trait Early {", "Early"),
                              ("impl<'a, F: Fn(&'a u64) -> Vec<u8>> Desk<'a, F> {", "Desk"),
                              ("impl<J: Names>\n    Keeper<J>\nwhere\n    J: Copy,\n{", "Keeper")):
            with self.subTest(block):
                self.assertEqual(wanted, unspecified.type_of(block))

    def test_tests_and_measures_are_left_out(self):
        crates = unspecified.crates()
        self.assertIn("album_stamps", crates)
        self.assertFalse([crate for crate in crates if crate.startswith(("album_tests_", "album_bench"))])


class Lists(unittest.TestCase):
    def test_a_list_has_its_lines_but_for_comments(self):
        self.assertEqual(["low::a", "low::b"], unspecified.kept("# Functions.\nlow::a\n\nlow::b\n"))

    def test_the_same_is_right(self):
        self.assertEqual([], list(unspecified.differences(["low::a", "low::b"], ["low::b", "low::a"])))

    def test_one_more_is_wrong(self):
        [wrong] = unspecified.differences(["low::a", "low::b"], ["low::a"])
        self.assertTrue(wrong.startswith("low::b promises nothing but safety"))

    def test_one_that_is_gone_is_wrong(self):
        [wrong] = unspecified.differences(["low::a"], ["low::a", "low::b"])
        self.assertTrue(wrong.startswith("low::b has a clause now, or is gone"))
