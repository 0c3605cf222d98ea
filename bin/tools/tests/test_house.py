"""Tests of the counts of functions and clauses, over small crates."""

import pathlib
import unittest
import unittest.mock

from tools import house
from tools.repository import Repository
from tools.tests.copies import new_folder

LOW = """\
//! A crate.
pub fn plain(a: u8) -> u8 {
    a
}

pub(crate) fn loose<S: Store<L>, L: Ledger>(
    alloc: Global,
    rows: List<(u8, u8)>,
    run: &dyn Fn(u8, u8) -> u8,
    mut d: u8,
    e: u8,
    f: u8,
    g: u8,
    h: u8,
) -> u8
where
    S: Drop,
    requires { d < 2 }
    ensures same { S.content store.new
        ≡ S.content store.old }
{
    match d {
        _ => 1,
    }
}
"""
HIGH = """\
impl A {
    fn method(&self, alloc: Global) -> u8
        ensures same { S.content store.new
            ≡ S.content store.old }
        ensures { result ≡ catalog.now.tables }
    {
        2
    }

    fn law(&mut self)
        requires { d < 2 }
    {}
}

trait B {
    fn asked(&self, key: &[u8]) -> u8
        requires { 1 ≤ limit };

    fn bare(&self) -> u8;
}
"""


class HouseTest(unittest.TestCase):
    def setUp(self) -> None:
        self.top = new_folder(self)
        (self.top / "crates.txt").write_text("pq_low:\npq_high: pq_low\npq_tests_calls: pq_high\n")
        self.write("pq_low", LOW)
        self.write("pq_high", HIGH)
        self.write("pq_tests_calls", LOW)
        self.repository = Repository(self.top)

    def write(self, crate: str, text: str) -> None:
        folder: pathlib.Path = self.top / "crates" / crate / "src"
        folder.mkdir(parents=True)
        (folder / "lib.rt").write_text(text)

    def test_the_counts_leave_out_tests(self) -> None:
        expected = {
            "crates": 3,
            "functions": 6,
            "functions with 8 or more parameters": 1,
            "most parameters": 8,
            "clauses": 6,
            "lines of clauses": 8,
            "clauses that stand more than once": 4,
            "S.content store.": 4,
            "catalog.now.tables": 1,
        }
        self.assertEqual(house.counts(self.repository), expected)

    def test_parameters_are_counted_without_self_and_by_their_names(self) -> None:
        found = {it.name: it for path in house.sources(self.repository) for it in house.functions_of(path)}
        self.assertEqual(found["loose"].parameters, ("alloc", "rows", "run", "d", "e", "f", "g", "h"))
        self.assertEqual(found["method"].parameters, ("alloc",))
        self.assertEqual(found["bare"].parameters, ())

    def test_clauses_end_at_the_body(self) -> None:
        found = {it.name: it for path in house.sources(self.repository) for it in house.functions_of(path)}
        self.assertEqual(found["plain"].clauses, ())
        self.assertEqual(found["law"].clauses, ("requires { d < 2 }",))
        self.assertEqual(found["asked"].clauses, ("requires { 1 ≤ limit };",))
        self.assertEqual(found["loose"].clauses[1], "ensures same { S.content store.new ≡ S.content store.old }")

    def test_functions_with_many_parameters_are_listed(self) -> None:
        self.assertEqual(house.heaviest(self.repository), ["8 crates/pq_low/src/lib.rt loose"])

    def test_clauses_that_stand_more_than_once_are_listed_with_their_counts(self) -> None:
        stands = "ensures same { S.content store.new ≡ S.content store.old }"
        expected = [f"      2  {stands}", "      2  requires { d < 2 }"]
        self.assertEqual(sorted(house.doubles(self.repository)), expected)

    def test_no_more_are_listed_than_wanted(self) -> None:
        with unittest.mock.patch.object(house, "MOST_DOUBLES", 1):
            self.assertEqual(len(house.doubles(self.repository)), 1)


if __name__ == "__main__":
    unittest.main()
