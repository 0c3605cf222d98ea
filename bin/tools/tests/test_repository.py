"""Tests of what is read of a repository, over small ones in temporary folders."""

import pathlib
import tempfile
import unittest

from tools.repository import Repository


class RepositoryTest(unittest.TestCase):
    def setUp(self) -> None:
        folder = tempfile.TemporaryDirectory()
        self.addCleanup(folder.cleanup)
        self.top = pathlib.Path(folder.name)
        self.write("crates.txt", "# crates\nlow:\nmiddle: low itoa\nhigh tests_may=Wait: middle\nside: low\n")
        for crate in ("low", "middle", "high", "side"):
            self.write(f"crates/{crate}/src/lib.rt", f"//! {crate}")

    def write(self, name: str, text: str) -> None:
        path = self.top / name
        path.parent.mkdir(parents=True, exist_ok=True)
        path.write_text(text)

    def sums(self) -> dict[str, str]:
        repository = Repository(self.top)
        return {crate: repository.source_sum(crate) for crate in repository.uses}

    def changed_by(self, name: str, text: str) -> set[str]:
        """The crates whose sum another text of a file changes."""
        before = self.sums()
        self.write(name, text)
        after = self.sums()
        return {crate for crate in before if before[crate] != after[crate]}

    def test_a_crate_stands_on_all_below_it(self) -> None:
        repository = Repository(self.top)
        self.assertEqual(repository.below("high"), {"low", "middle"})
        self.assertEqual(repository.below("low"), set())
        self.assertEqual(repository.own_uses("middle"), ["low"])

    def test_a_source_changes_the_crates_above_it(self) -> None:
        self.assertEqual(self.changed_by("crates/low/src/lib.rt", "//! other"), {"low", "middle", "high", "side"})
        self.assertEqual(self.changed_by("crates/middle/proofs/A.antt", "a"), {"middle", "high"})
        self.assertEqual(self.changed_by("crates/high/specs/B.antt", "b"), {"high"})

    def test_an_edit_changes_its_crate_alone(self) -> None:
        self.assertEqual(self.changed_by("mutants/low/a.edit", "file: src/lib.rt"), {"low"})
        self.assertEqual(self.changed_by("crates/middle/must-fail/a.edit", "file: src/lib.rt"), {"middle"})

    def test_what_is_kept_changes_nothing(self) -> None:
        self.assertEqual(self.changed_by("crates/low/out/rlib/stamp", "x"), set())
        self.assertEqual(self.changed_by("crates/low/data/a.piql", "x"), set())

    def test_edits_stand_in_two_places(self) -> None:
        self.write("mutants/low/b.edit", "")
        self.write("crates/low/must-fail/c.edit", "")
        self.write("crates/low/must-fail/d.edit.md", "")
        repository = Repository(self.top)
        self.assertEqual([path.name for path in repository.edits("low")], ["c.edit", "b.edit"])
        self.assertEqual(repository.crates_with_edits(), ["low"])


if __name__ == "__main__":
    unittest.main()
