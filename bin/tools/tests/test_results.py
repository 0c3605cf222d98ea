"""Tests of the file of results, and of which of them are stale."""

import pathlib
import tempfile
import unittest

from tools import results
from tools.repository import Repository
from tools.results import Result

TOOLCHAIN = "kit-1 logic 0a"


def result(crate: str, sources: str = "00", refused: int = 2) -> Result:
    return Result(crate, refused, 2, "0a1b2c3d", sources, "2026-01-02T03:04Z", TOOLCHAIN)


class ResultsTest(unittest.TestCase):
    def setUp(self) -> None:
        folder = tempfile.TemporaryDirectory()
        self.addCleanup(folder.cleanup)
        self.top = pathlib.Path(folder.name)
        self.path = self.top / "RESULTS"

    def test_a_line_is_read_as_it_is_written(self) -> None:
        line = "low: 1 of 2 refused at 0a1b2c3d, sources 0f, 2026-01-02T03:04Z, kit-1 logic 0a"
        self.assertEqual(result("low", "0f", 1).line(), line)
        self.assertEqual(Result.of_line(line), result("low", "0f", 1))
        changed = Result.of_line(line.replace(",", " with changes,", 1))
        self.assertEqual(changed and changed.revision, "0a1b2c3d with changes")
        for text in results.HEAD.splitlines():
            self.assertIsNone(Result.of_line(text))

    def test_a_result_takes_the_place_of_the_last_one(self) -> None:
        for one in (result("high"), result("low"), result("gone"), result("low", "11")):
            results.keep(self.path, one, ["low", "middle", "high", "gone"])
        results.keep(self.path, result("middle"), ["low", "middle", "high"])
        lines = [result("low", "11").line(), result("middle").line(), result("high").line()]
        self.assertEqual(self.path.read_text(), results.HEAD + "\n".join(lines) + "\n")

    def test_results_are_stale_where_anything_changed(self) -> None:
        (self.top / "crates.txt").write_text("a:\nb:\nc:\nd:\ne:\n")
        for crate in "abcd":
            (self.top / "mutants" / crate).mkdir(parents=True)
            (self.top / "mutants" / crate / "x.edit").write_text("file: src/lib.rt\n")
        (self.top / "crates" / "e" / "must-fail").mkdir(parents=True)
        (self.top / "crates" / "e" / "must-fail" / "x.edit").write_text("file: src/lib.rt\n")
        repository = Repository(self.top)
        known = {
            "a": result("a", repository.source_sum("a")),
            "b": result("b", "00"),
            "c": result("c", repository.source_sum("c"), 1),
        }
        wanted = ["b: changed since 0a1b2c3d, 2026-01-02T03:04Z", "c: 1 of 2 refused", "d: not tried yet"]
        self.assertEqual(results.stale(repository, known), wanted)


if __name__ == "__main__":
    unittest.main()
