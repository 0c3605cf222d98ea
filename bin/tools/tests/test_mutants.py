"""Tests of how wrong bodies are tried, with a small program in the place of the toolchain."""

import contextlib
import io
import os
import pathlib
import shutil
import subprocess
import tempfile
import unittest
from unittest import mock

from tools import mutants, results
from tools.repository import Repository

# It says what the toolchain says of each edit: by its text, that it is refused, not refused, or can't be applied.
TOOL = """#!/bin/sh
[ "$1" = version ] && echo kit-1 && exit
[ "$1" = ci ] || exit 9
[ -e "crates/$2/src/flaw" ] && echo "rt: $2 NOT PROVED" && exit 1
echo "rt: must-fail another/one.edit: refused, as it must be: another crate"
status=0
for edit in crates/"$2"/must-fail/*.edit; do
    read -r word < "$edit"
    case $word in
    good) said='refused, as it must be: note: src/lib.rt:1:1: it is not proved (`returns-clause-sum`)' ;;
    weak) said='NOT REFUSED: the crate is still proved with this edit'; status=1 ;;
    *) said='BAD EDIT: it has no pair'; status=1 ;;
    esac
    echo "rt: must-fail $2/${edit##*/}: $said"
done
exit $status
"""


@unittest.skipUnless(shutil.which("git"), "git is missing")
class MutantsTest(unittest.TestCase):
    def setUp(self) -> None:
        folder = tempfile.TemporaryDirectory()
        self.addCleanup(folder.cleanup)
        self.top = pathlib.Path(folder.name, "top")
        tool = pathlib.Path(folder.name, "tool", "rt")
        self.write(tool, TOOL)
        tool.chmod(0o755)
        self.write(self.top / "crates.txt", "low:\nhigh: low\n")
        self.write(self.top / "crates/low/src/lib.rt", "")
        self.write(self.top / "crates/low/out/rlib/stamp", "kept")
        self.write(self.top / ".gitignore", "out/\n")
        self.git("init", "--quiet")
        self.git("add", ".")
        self.git("-c", "user.name=x", "-c", "user.email=x@x", "commit", "--quiet", "--message=x")
        self.path = self.top / "mutants" / "RESULTS"
        for changed in (
            mock.patch.object(mutants, "TOP", self.top),
            mock.patch.object(mutants, "RESULTS", self.path),
            mock.patch.object(mutants, "Repository", lambda top=self.top: Repository(top)),
            mock.patch.dict(os.environ, PATH=f"{tool.parent}:{os.environ['PATH']}"),
        ):
            changed.start()
            self.addCleanup(changed.stop)

    def git(self, *words: str) -> str:
        done = subprocess.run(["git", *words], cwd=self.top, capture_output=True, text=True, check=True)
        return done.stdout.strip()

    @staticmethod
    def write(path: pathlib.Path, text: str) -> None:
        path.parent.mkdir(parents=True, exist_ok=True)
        path.write_text(text)

    def edit(self, crate: str, name: str, word: str) -> None:
        self.write(self.top / "mutants" / crate / f"{name}.edit", word + "\n")

    def run_main(self, *words: str) -> tuple[int, str]:
        said = io.StringIO()
        with contextlib.redirect_stdout(said), contextlib.redirect_stderr(said):
            status = mutants.main(list(words))
        return status, said.getvalue()

    def test_all_are_refused_and_kept(self) -> None:
        self.edit("high", "one", "good")
        self.write(self.top / "crates/high/src/lib.rt", "")
        self.write(self.top / "crates/high/must-fail/two.edit", "good\n")
        status, said = self.run_main()
        self.assertEqual(status, 0)
        self.assertIn("high/one: refused, as it must be: note: src/lib.rt:1:1", said)
        self.assertIn("high/two: refused", said)
        kept = results.read(self.path)["high"]
        self.assertEqual((kept.refused, kept.tried, kept.toolchain), (2, 2, "kit-1"))
        self.assertEqual(self.run_main("--stale"), (0, ""))
        self.write(self.top / "crates/low/src/lib.rt", "// other")
        self.assertEqual(self.run_main("--stale")[0], 1)

    def test_a_result_is_of_a_revision(self) -> None:
        revision = self.git("rev-parse", "--short=8", "HEAD")
        self.assertEqual(mutants.revision_of(self.top), revision)
        self.write(self.top / "README.md", "another")
        self.write(self.path, results.HEAD)
        self.assertEqual(mutants.revision_of(self.top), revision)
        self.edit("low", "one", "good")
        self.run_main("low")
        self.assertEqual(results.read(self.path)["low"].revision, f"{revision} with changes")

    def test_what_is_not_refused_fails(self) -> None:
        for word in ("weak", "unread"):
            self.edit("low", "one", "good")
            self.edit("low", "two", word)
            status, said = self.run_main("low")
            self.assertEqual(status, 1, word)
            self.assertIn("low/two: ", said)
            self.assertIn("not all refused: low", said)
            self.assertEqual(self.run_main("--stale")[0], 1)

    def test_over_a_crate_that_is_not_proved_nothing_is_tried(self) -> None:
        self.edit("low", "one", "good")
        self.write(self.top / "crates/low/src/flaw", "")
        status, said = self.run_main("low")
        self.assertEqual((status, "no edit was tried" in said, "low NOT PROVED" in said), (1, True, True))
        self.assertEqual(results.read(self.path)["low"].refused, 0)

    def test_a_crate_without_edits_is_named(self) -> None:
        self.edit("low", "one", "good")
        status, said = self.run_main("low", "high")
        self.assertEqual((status, "high" in said), (2, True))

    def test_some_alone_are_tried_and_not_kept(self) -> None:
        self.edit("low", "one", "good")
        self.edit("low", "two", "weak")
        status, said = self.run_main("low", "--only", "one")
        self.assertEqual((status, "low/one: refused" in said, "low/two" in said), (0, True, False))
        self.assertEqual(results.read(self.path), {})
        self.assertEqual(self.run_main("low", "--only", "two")[0], 1)
        for words in (["low", "--only"], ["--only", "one"], ["low", "--only", "three"]):
            self.assertEqual(self.run_main(*words)[0], 2, words)

    def test_one_name_stands_once(self) -> None:
        self.edit("low", "one", "good")
        self.write(self.top / "crates/low/must-fail/one.edit", "good\n")
        self.assertRaises(SystemExit, self.run_main)

    def test_the_checkout_stays_as_it_is(self) -> None:
        self.edit("low", "one", "good")
        self.run_main()
        self.assertFalse((self.top / "crates/low/must-fail").exists())
        self.assertEqual((self.top / "crates/low/out/rlib/stamp").read_text(), "kept")


def misplaced(repository: Repository, crate: str, edit: pathlib.Path) -> list[str]:
    """The old lines of a wrong body that don't stand once in their file as its earlier pairs left it."""
    found, texts, name, old = [], {}, "", ""
    for line in edit.read_text().splitlines():
        word, _, text = line.partition(":")
        text = text.removeprefix(" ")
        if word == "file":
            name = text
            texts[name] = (repository.folder(crate) / name).read_text()
        elif word == "old":
            old = text
            found += [old] if texts[name].count(old) != 1 else []
        else:
            texts[name] = texts[name].replace(old, text)
    return found


class WrongBodiesOfTheRepositoryTest(unittest.TestCase):
    def test_each_has_a_place(self) -> None:
        repository = Repository()
        for crate in repository.uses:
            for edit in repository.edits(crate):
                with self.subTest(f"{crate}/{edit.stem}"):
                    self.assertEqual(misplaced(repository, crate, edit), [])


if __name__ == "__main__":
    unittest.main()
