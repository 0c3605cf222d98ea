"""Tests of what a disk may hold behind a kill, and of reading a record."""

import pathlib
import random
import sys
import unittest

sys.path.insert(0, str(pathlib.Path(__file__).resolve().parents[1]))

from images import SECTOR, Moments, make  # noqa: E402 - the trial stands beside the tests
from recorded import Step, steps  # noqa: E402

OLD = b"o" * 3 * SECTOR
SYNC, FAILED_SYNC = Step("s", "d", 0), Step("e", "d", 0)
DRAWS = 200


def write(at: int, data: bytes, file: str = "d") -> Step:
    return Step("w", file, at, data)


def images(*passed: Step) -> set[bytes]:
    """What the database may hold behind these steps, as far as it is drawn."""
    found = set()
    for seed in range(DRAWS):
        moments = Moments(OLD, random.Random(seed))
        for step in passed:
            moments.pass_step(step)
        found.add(moments.image().files["d"])
    return found


class MomentsTest(unittest.TestCase):
    def test_what_was_synced_is_there(self) -> None:
        self.assertEqual(images(write(1, b"new"), SYNC), {OLD[:1] + b"new" + OLD[4:]})

    def test_a_write_is_there_or_not(self) -> None:
        self.assertEqual(images(write(1, b"new")), {OLD, OLD[:1] + b"new" + OLD[4:]})

    def test_each_sector_of_a_write_is_old_or_new(self) -> None:
        parts = [OLD[:SECTOR], b"n" * SECTOR]
        wanted = {a + b + OLD[:SECTOR] for a in parts for b in parts}
        self.assertEqual(images(write(0, b"n" * 2 * SECTOR)), wanted)

    def test_a_later_write_may_be_there_alone(self) -> None:
        self.assertIn(OLD[:9] + b"b" + OLD[10:], images(write(1, b"a"), write(9, b"b")))

    def test_a_sync_of_the_log_leaves_the_database(self) -> None:
        self.assertEqual(images(write(1, b"new"), Step("s", "l", 0)), images(write(1, b"new")))

    def test_what_a_failed_sync_lost_no_later_one_brings(self) -> None:
        self.assertEqual(images(write(1, b"new"), FAILED_SYNC, SYNC), {OLD, OLD[:1] + b"new" + OLD[4:]})

    def test_each_file_and_what_was_told_are_in_an_image(self) -> None:
        moments = Moments(OLD, random.Random(1))
        for step in (write(0, b"log", "l"), Step("s", "l", 0), Step("o", "", 0, b"1 ok\n")):
            moments.pass_step(step)
        self.assertFalse(moments.has_losses())
        image = moments.image()
        self.assertEqual(image.files, {"d": OLD, "l": b"log"})
        self.assertEqual(image.told, b"1 ok\n")
        moments.pass_step(Step("c", "d", 5))
        self.assertTrue(moments.has_losses())

    def test_between_the_end_and_a_write_behind_it_are_zeros(self) -> None:
        there = bytearray(b"ab")
        make(there, write(4, b"c"))
        make(there, Step("c", "d", 7))
        self.assertEqual(bytes(there), b"ab\0\0c\0\0")


class RecordTest(unittest.TestCase):
    def test_a_record_is_read_step_by_step(self) -> None:
        record = b"w l 32 3\na\nbs l\no 5\n1 ok\nc d 0\ne d\n"
        wanted = [
            Step("w", "l", 32, b"a\nb"),
            Step("s", "l", 0),
            Step("o", "", 0, b"1 ok\n"),
            Step("c", "d", 0),
            Step("e", "d", 0),
        ]
        self.assertEqual(list(steps(record)), wanted)

    def test_another_line_is_no_step(self) -> None:
        with self.assertRaises(ValueError):
            list(steps(b"x d 0\n"))


if __name__ == "__main__":
    unittest.main()
