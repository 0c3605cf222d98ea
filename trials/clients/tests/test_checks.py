"""Tests of what the trial of clients finds: right codes and steps pass, and each wrong one is told."""

import pathlib
import sys
import unittest
from dataclasses import replace

sys.path.insert(0, str(pathlib.Path(__file__).resolve().parents[1]))

from cases import GROUPED, PLAIN, TABLES, cases, insert, update  # noqa: E402 - the trial stands beside the tests
from drawn import BELOW, Chance  # noqa: E402
from moments import Moment, behind, check_end, first_moment  # noqa: E402
from pairs import Breach, Content, entry_key, held_value, key_code, read_key, read_row, row_code, row_key  # noqa: E402
from player import Call, Case, Step  # noqa: E402
from tables import Cond, Table, Write  # noqa: E402

NULLABLE = Table("n", 1, ("id", "v", "w"), nullable=(1, 2))
FREE = {b"\x05": b"\x05"}


def rows(*values: tuple[int, ...]) -> dict[bytes, bytes]:
    """The pairs of rows of the table with a limit, with their entries."""
    pairs = {row_key((2, row[:1])): row_code(row) for row in values}
    return pairs | {entry_key(2, (1, (row[1], row[0]))): b"" for row in values}


class Codes(unittest.TestCase):
    def test_keys_are_those_of_the_formats(self) -> None:
        shown = {-(2**63): "100000000000000000", 0: "108000000000000000", 2**63 - 1: "10ffffffffffffffff", None: "08"}
        for value, code in shown.items():
            self.assertEqual(key_code((value,)).hex(), code)
            self.assertEqual(read_key(bytes.fromhex(code)), (value,))
        self.assertEqual(row_key((1, (7,))).hex(), "0201108000000000000007")
        self.assertRaises(Breach, read_key, b"\x11")

    def test_rows_are_those_of_the_formats(self) -> None:
        self.assertEqual(row_code((7, 42)).hex(), "020000000000000007000000000000002a")
        coded = row_code((1, None, -1))
        self.assertEqual(coded.hex(), "43000000020000000000000001ffffffffffffffff")
        self.assertEqual(read_row(NULLABLE, coded), (1, None, -1))
        for wrong in ("0300", "43000000000000000000000001", "43000000010000000000000001" + "00" * 8):
            self.assertRaises(Breach, read_row, NULLABLE, bytes.fromhex(wrong))

    def test_held_values_have_client_write_and_row(self) -> None:
        self.assertEqual(held_value(2, 3, None).hex(), "800000000200000003")
        self.assertEqual(held_value(1, 1, (7,)).hex(), "800000000100000001010000000000000007")


class Tables(unittest.TestCase):
    def test_indexes_are_made_for_limits_and_then_foreign_keys(self) -> None:
        self.assertEqual((GROUPED.indexes, BELOW.indexes), (((1, 0),), ((2, 0, 1),)))
        self.assertEqual((BELOW.access((0,)), GROUPED.access((1,))), (0, 1))

    def test_calls_are_counted_as_in_the_model(self) -> None:
        writes = insert(GROUPED, (1, 2, 3)), update(GROUPED, 1, g=2), update(GROUPED, 1, v=2)
        self.assertEqual([write.most_calls(TABLES) for write in writes], [8, 9, 4])

    def test_conditions_and_sums_are_tested_on_the_row_that_is_there(self) -> None:
        write = Write("UPDATE", GROUPED, (1,), ((1, 7),), ((2, 5),), (Cond(1, ">=", 2), Cond(2)))
        self.assertEqual(write.text(), "UPDATE t SET g = 7, v ADD 5 WHERE id = 1 IF g >= 2 AND v IS NULL;")
        self.assertEqual(write.refused_at_read(None), "E504 t")
        for row, told in (((1, 1, None), "E511 t 1"), ((1, None, None), "E511 t 1"), ((1, 2, 3), "E511 t 2")):
            self.assertEqual(write.refused_at_read(row), told)
        self.assertEqual(write.refused_at_read((1, 2, None)), "E514 t v")
        more = replace(write, adds=((2, 2**63 - 1),), conds=())
        self.assertEqual([more.refused_at_read((1, 2, v)) for v in (0, 1, None)], [None, "E514 t v", "E514 t v"])
        self.assertEqual(replace(write, conds=()).new_row((1, 2, 3)), (1, 7, 8))

    def test_cases_have_names_of_their_own(self) -> None:
        names = [case.name for case in cases()]
        self.assertEqual(len(names), len(set(names)))

    def test_the_generator_is_the_one_of_its_name(self) -> None:
        chance = Chance(1)
        chance.held = 1
        # 1 xor 1 << 13 is 8193; the shift by 7 gives 8193 xor 64 = 8257; by 17, 8257 xor 8257 << 17.
        chance.below(1)
        self.assertEqual(chance.held, 8257 ^ 8257 << 17)


class Contents(unittest.TestCase):
    def assert_breach(self, pairs: dict[bytes, bytes], words: str) -> None:
        with self.assertRaisesRegex(Breach, words):
            Content(pairs, TABLES)

    def test_rows_with_their_entries_are_taken(self) -> None:
        self.assertEqual(Content(rows((1, 2, 0), (3, 2, 0)) | FREE, TABLES).rows[2, (3,)], (3, 2, 0))

    def test_a_group_over_its_limit_is_found(self) -> None:
        self.assert_breach(rows((1, 2, 0), (3, 2, 0), (4, 2, 0)), "the limit is 2")

    def test_a_missing_entry_is_found(self) -> None:
        pairs = rows((1, 2, 0))
        del pairs[entry_key(2, (1, (2, 1)))]
        self.assert_breach(pairs, "has no entry")

    def test_an_entry_that_nobody_has_is_found(self) -> None:
        self.assert_breach(rows((1, 2, 0)) | {entry_key(2, (1, (5, 1))): b""}, "nobody holds")
        self.assert_breach({entry_key(2, (1, (5, 1))): b""}, "nobody holds")

    def test_a_row_at_another_key_is_found(self) -> None:
        self.assert_breach({row_key((1, (3,))): row_code((4, 0))}, "is at the key")


class Steps(unittest.TestCase):
    """An INSERT of (1, 2) by a client alone, step by step."""

    case = Case("one", (PLAIN,), (), ((insert(PLAIN, (1, 2)),),))
    key, row = row_key((1, (1,))), (1, 2)

    def content(self, value: bytes | None) -> Content:
        return Content(FREE if value is None else {self.key: value, **FREE}, (PLAIN,))

    def steps(self) -> list[tuple[Step, Content]]:
        held, put, free = held_value(1, 1, None), held_value(1, 1, self.row), row_code(self.row)
        self.first = self.content(None)
        calls = [
            (Call("get", self.key), "moved", self.first),
            (Call("write", self.key, guard=b"none", new=held, answer=True), "moved", self.content(held)),
            (Call("write", self.key, guard=b"=" + held, new=put, answer=True), "put 1 1", self.content(put)),
            (Call("write", self.key, guard=b"=" + put, new=free, answer=True), "told 1 1 done", self.content(free)),
        ]
        return [(Step(0, (call,), said), content) for call, said, content in calls]

    def follow(self, steps: list[tuple[Step, Content]]) -> Moment:
        moment = first_moment(self.case, self.first)
        for step, after in steps:
            moment = behind(self.case, moment, step, after)
        return moment

    def assert_breach(self, place: int, words: str, **changes: object) -> None:
        """A step with something changed, and those before it."""
        steps = self.steps()[: place + 1]
        step, after = steps[place]
        call = replace(step.calls[0], **{name: value for name, value in changes.items() if name != "said"})
        steps[place] = Step(0, (call,), str(changes.get("said", step.said))), after
        with self.assertRaisesRegex(Breach, words):
            self.follow(steps)

    def test_right_steps_are_taken(self) -> None:
        last = self.follow(self.steps())
        check_end(self.case, self.first, last)
        self.assertIs(behind(self.case, last, Step(0, (), "over"), last.content), last)

    def test_a_put_that_is_told_as_done_is_found(self) -> None:
        self.assert_breach(2, "at a put", said="told 1 1 done")

    def test_a_write_without_its_guard_is_found(self) -> None:
        self.assert_breach(1, "without the guard", guard=b"any")
        self.assert_breach(2, "without its guard", guard=b"any")
        self.assert_breach(3, "without its guard", guard=b"any")

    def test_another_end_than_the_free_shows_is_found(self) -> None:
        self.assert_breach(3, "for `told 1 1 done`", said="told 1 1 busy")
        self.assert_breach(0, "for `moved`", said="told 1 1 refused E503 p")

    def test_two_calls_are_found(self) -> None:
        steps = self.steps()
        steps[0] = replace(steps[0][0], calls=steps[0][0].calls * 2), steps[0][1]
        with self.assertRaisesRegex(Breach, "2 calls"):
            self.follow(steps)

    def test_a_step_behind_the_end_is_found(self) -> None:
        steps = self.steps()
        with self.assertRaisesRegex(Breach, "when it is over"):
            self.follow([*steps, (Step(0, (), "moved"), steps[-1][1])])

    def test_an_end_before_the_end_is_found(self) -> None:
        moment = self.follow(self.steps()[:3])
        with self.assertRaisesRegex(Breach, "isn't over"):
            check_end(self.case, self.first, moment)


if __name__ == "__main__":
    unittest.main()
