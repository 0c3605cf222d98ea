"""The stored runs at a host: their frames carry the script and the reports of an example."""

import unittest
from collections.abc import Iterator

from tools.repository import TOP

READ, REPORT, PLACES = 1, 2, 3
RUNS = {"piql_host": "cart", "piql_nodes": "feed"}


def frames(data: bytes) -> Iterator[bytes]:
    """What stands behind the length of each frame."""
    while data:
        end = 4 + int.from_bytes(data[:4], "big")
        yield data[4:end]
        data = data[end:]


class StoredFrames(unittest.TestCase):
    """The requests are the stored output, the answers the stored input: each request has one answer."""

    def test_they_carry_an_example(self) -> None:
        for crate, name in RUNS.items():
            with self.subTest(crate):
                folder, example = TOP / "crates" / crate, TOP / "examples" / name
                requests = list(frames((folder / "stdout").read_bytes()))
                answers = list(frames((folder / "stdin").read_bytes()))
                both = list(zip(requests, answers, strict=True))
                script = b"".join(answer[2:] for request, answer in both if request[1] == READ)
                reports = b"".join(request[3:] for request in requests if request[1] == REPORT)
                self.assertEqual(script, example.with_suffix(".piql").read_bytes())
                self.assertEqual(reports, example.with_suffix(".out").read_bytes())

    def test_nodes_are_asked_for_once_and_first(self) -> None:
        for crate, asked in (("piql_host", []), ("piql_nodes", [0])):
            with self.subTest(crate):
                requests = frames((TOP / "crates" / crate / "stdout").read_bytes())
                self.assertEqual([place for place, request in enumerate(requests) if request[1] == PLACES], asked)


if __name__ == "__main__":
    unittest.main()
