"""Tests of the picture of the layers, over a small repository."""

import unittest

from tools.layers import Layers, write_picture
from tools.repository import Repository
from tools.tests.copies import new_folder


class LayersTest(unittest.TestCase):
    def setUp(self) -> None:
        self.top = top = new_folder(self)
        (top / "crates.txt").write_text("low:\nside: low itoa\nmiddle: low\nhigh: low middle side\npq_tests_low: low\n")
        self.layers = Layers(Repository(top))

    def test_what_others_stand_on_is_left_out(self) -> None:
        self.assertEqual(self.layers.direct("high"), ["middle", "side"])
        self.assertEqual(self.layers.direct("low"), [])

    def test_levels_are_the_longest_ways_down(self) -> None:
        levels = {crate: self.layers.level(crate) for crate in self.layers.crates}
        self.assertEqual(levels, {"low": 0, "side": 1, "middle": 1, "high": 2})

    def test_the_picture_goes_from_the_top_down(self) -> None:
        wanted = "flowchart TD\n  high --> middle & side\n  side --> low\n  middle --> low\n  low\n"
        self.assertEqual(self.layers.picture(), wanted)

    def test_a_document_gets_the_picture(self) -> None:
        document = self.top / "A.md"
        document.write_text("before\n\n```mermaid\nold\n```\n\nbehind\n")
        write_picture(self.layers.repository, document)
        self.assertEqual(document.read_text(), f"before\n\n```mermaid\n{self.layers.picture()}```\n\nbehind\n")


if __name__ == "__main__":
    unittest.main()
