"""The environment that an engine is begun with."""

import os
import unittest
from unittest import mock

from helpers import StoreCase, engine_of

from piql.allocator import engine_environment

WORD = "glibc.malloc.tcache_count=127"


class EnvironmentTest(unittest.TestCase):
    def word_over(self, given: dict[str, str]) -> str:
        with mock.patch.dict(os.environ, given):
            return engine_environment()["GLIBC_TUNABLES"]

    def test_the_word_stands_behind_others(self) -> None:
        with mock.patch.dict(os.environ):
            os.environ.pop("GLIBC_TUNABLES", None)
            self.assertEqual(engine_environment(), {**os.environ, "GLIBC_TUNABLES": WORD})
        self.assertEqual(self.word_over({"GLIBC_TUNABLES": "glibc.malloc.perturb=1"}), f"glibc.malloc.perturb=1:{WORD}")

    def test_what_the_site_says_stands(self) -> None:
        own = "glibc.malloc.tcache_count=0"
        self.assertEqual(self.word_over({"GLIBC_TUNABLES": own}), own)


class EngineTest(StoreCase):
    """Over a file."""

    script = "CREATE TABLE m (id INT, PRIMARY KEY (id));"

    def test_an_engine_has_the_word(self) -> None:
        with open(f"/proc/{engine_of(self.connection).process.pid}/environ", "rb") as file:
            self.assertIn(f"GLIBC_TUNABLES={WORD}".encode(), file.read().split(b"\0"))


if __name__ == "__main__":
    unittest.main()
