"""Scripts are cut and read as docs/LANGUAGE.md says."""

import unittest

import helpers  # noqa: F401 - it finds the package
from piql.scripts import Place, Token, first_token, is_one_piece, pieces, place_at, tokens

CUTS = [
    (b"", []),
    (b" ; -- a;\n;", []),
    (b"SHOW;", ["SHOW;"]),
    (b"SHOW; -- a 'b;\n SHOW", ["SHOW;", " -- a 'b;\n SHOW"]),
    (b"RUN q ('a;''-- b'); SHOW;", ["RUN q ('a;''-- b');", " SHOW;"]),
    (b"RUN q (5--3;\n);", ["RUN q (5--3;\n);"]),
    (b"a - b; '", ["a - b;", " '"]),
    (b"-';--;';", ["-';--;';"]),
]
TOKENS = [
    ("x.v >= [1: me]", ["x", ".", "v", ">=", "[", "1", ":", "me", "]"]),
    ("-5 - 5--x", ["-5", "-", "5"]),
    ("'it''s'<>'' ?", ["'it''s'", "<>", "''", "?"]),
    ("a'b", ["a", "'b"]),
    ("é", ["é"]),
]


class ScriptTest(unittest.TestCase):
    """Pieces, tokens and places."""

    def test_pieces(self) -> None:
        for script, wanted in CUTS:
            with self.subTest(script):
                found = list(pieces(script))
                self.assertEqual([script[it.start : it.end].decode() for it in found], wanted)
                self.assertEqual([it.number for it in found], list(range(1, len(found) + 1)))

    def test_whole_pieces(self) -> None:
        for script in (b"SHOW;", b"-- a\nSHOW;", b"RUN q (';');"):
            self.assertTrue(is_one_piece(script), script)
        for script in (b"", b";", b" -- a\n;", b"SHOW", b"SHOW;SHOW;", b"SHOW; ", b"';", b"-- ;"):
            self.assertFalse(is_one_piece(script), script)

    def test_a_long_white_piece_has_a_number(self) -> None:
        self.assertEqual(len(list(pieces(b" " * 65_535 + b";"))), 0)
        self.assertEqual(len(list(pieces(b" " * 65_536 + b";"))), 1)

    def test_tokens(self) -> None:
        for text, wanted in TOKENS:
            with self.subTest(text):
                self.assertEqual([token.text for token in tokens(text)], wanted)
        self.assertEqual(tokens("a -1"), [Token("word", "a", 0, 1), Token("number", "-1", 2, 4)])

    def test_places(self) -> None:
        self.assertEqual(place_at("ab\ncd", 0), Place(1, 1))
        self.assertEqual(place_at("ab\ncd", 4), Place(2, 2))
        self.assertEqual(first_token(b" -- a\n  SHOW;"), 8)
