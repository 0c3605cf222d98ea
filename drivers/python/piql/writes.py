"""The writes of a batch: where each begins and ends in its text."""

from collections.abc import Sequence

from .scripts import Token, tokens

# The words with which a write begins. They are keywords, so none of them is a name.
WORDS = ("INSERT", "UPDATE", "DELETE")
# The most writes of a batch.
WRITES = 256
# The refusal of a batch by one of its writes, whose place and own refusal stand behind it.
IN_BATCH = "E513"


def begins_of(found: Sequence[Token]) -> list[int]:
    """The places at which the writes of a batch begin, among its tokens."""
    return [i for i, token in enumerate(found) if token.is_word(*WORDS)]


def write_of(found: Sequence[Token], number: int) -> Sequence[Token]:
    """The n-th write of a batch, from 1, with the mark behind it; nothing where there are fewer."""
    begins = begins_of(found)
    return found[begins[number - 1] : [*begins, len(found)][number]] if 1 <= number <= len(begins) else ()


def write_at(text: str, number: int) -> str:
    """The text of the n-th write of a batch, from 1, without a mark behind it; nothing where there are fewer."""
    found = list(write_of(tokens(text), number))
    if found and (found[-1].is_mark(",") or found[-1].is_mark(";")):
        found.pop()
    return text[found[0].start : found[-1].end] if found else ""
