"""The predicates of a query and the conditions of a write: where they stand, and how a message tells one of them."""

from collections.abc import Sequence

from .scripts import Token

Tokens = Sequence[Token]
COMPARISONS = ("=", "<>", "<", "<=", ">", ">=")
# Behind the predicates of a query.
ENDS = ("ORDER", "LIMIT", "PAGINATE")
# How many tokens a column of a key has behind WHERE: its name, the mark and the value.
ASSIGNED = 3


def after(found: Tokens, *words: str) -> int:
    """The place behind the first of these keywords, or the end."""
    return next((i + 1 for i, token in enumerate(found) if token.is_word(*words)), len(found))


def begin_of(found: Tokens) -> int:
    """Where the predicates of a query begin, or the conditions of a write behind its IF; the end where it has none."""
    at = after(found, "WHERE")
    if not found[0].is_word("UPDATE", "DELETE"):
        return at
    # IF may be the name of a column too, so the key is passed over as a key.
    at += ASSIGNED
    while at < len(found) and found[at].is_word("AND"):
        at += ASSIGNED + 1
    return at + 1 if at < len(found) and found[at].is_word("IF") else len(found)


def conditions_of(found: Tokens) -> list[list[Token]]:
    """The predicates of a query, or the conditions of a write, each as its tokens."""
    parts: list[list[Token]] = [[]]
    for token in found[begin_of(found) :]:
        if token.is_word(*ENDS) or token.is_mark(";"):
            break
        if token.is_word("AND"):
            parts.append([])
        else:
            parts[-1].append(token)
    return parts if parts[-1] else parts[:-1]


def is_comparison(token: Token) -> bool:
    """Whether the token is one of the six marks that compare."""
    return token.kind == "mark" and token.text in COMPARISONS


def is_place(operand: Tokens) -> bool:
    """Whether what a column is compared with is the place of a value: a ? or a parameter."""
    return bool(operand) and (operand[0].text == "?" or operand[0].is_mark("["))


def is_constant(operand: Tokens) -> bool:
    """Whether it is a value, or the place of one, and no column."""
    return is_place(operand) or bool(operand) and (operand[0].kind != "word" or operand[0].is_word("TRUE", "FALSE"))


def operand_of(condition: Tokens) -> Tokens:
    """What stands behind the comparison; nothing where there is none."""
    at = next((i for i, token in enumerate(condition) if is_comparison(token)), len(condition))
    return condition[at + 1 :]


def shown(condition: Tokens) -> str:
    """A condition for a message, with ? in place of its value: no message has one."""
    operand = operand_of(condition)
    if not operand:
        return f"{joined(condition[:-2])} IS NULL"
    *left, comparison = condition[: len(condition) - len(operand)]
    return f"{joined(left)} {comparison.text} {'?' if is_constant(operand) else joined(operand)}"


def joined(found: Tokens) -> str:
    """A column as it is written."""
    return "".join(token.text for token in found)
