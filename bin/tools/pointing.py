"""Where in a statement the cause of a refusal stands: the token that a caret is put under."""

from collections.abc import Callable, Sequence

from piql.conditions import Tokens, after, begin_of, conditions_of
from piql.scripts import Token
from piql.writes import IN_BATCH, WRITES, write_of

Fields = tuple[str, ...]
# Behind these a list begins in which a column may stand once.
LISTS = ("SET", "WHERE", "BY", "SELECT", "FROM")
# Of a count that is outside its limit: the word that stands before what is counted.
COUNTED = {
    "key": "PRIMARY",
    "relations": "FROM",
    "predicates": "WHERE",
    "order": "ORDER",
    "selected": "SELECT",
    "tables": "TABLE",
    "counters": "COUNTER",
}
# The numbers that have a limit: the words that may stand before one, and how far before it.
NUMBERS = {
    "text": (("TEXT",), 2, 1000),
    "cardinality": (("LIMIT",), 1, 10_000),
    "stop": (("LIMIT", "PAGINATE"), 1, 1000),
}
MOST = 4
# The place of the column's name in an ALTER TABLE.
ADDED = 5
# The places of the table's name and of the list of columns in a CREATE COUNTER.
COUNTED_TABLE, COUNTED_COLUMNS = 4, 5


def nth_word(found: Tokens, word: str, number: int) -> Token | None:
    """The token of this keyword that stands there for the n-th time, from 1."""
    places = [token for token in found if token.is_word(word)]
    return places[number - 1] if number <= len(places) else None


def is_name(token: Token, name: str) -> bool:
    return token.kind == "word" and token.text.lower() == name


def is_counter(found: Tokens) -> bool:
    return found[0].is_word("CREATE") and found[1].is_word("COUNTER")


def name_of_table(found: Tokens, fields: Fields) -> Token | None:
    """The name where it is no alias of a column."""
    ends = [*found[1:], found[-1]]
    pairs = zip(found, ends)
    return next((token for token, then in pairs if is_name(token, fields[0]) and not then.is_mark(".")), None)


def name_of_unknown_table(found: Tokens, fields: Fields) -> Token | None:
    """The same where the statement may define something of this name."""
    return found[COUNTED_TABLE] if is_counter(found) else name_of_table(found, fields)


def name_of_column(found: Tokens, fields: Fields) -> Token | None:
    """The name behind an alias, or where it is none."""
    return name_of_table(found[COUNTED_COLUMNS if is_counter(found) else 2 :], fields)


def written_table(found: Tokens, fields: Fields) -> Token | None:
    """The name of the table that a write is of."""
    return found[1 if found[0].is_word("UPDATE") else 2]


def repeated(found: Tokens, fields: Fields) -> Token | None:
    """The name where it stands for the second time in one list, or where a column is added that is there."""
    if found[0].is_word("ALTER"):
        return found[ADDED]
    lists: list[int] = [0]
    for token in found[COUNTED_COLUMNS if is_counter(found) else 0 :]:
        if token.is_mark("("):
            lists.append(0)
        elif token.is_mark(")") and len(lists) > 1:
            lists.pop()
        elif token.is_word(*LISTS):
            lists[-1] = 0
        elif is_name(token, fields[0]):
            lists[-1] += 1
            if lists[-1] == 2:
                return token
    return None


def relations(found: Tokens) -> list[Token]:
    """The alias of each relation of FROM, or its table's name where it has none."""
    begin = after(found, "FROM")
    end = begin + after(found[begin:], "WHERE", "ORDER", "LIMIT", "PAGINATE")
    part = [*found[begin:end], found[-1]]
    ends = (",", ";", "JOIN", "WHERE", "ORDER", "LIMIT", "PAGINATE")
    return [token for token, then in zip(part, part[1:]) if token.kind == "word" and then.text.upper() in ends]


def alias(found: Tokens, fields: Fields) -> Token | None:
    """The second relation of this alias, or the one, or where a column has it."""
    same = [token for token in relations(found) if is_name(token, fields[0])]
    return same[min(len(same), 2) - 1] if same else next((it for it in found if is_name(it, fields[0])), None)


def predicate(found: Tokens, fields: Fields) -> Token | None:
    """The first token of the n-th predicate, or of the n-th condition of a write."""
    parts, number = conditions_of(found), int(fields[-1])
    return parts[number - 1][0] if number <= len(parts) and parts[number - 1] else None


def added(found: Tokens, fields: Fields) -> Token | None:
    """The column of an ADD."""
    triples = zip(found, found[1:], found[2:])
    is_number = (token for token, word, then in triples if word.is_word("ADD") and then.kind == "number")
    return next((token for token in is_number if is_name(token, fields[1])), None)


def values(found: Tokens, word: str | None) -> list[Token]:
    """The values in the parentheses behind a keyword, or in the first ones."""
    begin = after(found, word) if word else 0
    begin = next((i for i in range(begin, len(found)) if found[i].is_mark("(")), len(found))
    end = next((i for i in range(begin, len(found)) if found[i].is_mark(")")), len(found))
    return [token for token in found[begin + 1 : end] if not token.is_mark(",")]


def parameter(found: Tokens, fields: Fields) -> Token | None:
    """The n-th value of a RUN, or its query's name."""
    given, number = values(found, None), int(fields[0])
    return given[number - 1] if 0 < number <= len(given) else found[1]


def assigned(found: Tokens, name: str) -> Token | None:
    """The value that a column gets behind SET or WHERE, or the number of its ADD."""
    triples = zip(found, found[1:], found[2:])
    signs = ((token, sign.is_mark("=") or sign.is_word("ADD"), value) for token, sign, value in triples)
    return next((value for token, is_sign, value in signs if is_sign and is_name(token, name)), None)


def misfit(found: Tokens, fields: Fields, columns: Sequence[str]) -> Token | None:
    """The value of a column: in an INSERT by its place in the list of columns, or else in the table. A default."""
    if found[0].is_word("ALTER"):
        return found[-2]
    name = fields[1]
    if not found[0].is_word("INSERT"):
        return assigned(found, name)
    has_list = after(found, "VALUES") > 4 and found[3].is_mark("(")
    names = [token.text.lower() for token in values(found, None)] if has_list else list(columns)
    given = values(found, "VALUES")
    return given[names.index(name)] if name in names and names.index(name) < len(given) else None


def too_many_in_list(found: Tokens) -> Token | None:
    """The first limit with too many columns or none that fit, or the first column too many of a counter."""
    if is_counter(found):
        return values(found, None)[MOST]
    places = [i for i, token in enumerate(found) if token.is_word("CARDINALITY")]
    return next((found[i] for i in places if len(values(found[i:], None)) > MOST), None)


def count(found: Tokens, fields: Fields) -> Token | None:
    """What is too much or too little."""
    word = fields[0]
    if word in NUMBERS:
        words, back, most = NUMBERS[word]
        places = [i for i in range(back, len(found)) if found[i].kind == "number" and found[i - back].is_word(*words)]
        return next((found[i] for i in places if not 1 <= int(found[i].text) <= most), None)
    if word == "columns" and found[0].is_word("ALTER"):
        return found[ADDED]
    if word == "limit_columns":
        return too_many_in_list(found)
    if word == "writes":
        return next(iter(write_of(found, WRITES + 1)), None)
    if word == "predicates" and found[0].is_word("UPDATE", "DELETE"):
        return found[begin_of(found) - 1]
    if word in ("limits", "foreign"):
        return nth_word(found, "CARDINALITY" if word == "limits" else "FOREIGN", MOST + 1)
    return nth_word(found, COUNTED.get(word, ""), 1)


FINDERS: dict[str, Callable[[Tokens, Fields], Token | None]] = {
    "E201": name_of_table,
    "E202": name_of_unknown_table,
    "E203": name_of_column,
    "E204": repeated,
    "E205": lambda found, fields: nth_word(found, "FOREIGN", int(fields[0])),
    "E206": count,
    "E208": name_of_column,
    "E209": name_of_table,
    "E301": alias,
    "E302": predicate,
    "E303": lambda found, fields: next((token for token in found if token.is_mark("[")), None),
    "E304": alias,
    "E401": name_of_table,
    "E402": parameter,
    "E403": lambda found, fields: found[-2],
    "E404": lambda found, fields: nth_word(found, "AFTER", 1),
    "E405": lambda found, fields: found[1],
    "E406": name_of_table,
    "E502": name_of_table,
    "E503": name_of_table,
    "E504": lambda found, fields: nth_word(found, "WHERE", 1),
    "E505": name_of_table,
    "E507": name_of_table,
    "E508": name_of_table,
    "E510": written_table,
    "E511": predicate,
    "E514": added,
}


def pointed(code: str, fields: Fields, found: Tokens, columns: Sequence[str]) -> Token | None:
    """The token that a refusal speaks of. The columns are those of the table that it names."""
    if code == IN_BATCH:
        write = write_of(found, int(fields[0]))
        return (pointed(fields[1], fields[2:], write, columns) or write[0]) if write else None
    if code == "E501":
        return misfit(found, fields, columns)
    finder = FINDERS.get(code)
    return finder(found, fields) if finder else None
