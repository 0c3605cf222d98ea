"""The codes of rows, as docs/FORMATS.md has them. Whatever is no code of a row of its table is an InternalError."""

from .errors import InternalError
from .reports import Row, Value
from .schema import Column

# A row with a NULL has this added to its number of columns, and then four bytes whose bit i is column i's.
HAS_NULL = 0x40
MARKS_BYTES = 4
LONGEST = 4096


def take(code: bytes, at: int, count: int) -> bytes:
    """So many bytes of a code."""
    part = code[at : at + count]
    if len(part) < count:
        raise InternalError("a row's code ends within a column")
    return part


def read_text(column: Column, code: bytes, at: int) -> tuple[str, int]:
    """A text behind its length, and the place behind it."""
    size = int.from_bytes(take(code, at, 2))
    if column.size is None or size > column.size:
        raise InternalError(f"column {column.name} has a text that is longer than its type")
    try:
        return take(code, at + 2, size).decode(), at + 2 + size
    except UnicodeDecodeError as error:
        raise InternalError(f"column {column.name} has a text that is no UTF-8") from error


def read_cell(column: Column, code: bytes, at: int) -> tuple[Value, int]:
    """A value that is no NULL, and the place behind it."""
    if column.type == "INT":
        return int.from_bytes(take(code, at, 8), signed=True), at + 8
    if column.type == "TEXT":
        return read_text(column, code, at)
    byte = take(code, at, 1)[0]
    if byte > 1:
        raise InternalError(f"column {column.name} has neither true nor false")
    return byte == 1, at + 1


def read_head(columns: tuple[Column, ...], code: bytes) -> tuple[int, int, int]:
    """How many columns a code has, the marks of those that are NULL, and the place of the first one."""
    first = take(code, 0, 1)[0]
    has_null = first >= HAS_NULL
    count = first - has_null * HAS_NULL
    if not 0 < count <= len(columns) or not all(column.is_added for column in columns[count:]):
        raise InternalError(f"a row of {count} columns, where the table has {len(columns)}")
    if not has_null:
        return count, 0, 1
    marks = int.from_bytes(take(code, 1, MARKS_BYTES))
    may_be = sum(1 << place for place, column in enumerate(columns[:count]) if column.nullable)
    if marks == 0 or marks & ~may_be:
        raise InternalError("a row has NULL in a column that isn't nullable, or in none")
    return count, marks, 1 + MARKS_BYTES


def read_row(columns: tuple[Column, ...], code: bytes) -> Row:
    """The row of a stored row's code. The added columns that it leaves out have their defaults."""
    if len(code) > LONGEST:
        raise InternalError(f"a row's code of {len(code)} bytes")
    count, marks, at = read_head(columns, code)
    row: list[Value] = []
    for place, column in enumerate(columns[:count]):
        value: Value = None
        if not marks >> place & 1:
            value, at = read_cell(column, code, at)
        row.append(value)
    if at != len(code):
        raise InternalError("a row's code goes on behind its last column")
    last = columns[count - 1]
    if last.is_added and row[-1] == last.default:
        raise InternalError(f"a row's code ends with the default of {last.name}")
    return (*row, *(column.default for column in columns[count:]))
