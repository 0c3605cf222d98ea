"""Goes over a whole store at one moment: every definition, row, entry, counter, limit and foreign key.

What differs is told by its key, in hexadecimal digits, and never by a value. A write that was cut off and an index that
is being filled are no differences: the store is looked at as the next opening leaves it.
"""

import contextlib
import os
import tempfile
from collections.abc import Iterator
from typing import NamedTuple, TextIO

from .changes import read_changes
from .checks import check_outside, check_pairs_of, space
from .counting import counted
from .errors import InternalError, OperationalError
from .findings import Findings
from .hosts.backend import Fault
from .hosts.urls import is_url, open_reading
from .layout import Layout, Program, WrongDefinition, layout_of
from .plain import plain_path
from .socketlink import SocketLink
from .sources import FileSource, ReadingSource, Settled, Source
from .stored import DEFINITIONS, FILLING, INTENT, READY, format_of, opened

INTENT_KEY = bytes([INTENT])
UNSEEN = "rows and what belongs to them aren't looked at: that needs all definitions"


class Verified(NamedTuple):
    """How many pairs were looked at, and how many differences were found."""

    pairs: int
    differences: int


def text_of(value: bytes) -> str | None:
    """The text of a definition's value, if this version knows its format and its mark."""
    if len(value) < 3 or value[0] != format_of(value[2:]) or value[1] not in (READY, FILLING):
        return None
    try:
        return value[2:].decode()
    except UnicodeDecodeError:
        return None


def read_definitions(source: Source, findings: Findings) -> tuple[list[str], bool]:
    """The texts of all definitions, and whether the index of the last one is being filled."""
    texts: list[str] = []
    is_filling = False
    for key, value in findings.counted(space(source, DEFINITIONS)):
        number = len(texts) + 1
        text = text_of(value)
        if key != bytes([DEFINITIONS]) + number.to_bytes(2) or text is None or is_filling:
            findings.add(key, "no definition of this version, or not the next one")
            raise WrongDefinition
        texts.append(text)
        is_filling = value[1] == FILLING
    return texts, is_filling


def read_layout(source: Source, findings: Findings, program: Program) -> Layout | None:
    """What the definitions say of all other pairs, or None where one is none."""
    try:
        layout = layout_of(*read_definitions(source, findings), program)
    except WrongDefinition as error:
        if error.number:
            findings.add(bytes([DEFINITIONS]) + error.number.to_bytes(2), str(error))
        return None
    if layout.filling is not None:
        findings.note("an index is being filled; the next opening fills it to its end")
    return layout


def settled(source: Source, findings: Findings) -> Settled:
    """The store as the next opening makes it."""
    changes: dict[bytes, bytes | None] = {}
    for key, value in findings.counted(space(source, INTENT)):
        if key != INTENT_KEY:
            findings.add(key, "a key that no run writes")
            continue
        try:
            changes = read_changes(value)
            findings.note("a write was cut off; the next opening makes it whole, and is looked at")
        except InternalError as error:
            findings.add(key, str(error))
    return Settled(source, changes)


def check_store(source: Source, findings: Findings, program: Program) -> None:
    """A whole store."""
    for key, what in source.strange():
        findings.add(key, what)
    check_outside(source, findings)
    layout = read_layout(source, findings, program)
    if layout is None:
        findings.note(UNSEEN)
        return
    check_pairs_of(settled(source, findings), layout, findings)


@contextlib.contextmanager
def source_of(target: str, folder: str | None) -> Iterator[Source]:
    """The pairs of a file, of a copy of a server's file, or of one revision of a cluster's store."""
    if is_url(target):
        reading = open_reading(target)
        with contextlib.closing(reading):
            try:
                reading.pin()
            except Fault as fault:
                raise OperationalError(f"the store can't be read: {fault}") from fault
            yield ReadingSource(reading)
    elif target.startswith("unix:"):
        with tempfile.TemporaryDirectory(prefix="piql-verify-", dir=folder) as place:
            copy = os.path.join(place, "copy.db")
            with contextlib.closing(SocketLink(target.removeprefix("unix:"), 5.0)) as link:
                link.backup(copy)
            with opened(copy) as file:
                yield FileSource(file)
    else:
        with opened(target) as file:
            yield FileSource(file)


def verify(target: str, out: TextIO, tell: TextIO, program: Program = None, folder: str | None = None) -> Verified:
    """Looks at a whole store: a file, `unix:SOCKET` or the URL of a cluster's.

    The first hundred differences are written to `out`, one a line, by their keys; progress goes to `tell`. The copy of
    a server's file lies in `folder` meanwhile, and what rows ask for in the folder of temporary files. What can't be
    read is an OperationalError.
    """
    findings = Findings(out, tell)
    with source_of(plain_path(target, "the store"), folder) as source:
        check_store(source, findings, program)
    print(f"{counted(findings.pairs, 'pair')}, {counted(findings.differences, 'difference')}", file=out)
    return Verified(findings.pairs, findings.differences)
