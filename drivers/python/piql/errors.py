"""The exceptions of PEP 249. One that a refusal raises has the refusal; one that the end of a run raises its status."""

from .refusals import Refusal
from .scripts import Place
from .statuses import MEANINGS
from .writes import IN_BATCH


class Warning(Exception):  # noqa: A001 - the name is the standard's
    """Never raised: the engine has no warnings."""


class Error(Exception):
    """Any error of this package."""

    refusal: Refusal | None = None
    status: int | None = None
    # The key, in hexadecimal, of a pair that no run writes. No message has it, since a key has what a row has.
    damaged: str | None = None
    # Which statement of a pipeline it was, from 1.
    position: int | None = None

    @property
    def number(self) -> str | None:
        """The refusal's code, as `E503`."""
        return self.refusal and self.refusal.number

    @property
    def fields(self) -> dict[str, str]:
        """The refusal's fields by their names, as table and column."""
        return self.refusal.fields if self.refusal else {}

    @property
    def statement(self) -> str | None:
        """The refused statement as it was given."""
        return self.refusal and self.refusal.statement

    @property
    def place(self) -> Place | int | None:
        """Line and column at which the statement spells nothing, or the number of the refused write of a batch; from 1."""
        return self.refusal and (self.refusal.place or self.refusal.number_in_batch)

    @property
    def write(self) -> str | None:
        """The refused write of a batch, as it was given."""
        return self.refusal and self.refusal.write

    @property
    def table(self) -> str | None:
        """The table that the refusal speaks of, where the definitions tell it."""
        return self.refusal and self.refusal.table

    @property
    def key(self) -> tuple[str, ...]:
        """The columns of the key, the foreign key or the limit that the refusal speaks of."""
        return self.refusal.key if self.refusal else ()

    @property
    def way_out(self) -> str | None:
        """What to do instead."""
        return self.refusal and self.refusal.way_out


class InterfaceError(Error):
    """The driver was used wrongly, as a cursor that is closed."""


class DatabaseError(Error):
    """Any error that has to do with the database."""


class DataError(DatabaseError):
    """A value that fits no column of its kind, or no cursor of a page."""


class OperationalError(DatabaseError):
    """The run ended, can't be begun, or reached a limit of what is stored."""


class Changed(OperationalError):
    """The row is there, and another than was read: a condition of the write doesn't hold of it. Nothing was made."""

    @property
    def condition(self) -> int:
        """The number of the first condition that doesn't hold, from 1."""
        return int(self.fields.get("number", "0"))

    @property
    def condition_text(self) -> str:
        """That condition, with ? in place of its value; nothing where it can't be told."""
        return self.refusal.condition if self.refusal else ""


class StoreGone(OperationalError):
    """The file was removed, or another was put in its place, while it was open. The connection can't be used again."""


class NotBegun(OperationalError):
    """Nothing was made of a statement of a pipeline: what was before it ended the run, or couldn't be sent."""


class IntegrityError(DatabaseError):
    """The rows that are there speak against a write."""


class InternalError(DatabaseError):
    """The file or a report is none that the engine writes."""


class ProgrammingError(DatabaseError):
    """The statement is wrong, or its values aren't as many as its places."""


class PipelineFull(ProgrammingError):
    """A pipeline has no room for a statement more. Nothing of it was sent."""


class BatchFull(ProgrammingError):
    """A batch has no room for a write more. Nothing of it was sent."""


class OtherRecords(ProgrammingError):
    """A load can't go on: of the records that its mark counts the text has others, or fewer. Nothing was made."""


class NotSupportedError(DatabaseError):
    """What isn't offered: rollback, and a query without a bound."""


CLASSES: dict[str, type[DatabaseError]] = {
    "E206": NotSupportedError,
    "E207": OperationalError,
    "E209": OperationalError,
    "E304": NotSupportedError,
    "E305": NotSupportedError,
    "E402": DataError,
    "E403": DataError,
    "E501": DataError,
    "E503": IntegrityError,
    "E504": IntegrityError,
    "E505": IntegrityError,
    "E506": IntegrityError,
    "E507": IntegrityError,
    "E508": DataError,
    "E510": IntegrityError,
    "E511": Changed,
    "E512": DataError,
    "E514": DataError,
}


def class_of(refusal: Refusal) -> type[DatabaseError]:
    """The class of a refusal's exception. A wrong number of values is the statement's fault, another value its own."""
    if refusal.number == "E402" and refusal.fields.get("number") == "0":
        return ProgrammingError
    if refusal.is_value:
        return DataError
    return CLASSES.get(refusal.number, ProgrammingError)


def batch_head(refusal: Refusal) -> list[str]:
    """What a report has before the refusal of one write of a batch."""
    return [] if refusal.number_in_batch is None else [IN_BATCH, str(refusal.number_in_batch)]


def refused(refusal: Refusal) -> DatabaseError:
    """The exception of a refusal."""
    head = " ".join([*batch_head(refusal), refusal.number, *refusal.fields.values()])
    place = f" at line {refusal.place.line}, column {refusal.place.column}" if refusal.place else ""
    detail = f" {refusal.detail}" if refusal.detail else ""
    way = f" Way out: {refusal.way_out}" if refusal.way_out else ""
    error = class_of(refusal)(f"{head}{place}: {refusal.headline}{detail}{way}")
    error.refusal = refusal
    return error


def with_status(status: int | None, text: str, damaged: str | None = None) -> DatabaseError:
    """The exception of a run that ended with a status, if there was one."""
    error = (InternalError if status == 6 else OperationalError)(text)
    error.status, error.damaged = status, damaged
    return error


def ended(status: int, stands: str, damaged: str | None = None, cause: str = "") -> DatabaseError:
    """The exception of a run that ended with a status, or by the signal of a negative one, with what stands then.

    A cause that is known is told first, and then in place of what the status means.
    """
    why = MEANINGS.get(status, f"signal {-status}" if status < 0 else "a status that the engine doesn't have")
    told = f"{cause}, so the run ended with status {status}" if cause else f"the run ended with status {status}: {why}"
    return with_status(status, f"{told}. {stands}", damaged)
