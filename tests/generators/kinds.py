"""The kinds of test case. A room is the length of a lent buffer, in its own places."""

from dataclasses import dataclass

from reference.run import Run
from reference.trial import Trial


@dataclass(frozen=True)
class FileCase:
    """Bytes for the reader, the C call with a buffer of so many bytes, and the report with another."""

    name: str
    data: bytes
    buffer_room: int
    report_room: int


@dataclass(frozen=True)
class RecordCase:
    """A trial record for the writer, its table and its full run."""

    name: str
    trial: Trial
    file_room: int
    table_room: int
    work_room: int


class Repeated(tuple):
    """The values of a large table: some that stand first, and then others that repeat.

    The program that is tested makes such a table from the few values, in the same way.
    """

    def __new__(cls, first, repeating, length):
        rest = length - len(first)
        turns = rest // len(repeating) + 1
        self = super().__new__(cls, (*first, *(repeating * turns)[:rest]))
        self.written, self.period = (*first, *repeating)[:length], len(repeating)
        return self


@dataclass(frozen=True)
class TableCase:
    """A lent table for a full run, by itself or through a view."""

    name: str
    values: tuple
    rows: int
    columns: int
    k: int
    a: int
    b: int
    observed: int
    work_room: int
    viewed: bool = False


@dataclass(frozen=True)
class BalancedCase:
    """A lent table to be balanced, and a buffer of so many places for it."""

    name: str
    values: tuple
    rows: int
    columns: int
    out_room: int


@dataclass(frozen=True)
class BalancedRunCase(TableCase):
    """A lent table for a balanced full run, and a buffer of so many places for the balanced table."""

    out_room: int = 0


class WalkCase(TableCase):
    """A run that is begun over a lent table and taken step by step until a step is refused."""


@dataclass(frozen=True)
class StepCase:
    """A run as it is given, spoiled or not, taken step by step until a step is refused."""

    name: str
    run: Run
    values: tuple
    work_room: int
    viewed: bool = False


@dataclass(frozen=True)
class LookCase:
    """A place of a view of a lent table, whose rows and columns may be others than the table's."""

    name: str
    values: tuple
    rows: int
    columns: int
    row: int
    column: int
