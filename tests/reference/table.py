"""A lent table: refusals and full run (document 01, "From pairs to a table", "The method")."""

from dataclasses import dataclass
from math import isfinite

from . import method
from .refusals import Refused, breaks_3, fill, table_breaks_4, too_short


@dataclass(frozen=True)
class Rejected:
    """An offer's verdict: rejected, with the step and its critical value."""

    step: int
    critical_value: float


@dataclass(frozen=True)
class Kept:
    """An offer's verdict: kept, with the last critical value."""

    critical_value: float


@dataclass(frozen=True)
class Aside:
    """A verdict that only an offer of a trial has: set aside, not tested (document 02, §4)."""


@dataclass(frozen=True)
class FullRun:
    """What a full run gives: verdicts and counts by column, and a record a step."""

    verdicts: tuple
    counts: tuple
    records: tuple

    def rejected(self) -> int:
        """How many offers are rejected."""
        return sum(1 for verdict in self.verdicts if isinstance(verdict, Rejected))


def table_refusal(values, rows, columns, k, a, b, observed, work=None):
    """The refusal of a table, in the order 4, 3, 9, 10, 11 and 12 last; None if accepted."""
    if table_breaks_4(rows, columns, k):
        return 4
    if breaks_3(a, b):
        return 3
    if len(values) != rows * columns:
        return 9
    if observed >= rows:
        return 10
    if not all(isfinite(value) for value in values):
        return 11
    if too_short(work, rows):
        return 12
    return None


def full_run(values, rows, columns, k, a, b, observed, work=None):
    """The full run of a lent table, or its refusal.

    After an accepted call the work buffer's first M places hold plus zero.
    """
    number = table_refusal(values, rows, columns, k, a, b, observed, work)
    if number is not None:
        return Refused(number)
    fill(work, [0.0] * rows)
    table = method.columns_of(values, columns)
    return run_table(table, k, method.level_rows(rows, a, b), observed)


def run_table(table, k: int, e: int, observed: int) -> FullRun:
    """The method from step 1 to its end, for an accepted table given by its columns."""
    rejected, verdicts, records, ended = set(), {}, [], False
    while not ended:
        record = method.record(table, rejected, k, e, len(records) + 1)
        newly = method.newly_rejected(table, rejected, observed, record.critical_value)
        records.append(record)
        for j in newly:
            verdicts[j] = Rejected(record.step, record.critical_value)
        rejected |= newly
        ended = method.has_ended(newly, rejected, k, len(table))
    kept = Kept(records[-1].critical_value)
    return FullRun(
        verdicts=tuple(verdicts.get(j, kept) for j in range(len(table))),
        counts=tuple(method.count(column, observed) for column in table),
        records=tuple(records),
    )
