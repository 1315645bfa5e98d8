"""A run taken step by step (document 01, "The method", "Turned away because of the state")."""

from dataclasses import dataclass, replace
from math import isfinite

from . import method
from .refusals import MAX_STEPS, Refused, breaks_3, fill, table_breaks_4, too_short


@dataclass(frozen=True)
class Run:
    """A run as a value. Bit j of `rejected` stands for column j, counted from 0."""

    rows: int
    columns: int
    k: int
    a: int
    b: int
    observed: int
    rejected: int
    steps: int
    ended: bool


def begin(rows, columns, k, a, b, observed):
    """A run with nothing rejected and no step taken, or refusal 4, 3, 10 in that order."""
    if table_breaks_4(rows, columns, k):
        return Refused(4)
    if breaks_3(a, b):
        return Refused(3)
    if observed >= rows:
        return Refused(10)
    return Run(rows, columns, k, a, b, observed, rejected=0, steps=0, ended=False)


def rejections(run: Run) -> int:
    """How many offers the run's mask holds."""
    return run.rejected.bit_count()


# Refusal 14, clause by clause in the paper's words.
CLAUSES_OF_14 = (
    ("its own figures break 3", lambda r: breaks_3(r.a, r.b)),
    ("its own figures break 4", lambda r: table_breaks_4(r.rows, r.columns, r.k)),
    ("its own figures break 10", lambda r: r.observed >= r.rows),
    # The run's own columns decide: 14 is judged before the lent table is looked at.
    ("a rejected offer that the table hasn't", lambda r: r.rejected >= 2 ** min(r.columns, 32)),
    ("more than 32 steps", lambda r: r.steps > MAX_STEPS),
    ("rejections at step 0", lambda r: r.steps == 0 and r.rejected != 0),
    ("ended at step 0", lambda r: r.steps == 0 and r.ended),
    ("not ended with fewer rejections than steps",
     lambda r: not r.ended and rejections(r) < r.steps),
    ("not ended after step 1 or later with fewer than k rejected",
     lambda r: not r.ended and r.steps >= 1 and rejections(r) < r.k),
    ("not ended after step 1 or later with none left",
     lambda r: not r.ended and r.steps >= 1 and rejections(r) == r.columns),
)


def clauses_broken(run: Run) -> list:
    """The names of the clauses of refusal 14 that spoil the run."""
    return [name for name, spoils in CLAUSES_OF_14 if spoils(run)]


def step_refusal(run: Run, values, work=None):
    """The refusal of a step, in the order 14, 13, 9, 11, 12; None if accepted."""
    if clauses_broken(run):
        return 14
    if run.ended:
        return 13
    if len(values) != run.rows * run.columns:
        return 9
    if not all(isfinite(value) for value in values):
        return 11
    if too_short(work, run.rows):
        return 12
    return None


def step(run: Run, values, work=None):
    """The run after one step and the step's record, or the refusal."""
    number = step_refusal(run, values, work)
    if number is not None:
        return Refused(number)
    fill(work, [0.0] * run.rows)
    table = method.columns_of(values, run.columns)
    before = {j for j in range(run.columns) if run.rejected >> j & 1}
    e = method.level_rows(run.rows, run.a, run.b)
    record = method.record(table, before, run.k, e, run.steps + 1)
    newly = method.newly_rejected(table, before, run.observed, record.critical_value)
    after = before | newly
    next_run = replace(
        run,
        rejected=sum(1 << j for j in after),
        steps=record.step,
        ended=method.has_ended(newly, after, run.k, run.columns),
    )
    return next_run, record
