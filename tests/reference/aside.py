"""Offers that have not been tested (document 02, §4 and §6): set aside before step 1.

Their columns are taken out of the trial's table, the method goes over the smaller table, and its answers
go back to their places in file order; so do the offers that the records name (§5). Tables that are handed
in know nothing of this.
"""

from dataclasses import replace

from . import method
from .table import Aside, FullRun, Kept
from .table import full_run as run_table


def table_left(values, columns: int, left) -> list:
    """The table with these columns alone, row after row."""
    return [value for row in zip(*(values[j::columns] for j in left)) for value in row]


def in_file_order(answers, left, offers: int, aside) -> tuple:
    """The answers of the offers left, each in its place, and `aside` in the places between."""
    placed = dict(zip(left, answers, strict=True))
    return tuple(placed.get(i, aside) for i in range(offers))


def in_trial(records, left) -> tuple:
    """The records with the offers' positions in the trial."""
    return tuple(replace(record, offer=left[record.offer - 1] + 1) for record in records)


def without_steps(table) -> FullRun:
    """Fewer than k offers remain: no step is run, and each is kept with plus zero as critical value."""
    return FullRun(verdicts=(Kept(0.0),) * len(table),
                   counts=tuple(method.count(column, 0) for column in table), records=())


def full_run(values, columns: int, left, k: int, a: int, b: int, run_of=run_table) -> FullRun:
    """The full run of a trial's table over the columns left, with row 0 observed.

    `run_of` runs the smaller table, as it is or balanced.
    """
    smaller, rows = table_left(values, columns, left), len(values) // columns
    if len(left) < k:
        run = without_steps(method.columns_of(smaller, len(left)))
    else:
        run = run_of(smaller, rows, len(left), k, a, b, 0)
    return FullRun(verdicts=in_file_order(run.verdicts, left, columns, Aside()),
                   counts=in_file_order(run.counts, left, columns, 0), records=in_trial(run.records, left))
