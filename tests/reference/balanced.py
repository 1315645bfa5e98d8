"""The balanced table (document 02, §3), and the engine run on it.

An entry becomes the number of rows of its own column whose value is at most that entry, its own row
counted. Balanced verdicts, counts and critical values are those of the balanced table.
"""

from bisect import bisect_right
from functools import lru_cache
from math import isfinite

from . import aside
from . import report as plain_report
from . import table as lent_table
from .method import columns_of
from .refusals import MAX_COLUMNS, MAX_ROWS, Refused, fill, too_short
from .trial import Trial, remaining, rows_of, table_of, trial_refusal


def balanced_column(column) -> list:
    """By row, how many values of the column are at most the row's; as f64. Both zeros are equal."""
    ordered = sorted(column)
    return [float(bisect_right(ordered, value)) for value in column]


@lru_cache(maxsize=4)
def balanced_values(values: tuple, columns: int) -> tuple:
    """The balanced table of an accepted one, both row after row."""
    table = [balanced_column(column) for column in columns_of(values, columns)]
    return tuple(value for row in zip(*table) for value in row)


def balanced_refusal(values, rows, columns, out=None):
    """The refusal of making it, in the order 4 for the sizes, 9, 11, 12; None if accepted."""
    if not (1 <= rows <= MAX_ROWS and 1 <= columns <= MAX_COLUMNS):
        return 4
    if len(values) != rows * columns:
        return 9
    if not all(isfinite(value) for value in values):
        return 11
    if too_short(out, rows * columns):
        return 12
    return None


def table_balanced(values, rows, columns, out=None):
    """The balanced table of a lent one, laid in the lent buffer's first places; or a refusal."""
    number = balanced_refusal(values, rows, columns, out)
    if number is not None:
        return Refused(number)
    balanced = list(balanced_values(tuple(values), columns))
    fill(out, balanced)
    return balanced


def full_run(values, rows, columns, k, a, b, observed, out=None, work=None):
    """The full run of the balanced table, or a refusal: those of the plain run, 12 for any buffer.

    After an accepted call `out` holds the balanced table, `work` plus zero in its first M places.
    """
    number = lent_table.table_refusal(values, rows, columns, k, a, b, observed)
    if number is not None:
        return Refused(number)
    if too_short(out, rows * columns) or too_short(work, rows):
        return Refused(12)
    balanced = table_balanced(values, rows, columns, out)
    return lent_table.full_run(balanced, rows, columns, k, a, b, observed, work)


def trial_run(trial: Trial, buffer=None, work=None):
    """The full run of the balanced table of the offers that remain, with row 0 observed; or a refusal.

    After an accepted call `buffer` holds the balanced table of all offers, and `work` is as for a table.
    """
    number = trial_refusal(trial)
    if number is not None:
        return Refused(number)
    rows, columns = rows_of(trial), trial.offers
    if too_short(buffer, rows * columns) or too_short(work, rows):
        return Refused(12)
    values = table_of(trial)
    table_balanced(values, rows, columns, buffer)
    fill(work, [0.0] * rows)
    return aside.full_run(values, columns, remaining(trial), trial.k, trial.a, trial.b, full_run)


def report(data: bytes) -> str:
    """All that the program `balanced` prints: the report's text, of the balanced run."""
    return plain_report.report(data, trial_run)
