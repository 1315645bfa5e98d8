"""The slips that readers make, each switched on in the reference by itself (document 01, "Examples").

    with slip("as-large-as"):
        report(data)          # rejects at equality

Inside the context the reference makes that one slip; outside it none. What each does wrong stands at its
entry in `SLIPS`.
"""

from contextlib import ExitStack, contextmanager
from math import copysign
from operator import eq, ge, gt, le, lt
from unittest import mock

from . import method, table
from .table import FullRun, Kept

# The reference as it stands.
columns_of, sets_of_step, mth_smallest, count = (
    method.columns_of, method.sets_of_step, method.mth_smallest, method.count)
run_table = table.run_table


def rejected_at_equality(columns, rejected, observed: int, critical: float) -> set:
    """The offers left whose observed value is as large as the critical value."""
    return {j for j in range(len(columns)) if j not in rejected and columns[j][observed] >= critical}


def place(value: float) -> tuple:
    """Where a value stands if its sign counts: minus zero next below zero."""
    return float(value), copysign(1.0, value)


def by_place(compare):
    return lambda one, other: compare(place(one), place(other))


class Signed(float):
    """A value that compares as its sign is written."""

    __lt__, __le__, __gt__, __ge__, __eq__ = map(by_place, (lt, le, gt, ge, eq))
    __hash__ = float.__hash__


def signed_columns(values, columns: int) -> list:
    return [list(map(Signed, column)) for column in columns_of(values, columns)]


def left_alone(columns, rejected, k: int) -> list:
    """The one set of the offers left, with nothing put back."""
    return [[j for j in range(len(columns)) if j not in rejected]]


def kth_or_smallest(values, k: int) -> float:
    """The k-th largest, or the smallest where nothing was put back and fewer than k are left."""
    return sorted(values)[-min(k, len(values))]


def first_set(columns, rejected, k: int) -> list:
    return sets_of_step(columns, rejected, k)[:1]


def nothing_at_zero(columns, k: int, e: int, observed: int) -> FullRun:
    """No step where e is 0: each offer is kept."""
    if e > 0:
        return run_table(columns, k, e, observed)
    return FullRun(verdicts=(Kept(0.0),) * len(columns),
                   counts=tuple(method.count(column, observed) for column in columns), records=())


def eth_largest(values, m: int) -> float:
    """The e-th largest where the (M - e)-th smallest is asked for, one place too high; at e = 0 the largest."""
    return mth_smallest(values, min(m + 1, len(values)))


def others_count(column, observed: int) -> int:
    """Rows but the observed one."""
    return count(column, observed) - 1


# By name, what stands in for what.
SLIPS = {
    "as-large-as": [(method, "newly_rejected", rejected_at_equality)],
    "minus-zero": [(method, "columns_of", signed_columns), (method, "plus_zero", lambda value: value)],
    "drop-rejected": [(method, "sets_of_step", left_alone), (method, "k_max", kth_or_smallest)],
    "first-set": [(method, "sets_of_step", first_set)],
    "stop-at-zero": [(table, "run_table", nothing_at_zero)],
    "eth-largest": [(method, "mth_smallest", eth_largest)],
    "observed-left-out": [(method, "count", others_count)],
}


@contextmanager
def slip(name: str):
    """The reference makes this slip inside the context."""
    with ExitStack() as switched:
        for module, function, wrong in SLIPS[name]:
            switched.enter_context(mock.patch.object(module, function, wrong))
        yield
