"""The method (document 01, "The method"; document 02, §5), for values already accepted.

A table is given as the list of its columns, each a list of M values. Offers
are column numbers from 0. Nothing here refuses; see table.py and run.py.
"""

from dataclasses import dataclass
from itertools import combinations


@dataclass(frozen=True)
class Record:
    """What a step leaves: its number (from 1), its critical value, and whose figures made that.

    `row` counts from 0; `offer` is a position in the trial or table, from 1.
    """

    step: int
    critical_value: float
    row: int
    offer: int


def level_rows(rows: int, a: int, b: int) -> int:
    """e = floor(M x a / b)."""
    return rows * a // b


def columns_of(values, columns: int) -> list:
    """The columns of a table lent row after row."""
    return [values[j::columns] for j in range(columns)]


def plus_zero(value: float) -> float:
    """The value itself, or plus zero for either zero."""
    return 0.0 if value == 0.0 else value


def k_max(values, k: int) -> float:
    """The k-th largest value, equal values counted each."""
    return sorted(values)[-k]


def mth_smallest(values, m: int) -> float:
    """The m-th smallest value (m from 1), equal values counted each."""
    return sorted(values)[m - 1]


def c(table, offers, k: int, e: int) -> float:
    """c(K): the (M - e)-th smallest of the M rows' k-max over the set K of offers."""
    rows = zip(*(table[j] for j in offers))
    k_maxes = [k_max(row, k) for row in rows]
    return plus_zero(mth_smallest(k_maxes, len(k_maxes) - e))


def put_back_sets(rejected, k: int) -> list:
    """All subsets I of the rejected offers with exactly k - 1 members."""
    return list(combinations(sorted(rejected), k - 1))


def sets_of_step(table, rejected, k: int) -> list:
    """The sets K of the next step, in the order of the walk, with the offers rejected so far.

    Nothing is rejected before step 1 alone: a run goes on only with k or more rejected.
    """
    left = [j for j in range(len(table)) if j not in rejected]
    if not rejected:
        return [left]
    return [left + list(back) for back in put_back_sets(rejected, k)]


def offer_of_k_max(row, offers, k: int) -> int:
    """Whose value the k-th largest over the set is: the lowest position in the set among equals."""
    largest = k_max([row[j] for j in offers], k)
    return min(j for j in offers if row[j] == largest)


def lowest_row(table, offers, k: int, value: float) -> int:
    """The lowest row whose k-max over the set equals the value."""
    return min(g for g, row in enumerate(zip(*table)) if k_max([row[j] for j in offers], k) == value)


def record(table, rejected, k: int, e: int, step: int) -> Record:
    """The record of the next step, with the offers rejected so far: of the first set that gives the largest c."""
    sets = sets_of_step(table, rejected, k)
    values = [c(table, offers, k, e) for offers in sets]
    critical = max(values)
    first = sets[values.index(critical)]
    row = lowest_row(table, first, k, critical)
    return Record(step, critical, row, offer_of_k_max([column[row] for column in table], first, k) + 1)


def newly_rejected(table, rejected, observed: int, critical: float) -> set:
    """The offers left whose observed value is larger than the critical value."""
    return {j for j in range(len(table))
            if j not in rejected and table[j][observed] > critical}


def has_ended(newly: set, rejected: set, k: int, columns: int) -> bool:
    """The stopping rule after a step; `rejected` holds the newly rejected too."""
    return not newly or len(rejected) < k or len(rejected) == columns


def count(column, observed: int) -> int:
    """Rows, the observed one included, whose value is at least the observed value."""
    return sum(1 for value in column if value >= column[observed])
