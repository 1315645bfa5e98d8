"""Adjusted figures (document 02, §1): the least e at which the method rejects an offer, or M.

Every e from 0 to M - 1 is tried, and at each the method goes from step 1 to its end.
"""

from functools import lru_cache
from math import isfinite

from . import aside, method
from .refusals import Refused, fill, table_breaks_4, too_short
from .trial import Trial, remaining, rows_of, table_of, trial_refusal


class Criticals:
    """The critical values of the steps of a table with one k, at every e.

    c(K) at e is the (M - e)-th smallest of the k-max values over K: these are sorted once for all e.
    """

    def __init__(self, table, k: int):
        self.table, self.k, self.known = table, k, {}

    def at(self, rejected: frozenset, e: int) -> float:
        """The critical value of the next step, with the offers rejected so far."""
        if rejected not in self.known:
            self.known[rejected] = self.of_sets(self.sets(rejected))
        return self.known[rejected][-1 - e]

    def sets(self, rejected: frozenset) -> list:
        """The sets K whose c(K) counts: all offers, or those left with each k - 1 put back."""
        left = [j for j in range(len(self.table)) if j not in rejected]
        if not rejected:
            return [left]
        return [left + list(back) for back in method.put_back_sets(rejected, self.k)]

    def of_sets(self, sets) -> list:
        """Place by place the largest of the sets' sorted k-max values."""
        each = [sorted(method.k_max(row, self.k) for row in zip(*(self.table[j] for j in offers)))
                for offers in sets]
        return each[0] if len(each) == 1 else list(map(max, *each))


def rejected_at(criticals: Criticals, observed: int, e: int) -> frozenset:
    """The offers that the method rejects at e."""
    table, k = criticals.table, criticals.k
    rejected, ended = frozenset(), False
    while not ended:
        newly = method.newly_rejected(table, rejected, observed, criticals.at(rejected, e))
        rejected |= newly
        ended = method.has_ended(newly, rejected, k, len(table))
    return rejected


@lru_cache(maxsize=4)
def figures_of(values: tuple, columns: int, k: int, observed: int) -> tuple:
    """The figure of each column of an accepted table."""
    table = method.columns_of(values, columns)
    criticals, rows = Criticals(table, k), len(table[0])
    figures = [rows] * columns
    for e in reversed(range(rows)):
        for j in rejected_at(criticals, observed, e):
            figures[j] = e
    return tuple(figures)


def figures_refusal(values, rows, columns, k, observed, work=None):
    """The refusal of a table, in the order 4, 9, 10, 11 and 12 last; None if accepted. No level is taken."""
    if table_breaks_4(rows, columns, k):
        return 4
    if len(values) != rows * columns:
        return 9
    if observed >= rows:
        return 10
    if not all(isfinite(value) for value in values):
        return 11
    if too_short(work, rows):
        return 12
    return None


def table_figures(values, rows, columns, k, observed, work=None):
    """The figure of each column of a lent table, or its refusal.

    After an accepted call the work buffer's first M places hold plus zero.
    """
    number = figures_refusal(values, rows, columns, k, observed, work)
    if number is not None:
        return Refused(number)
    fill(work, [0.0] * rows)
    return figures_of(tuple(values), columns, k, observed)


def trial_figures(trial: Trial, buffer=None, work=None):
    """The figures of the offers that remain, with row 0 observed and the trial's own k; or a refusal.

    That of an offer set aside is M, and so is every one where fewer than k remain (document 02, §4).
    After an accepted call `buffer` holds the table of all offers, `work` plus zero in its first M places.
    """
    number = trial_refusal(trial)
    if number is not None:
        return Refused(number)
    rows = rows_of(trial)
    if too_short(buffer, rows * trial.offers) or too_short(work, rows):
        return Refused(12)
    values, left = table_of(trial, buffer), remaining(trial)
    fill(work, [0.0] * rows)
    if len(left) < trial.k:
        return (rows,) * trial.offers
    smaller = aside.table_left(values, trial.offers, left)
    figures = table_figures(smaller, rows, len(left), trial.k, 0)
    return aside.in_file_order(figures, left, trial.offers, rows)
