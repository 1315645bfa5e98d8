"""The trial record (document 01, "From pairs to a table"; document 02, §6)."""

from dataclasses import dataclass, replace

from . import aside
from .designs import Paired, Unpaired
from .refusals import (MAX_DIFFERENCE, MAX_DIGITS, MAX_OFFERS, MAX_SHOPS, Refused, breaks_3,
                       fill, too_short, trial_breaks_4)

CODE_PLACES = MAX_OFFERS
FIGURE_PLACES = MAX_OFFERS * MAX_SHOPS


@dataclass(frozen=True)
class Trial:
    """A trial as a record; a record can hold anything, accepted or not.

    `codes` and `digits` have 16 places, `figures` 160: offer i and pair or shop j,
    both from 0, stand at i x units + j. Nothing looks at places beyond the counts.
    """

    a: int
    b: int
    k: int
    offers: int
    design: Paired | Unpaired
    codes: tuple
    digits: tuple
    figures: tuple


def make_trial(level, k, offers, treated=None) -> Trial:
    """A record from a level (a, b), k and a list of (printed code, figures).

    The figures are of pairs, or of shops of which the first so many are treated. Unused places
    hold zero, as in a read trial. Nothing is checked.
    """
    codes = [int(text) for text, _ in offers]
    digits = [len(text) for text, _ in offers]
    cents = [figure for _, figures in offers for figure in figures]
    units = len(offers[0][1]) if offers else 0
    design = Paired(units) if treated is None else Unpaired(units, treated)
    return Trial(level[0], level[1], k, len(offers), design,
                 padded(codes, CODE_PLACES), padded(digits, CODE_PLACES),
                 padded(cents, FIGURE_PLACES))


def padded(values, places: int) -> tuple:
    """The values, then zero in the places left."""
    return tuple(values) + (0,) * (places - len(values))


def cleared(trial: Trial) -> Trial:
    """The same trial with zero in the places that its counts don't use."""
    return replace(trial, codes=padded(trial.codes[:trial.offers], CODE_PLACES),
                   digits=padded(trial.digits[:trial.offers], CODE_PLACES),
                   figures=padded(used_figures(trial), FIGURE_PLACES))


def used_figures(trial: Trial) -> tuple:
    """Those that the counts speak of, offer by offer."""
    return trial.figures[:trial.offers * trial.design.units]


def same(one: Trial, other: Trial) -> bool:
    """Level as written, shape and its kind, codes, printed digits and figures agree."""
    return cleared(one) == cleared(other)


def breaks_5(code: int, digits: int) -> bool:
    """Refusal 5: printed digits outside 1 to 7, or the number has more digits than that."""
    return not 1 <= digits <= MAX_DIGITS or len(str(code)) > digits


def breaks_7(figure: int) -> bool:
    """Refusal 7: a difference, or the figure of a shop, outside its range."""
    return not -MAX_DIFFERENCE <= figure <= MAX_DIFFERENCE


def trial_refusal(trial: Trial):
    """A record's refusal: 4, 15, 3, then offers (at each, 5 before 6), then figures."""
    if trial_breaks_4(trial.k, trial.offers, trial.design):
        return 4
    if trial.design.breaks_15():
        return 15
    if breaks_3(trial.a, trial.b):
        return 3
    for i in range(trial.offers):
        if breaks_5(trial.codes[i], trial.digits[i]):
            return 5
        if trial.codes[i] in trial.codes[:i]:
            return 6
    if any(map(breaks_7, used_figures(trial))):
        return 7
    return None


def rows_of(trial: Trial) -> int:
    """M."""
    return trial.design.rows


def offer_figures(trial: Trial, offer: int) -> tuple:
    """The figures of an offer (from 0)."""
    units = trial.design.units
    return trial.figures[offer * units:(offer + 1) * units]


def remaining(trial: Trial) -> list:
    """The offers (from 0) that are not set aside (document 02, §4 and §6)."""
    return [i for i in range(trial.offers) if not trial.design.untested(offer_figures(trial, i))]


def _table_values(trial: Trial) -> list:
    offers = [offer_figures(trial, i) for i in range(trial.offers)]
    return [float(trial.design.entry(figures, row)) for row in range(rows_of(trial))
            for figures in offers]


def table_of(trial: Trial, buffer=None):
    """The trial's table, row after row, laid in the lent buffer's first places; or a refusal."""
    number = trial_refusal(trial)
    if number is None and too_short(buffer, rows_of(trial) * trial.offers):
        number = 12
    if number is not None:
        return Refused(number)
    values = _table_values(trial)
    fill(buffer, values)
    return values


def full_run(trial: Trial, buffer=None, work=None):
    """The full run of the offers that remain, with row 0 observed; or a refusal.

    After an accepted call `buffer` holds the table of all offers, `work` plus zero in its first M places.
    """
    number = trial_refusal(trial)
    if number is not None:
        return Refused(number)
    rows = rows_of(trial)
    if too_short(buffer, rows * trial.offers) or too_short(work, rows):
        return Refused(12)
    values = table_of(trial, buffer)
    fill(work, [0.0] * rows)
    return aside.full_run(values, trial.offers, remaining(trial), trial.k, trial.a, trial.b)
