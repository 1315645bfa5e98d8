"""Trials with offers that have not been tested, which are set aside (document 02, §4 and §6).

How many offers remain is planned: none, below k, k, above k, all but one. Those that remain are of any
style, and never such that they are set aside. Some are so in every pair or shop but one, or have figures that
cancel out in the observed row: such an offer is not set aside.
"""

from itertools import cycle, product

from reference.refusals import MAX_DIFFERENCE
from reference.trial import Trial, make_trial

from . import trials
from .designs import cancelling, label, raising, sold_once, some_paired, some_unpaired, untested
from .trials import W_OFFERS, trial_of


def sold_little(rng, offers, design):
    return [rng.choice((sold_once, cancelling))(design, rng) for _ in range(offers)]


def cancelled(rng, offers, design):
    return [cancelling(design, rng) for _ in range(offers)]


@raising
def milk_and_saffron(rng, offers, units):
    """Some cents, some thousand, some million: balanced verdicts differ from plain ones."""
    sizes = [rng.choice((1, 40, 3_000, 20_000_000)) for _ in range(offers)]
    return [[size * rng.randint(-1, 6) for _ in range(units)] for size in sizes]


STYLES = (milk_and_saffron, sold_little, trials.winners, cancelled, trials.ladder,
          trials.shallow_ladder, milk_and_saffron, trials.ties, trials.equal_offers, trials.small,
          trials.opposite_offers, trials.extreme, trials.powers, trials.wide)


def planned_figures(rng, offers, design, left, style) -> list:
    """So many offers are left, in any places; all others are set aside."""
    figures = [untested(design, rng) for _ in range(offers)]
    places = rng.sample(range(offers), left)
    for place, cents in zip(places, style(rng, left, design), strict=True):
        figures[place] = sold_once(design, rng) if design.untested(cents) else cents
    return figures


def planned(rng, offers, design, k, left, style) -> Trial:
    return trial_of(rng, design, k, planned_figures(rng, offers, design, left, style))


def counts_left(offers, k) -> list:
    """How many of the offers may be left: none, next to k, all but one."""
    return sorted({0, k - 1, k, k + 1, offers - 1} & set(range(offers)))


def aside_trials(rng, sizes):
    """(name, trial) for each of these (offers, design): every k with every plan, the styles in turn."""
    styles = cycle(STYLES)
    for offers, design in sizes:
        for k in range(1, min(4, offers) + 1):
            for left in counts_left(offers, k):
                style = next(styles)
                yield (f"{style.__name__}-{offers}x{label(design)}-k{k}-left{left}",
                       planned(rng, offers, design, k, left, style))


def some_aside_trial(rng, most_offers=16, most_units=9, design_of=some_paired) -> Trial:
    """A trial of any shape with offers set aside."""
    offers, design = rng.randint(1, most_offers), design_of(rng, most_units)
    k = rng.randint(1, min(4, offers))
    return planned(rng, offers, design, k, rng.randrange(offers), rng.choice(STYLES))


def some_aside_shop_trial(rng, most_offers=16, most_shops=10) -> Trial:
    return some_aside_trial(rng, most_offers, most_shops, some_unpaired)


def sold_somewhere():
    """(name, trial): W and a third offer, of zeros but for one difference: each power of two, and some below 0."""
    for pair, cent in product(range(3), (*(2 ** bit for bit in range(27)), -1, -MAX_DIFFERENCE)):
        cents = [0, 0, 0]
        cents[pair] = cent
        yield f"sold-{pair}-{cent}", make_trial((1, 4), 1, [*W_OFFERS, ("04711", cents)])
