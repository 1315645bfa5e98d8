"""Accepted trials: every shape, with figures and levels of many styles."""

from dataclasses import replace
from itertools import cycle

from reference.designs import Paired
from reference.refusals import MAX_B, MAX_DIFFERENCE
from reference.trial import Trial, make_trial

from .designs import EVERY_UNPAIRED, label, raising, some_paired, some_unpaired, untested

W_OFFERS = [("0042", (5, 3, 4)), ("7", (2, -1, 1))]
# Three offers, and two pairs or three shops: room for an earlier and a later bad place of each sort.
BASE = make_trial((2, 8), 2, [("007", (4, 5)), ("42", (3, 1)), ("100", (-2, 6))])
SHOPS_BASE = make_trial((2, 8), 2, [("007", (4, 5, 1)), ("42", (3, 1, 0)), ("100", (-2, 6, 2))], 2)


@raising
def ties(rng, offers, units):
    """Few distinct values, so that equal sums are everywhere."""
    return [[rng.choice((-1, 0, 1)) for _ in range(units)] for _ in range(offers)]


@raising
def small(rng, offers, units):
    return [[rng.randint(-9, 9) for _ in range(units)] for _ in range(offers)]


@raising
def zeros(rng, offers, units):
    return [[0] * units for _ in range(offers)]


@raising
def equal_offers(rng, offers, units):
    """All offers alike: they are rejected together or not at all."""
    return [[rng.randint(1, 5) for _ in range(units)]] * offers


@raising
def opposite_offers(rng, offers, units):
    """Every other offer is its neighbour with all signs changed."""
    one = [rng.randint(-3, 9) for _ in range(units)]
    return [one if i % 2 == 0 else [-d for d in one] for i in range(offers)]


@raising
def ladder(rng, offers, units):
    """Positive cents on falling scales: many steps, each rejecting a few."""
    scales = [3 * 2 ** i for i in range(offers)]
    rng.shuffle(scales)
    return [[scale * 4 + rng.randint(0, scale) for _ in range(units)] for scale in scales]


@raising
def shallow_ladder(rng, offers, units):
    """As a ladder with close rungs, so that put-back sets decide."""
    return [[rng.randint(10, 14) + 3 * i for _ in range(units)] for i in range(offers)]


@raising
def winners(rng, offers, units):
    """Some offers win clearly, the rest are noise."""
    share = rng.random()
    return [[rng.randint(40, 90) if wins else rng.randint(-30, 30) for _ in range(units)]
            for wins in (rng.random() < share for _ in range(offers))]


@raising
def powers(rng, offers, units):
    """Sums that are all different within an offer."""
    return [[rng.choice((-1, 1)) << (j + i) for j in range(units)] for i in range(offers)]


@raising
def extreme(rng, offers, units):
    ends = (MAX_DIFFERENCE, -MAX_DIFFERENCE, MAX_DIFFERENCE - 1, 1 - MAX_DIFFERENCE, 0)
    return [[rng.choice(ends) for _ in range(units)] for _ in range(offers)]


@raising
def wide(rng, offers, units):
    return [[rng.randint(-MAX_DIFFERENCE, MAX_DIFFERENCE) for _ in range(units)]
            for _ in range(offers)]


def shop_sizes(rng, offers, design):
    """Each shop has a size of its own, and what treated ones sell beyond it is little."""
    sizes = [rng.choice((40, 300, 2_000)) + rng.randint(0, 9) for _ in range(design.units)]
    return [[size + rng.randint(0, 9) + (shop < design.treated) * rng.choice((0, 25, 60))
             for shop, size in enumerate(sizes)] for _ in range(offers)]


def two_values(rng, offers, design):
    """Each shop sold or did not: equal entries everywhere."""
    return [[rng.randrange(2) for _ in range(design.units)] for _ in range(offers)]


def some_untested(rng, offers, design):
    """Every other offer, or all, with equal figures in all shops."""
    every = rng.random() < 0.3
    return [untested(design, rng) if every or i % 2 else
            [rng.randint(0, 9) for _ in range(design.units)] for i in range(offers)]


STYLES = (ties, small, zeros, equal_offers, opposite_offers, ladder, shallow_ladder, winners,
          powers, extreme, wide)
SHOP_STYLES = (*STYLES, shop_sizes, two_values, some_untested)


def level(rng, rows):
    """A level a/b: near 0, near 1, just at or beside a row's worth, unreduced, or any."""
    few = rng.randint(1, max(1, rows // 3))
    b = rng.randint(2, MAX_B)
    levels = [(1, MAX_B), (MAX_B - 1, MAX_B), (1, 2), (3, 4), (5, 100), (6, 12), (10, 200),
              (1, rows + 1), (few, 4 * rows), (rng.randint(1, b - 1), b)]
    if rows > 1:
        levels += [(1, rows), (3, 3 * rows), (rows - 1, rows)] + 4 * [(min(few, rows - 1), rows)]
    return rng.choice([(a, b) for a, b in levels if a < b <= MAX_B])


def printed_codes(rng, offers):
    """Printed codes of distinct numbers, with leading zeros, zero and 9999999 among them."""
    numbers = set(rng.sample((0, 1, 7, 42, 9_999_999, 999_999, 10), min(offers, 3)))
    while len(numbers) < offers:
        numbers.add(rng.randrange(10 ** rng.randint(1, 7)))
    texts = [str(number).zfill(rng.randint(1, 7)) for number in numbers]
    rng.shuffle(texts)
    return texts


def trial_of(rng, design, k, figures) -> Trial:
    """A trial of that design with the figures of each offer, at any level."""
    listed = list(zip(printed_codes(rng, len(figures)), figures))
    return replace(make_trial(level(rng, design.rows), k, listed), design=design)


def any_trial(rng, offers, design, k, style) -> Trial:
    """A trial of that shape and style."""
    return trial_of(rng, design, k, style(rng, offers, design))


def shapes():
    """Every accepted (offers, design, k) of pairs."""
    return [(offers, Paired(pairs), k) for offers in range(1, 17) for pairs in range(1, 10)
            for k in range(1, min(4, offers) + 1)]


def shop_shapes(each):
    """Every layout of shops `each` times, with numbers of offers and k that come in turn."""
    sizes = cycle((offers, k) for k in (1, 2, 3, 4) for offers in (*range(k, 8), 16))
    return [(offers, design, k) for _ in range(each)
            for design, (offers, k) in zip(EVERY_UNPAIRED, sizes)]


def valid_trials(rng, each=4, listed=None, styles=STYLES):
    """(name, trial): every shape of pairs, or those listed, `each` times, the styles in turn."""
    turn = 0
    for offers, design, k in shapes() if listed is None else listed:
        for _ in range(each):
            style = styles[turn % len(styles)]
            turn += 1
            name = f"{style.__name__}-{offers}x{label(design)}-k{k}-{turn}"
            yield name, any_trial(rng, offers, design, k, style)


def valid_shop_trials(rng, each):
    """(name, trial): every layout of shops `each` times."""
    return valid_trials(rng, 1, shop_shapes(each), SHOP_STYLES)


def some_trial(rng, most_offers=16, most_units=9, design_of=some_paired, styles=STYLES) -> Trial:
    """A trial of any shape and style."""
    offers, design = rng.randint(1, most_offers), design_of(rng, most_units)
    return any_trial(rng, offers, design, rng.randint(1, min(4, offers)), rng.choice(styles))


def some_shop_trial(rng, most_offers=16, most_shops=10) -> Trial:
    return some_trial(rng, most_offers, most_shops, some_unpaired, SHOP_STYLES)
