"""Designs of generated trials: pairs, and shops without partners; and figures that are made for either.

What differs between the two stands here, and the styles of trials are drawn for both.
"""

from functools import singledispatch, wraps

from reference.designs import Paired, Unpaired
from reference.refusals import MAX_DIFFERENCE, MAX_PAIRS, MAX_SHOPS, MIN_SHOPS

# Every accepted layout of shops, and the ends of their bounds.
EVERY_UNPAIRED = [Unpaired(shops, treated) for shops in range(MIN_SHOPS, MAX_SHOPS + 1)
                  for treated in range(1, shops)]
ENDS = (Unpaired(2, 1), Unpaired(10, 1), Unpaired(10, 5), Unpaired(10, 9))


def some_paired(rng, most=MAX_PAIRS, least=1) -> Paired:
    return Paired(rng.randint(least, most))


def some_unpaired(rng, most=MAX_SHOPS, least=MIN_SHOPS) -> Unpaired:
    shops = rng.randint(least, most)
    return Unpaired(shops, rng.randint(1, shops - 1))


def raising(style):
    """A style that draws cents for each offer and pair or shop, as one that draws the figures of a design."""
    @wraps(style)
    def drawn(rng, offers, design):
        return [raised(design, cents) for cents in style(rng, offers, design.units)]
    return drawn


@singledispatch
def raised(design, cents) -> list:
    """Cents as figures: the larger they are, the larger is the entry of the observed row."""
    raise TypeError(type(design))


@raised.register
def _(design: Paired, cents) -> list:
    return list(cents)


@raised.register
def _(design: Unpaired, cents) -> list:
    return [cent if shop < design.treated else -cent for shop, cent in enumerate(cents)]


@singledispatch
def untested(design, rng) -> list:
    """Figures that set an offer aside."""
    raise TypeError(type(design))


@untested.register
def _(design: Paired, rng) -> list:
    return [0] * design.pairs


@untested.register
def _(design: Unpaired, rng) -> list:
    """Zeros are one such case alone."""
    return [rng.choice((0, 1, -5, 1300, MAX_DIFFERENCE, -MAX_DIFFERENCE))] * design.shops


@singledispatch
def sold_once(design, rng) -> list:
    """The same in every pair or shop but one: such an offer is not set aside."""
    raise TypeError(type(design))


@sold_once.register
def _(design: Paired, rng) -> list:
    cents = [0] * design.pairs
    cents[rng.randrange(design.pairs)] = rng.choice((1, -1, 5, 2 ** 26, MAX_DIFFERENCE, -MAX_DIFFERENCE))
    return cents


@sold_once.register
def _(design: Unpaired, rng) -> list:
    usual, other = rng.sample((0, 1, -1, 5, 2 ** 26, MAX_DIFFERENCE, -MAX_DIFFERENCE), 2)
    cents = [usual] * design.shops
    cents[rng.randrange(design.shops)] = other
    return cents


@singledispatch
def cancelling(design, rng) -> list:
    """Figures with entry 0 in the observed row that do not set an offer aside; where there are none, others."""
    raise TypeError(type(design))


@cancelling.register
def _(design: Paired, rng) -> list:
    if design.pairs == 1:
        return sold_once(design, rng)
    size = rng.choice((1, 5, 900, MAX_DIFFERENCE // 8))
    cents = [size] + [rng.randint(-size, size) for _ in range(design.pairs - 2)]
    cents.append(-sum(cents))
    rng.shuffle(cents)
    return cents


@cancelling.register
def _(design: Unpaired, rng) -> list:
    """Two shops of a group differ, and their sum is that of two others."""
    groups = [range(design.treated), range(design.treated, design.shops)]
    groups = [group for group in groups if len(group) > 1]
    if not groups:
        return sold_once(design, rng)
    usual, more = rng.choice((0, 7, 900)), rng.choice((1, 5, 900, MAX_DIFFERENCE // 8))
    cents = [usual] * design.shops
    one, other = rng.sample(rng.choice(groups), 2)
    cents[one], cents[other] = usual + more, usual - more
    return cents


@singledispatch
def label(design) -> str:
    """A design in the name of a case."""
    raise TypeError(type(design))


@label.register
def _(design: Paired) -> str:
    return str(design.pairs)


@label.register
def _(design: Unpaired) -> str:
    return f"{design.shops}of{design.treated}"
