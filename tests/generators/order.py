"""Lent tables for the search of a critical value by the 64-bit order of the values.

The values stand together, next to each other or far apart in that order, and come in orders of the
rows that a search may meet. Levels are such that each rank is looked for; the observed row is one
whose value is the critical value, or the next larger one: rejected or kept turns on the last bit.
"""

import math
import struct

from reference.refusals import MAX_B

from .kinds import TableCase
from .tables import HUGE, NORMAL, TINY

SHORT = 10  # rows of a column that is stored at every rank
ENDS = (-HUGE, -1.0, -NORMAL, -TINY, -0.0, 0.0, TINY, NORMAL, 1.0, HUGE)


def of_bits(bits):
    """The value with that pattern."""
    return struct.unpack("<d", struct.pack("<Q", bits))[0]


def stepped(value, steps):
    """So many values further on, away from zero, or nearer to it."""
    bits, = struct.unpack("<Q", struct.pack("<d", value))
    return of_bits(bits + steps)


# ---- the values of a column, in any order


def equal(rng, rows):
    """All equal."""
    return [rng.choice(ENDS)] * rows


def zeros(rng, rows):
    """Both zeros, and at times a value next to them."""
    return [rng.choice((0.0, -0.0, 0.0, -0.0, rng.choice((TINY, -TINY)))) for _ in range(rows)]


def subnormals(rng, rows):
    """Subnormals of both signs, up to the smallest normal value."""
    return [rng.choice((-1, 1)) * of_bits(rng.choice((rng.randrange(8), rng.getrandbits(52), 2 ** 52)))
            for _ in range(rows)]


def ends(rng, rows):
    """The largest and the smallest values of both signs: all of them, where the rows are enough."""
    turns = -(-rows // len(ENDS))
    return rng.sample(ENDS * turns, rows)


def last_bits(rng, rows):
    """Values that differ in their last bits."""
    start = rng.choice((0.0, -0.0, 1.0, -1.0, NORMAL, -NORMAL, math.pi, -1e300))
    below = rng.randrange(rows + 1) if abs(start) >= NORMAL else 0  # across the power of two, too
    return [stepped(start, rng.randrange(rows + 1) - below) for _ in range(rows)]


def powers(rng, rows):
    """Powers of two, from the smallest to the largest, of both signs."""
    return [rng.choice((-1, 1)) * math.ldexp(1.0, rng.randint(-1074, 1023)) for _ in range(rows)]


def single_bits(rng, rows):
    """Patterns with one bit set, beside the sign's."""
    return [of_bits(rng.choice((0, 2 ** 63)) | 2 ** rng.randrange(63)) for _ in range(rows)]


def clusters(rng, rows):
    """Two or three places far apart, at each of which values differ in the last bits."""
    centres = [rng.choice((-1, 1)) * math.ldexp(1 + rng.random(), rng.randint(-40, 40))
               for _ in range(rng.randint(2, 3))]
    return [stepped(rng.choice(centres), rng.randrange(3)) for _ in range(rows)]


def patterns(rng, rows):
    """Any finite value, by its pattern."""
    return [of_bits(rng.choice((0, 2 ** 63)) | rng.randrange(0x7FF0_0000_0000_0000))
            for _ in range(rows)]


KINDS = (equal, zeros, subnormals, ends, last_bits, powers, single_bits, clusters, patterns)


# ---- the order of the rows


def as_drawn(column):
    return column


def rising(column):
    return sorted(column)


def falling(column):
    return sorted(column, reverse=True)


def falling_then_rising(column):
    ordered = sorted(column)
    return ordered[::-2] + ordered[len(ordered) % 2::2]


ORDERS = (as_drawn, rising, falling, falling_then_rising)


# ---- cases


def rank_case(rng, name, column, e) -> TableCase:
    """One column at the level e/M, or at e = 0; the (M - e)-th smallest or the next one observed."""
    rows = len(column)
    ranked = sorted(range(rows), key=column.__getitem__)
    observed = ranked[min(rows - 1, rows - e - 1 + rng.randrange(2))]
    a, b = (e, rows) if e else (1, MAX_B)
    return TableCase(f"order-{name}-{rows}-e{e}", tuple(column), rows, 1, 1, a, b, observed,
                     rows + rng.randrange(3))


def order_cases(rng):
    """Of each kind of values a short column at every rank, and longer ones, in each order."""
    for kind in KINDS:
        column = kind(rng, SHORT)
        for e in range(SHORT):
            yield rank_case(rng, kind.__name__, column, e)
        for order in ORDERS:
            rows = rng.choice((16, 33))
            yield rank_case(rng, f"{kind.__name__}-{order.__name__}", order(kind(rng, rows)),
                            rng.randrange(rows))


def further_order_cases(rng):
    """Many more columns of up to 300 rows, some of 4,096, and tables of several columns."""
    for number in range(1800):
        kind, order = KINDS[number % len(KINDS)], ORDERS[number % len(ORDERS)]
        rows = rng.choice((1, 2, 3, 5, 8, 63, 64, 65, 300))
        yield rank_case(rng, f"{kind.__name__}-{order.__name__}-{number}", order(kind(rng, rows)),
                        rng.randrange(rows))
    for number, kind in enumerate(KINDS):
        for order in ORDERS:
            yield rank_case(rng, f"{kind.__name__}-{order.__name__}-large", order(kind(rng, 4096)),
                            rng.randrange(4096))
        rows, columns, k = 64, 5, 1 + number % 4
        cells = tuple(value for row in zip(*(kind(rng, rows) for _ in range(columns))) for value in row)
        yield TableCase(f"order-{kind.__name__}-several", cells, rows, columns, k, 1, 3,
                        rng.randrange(rows), rows)
