"""Lent tables for adjusted figures: refusals 4, 9, 10, 11, 12 in that order.

No level is taken: the call never sees that of a case. Staircases and refused tables have one, those
of refusal 3 one that a full run refuses; the others have none.
"""

from dataclasses import replace
from itertools import chain

from .kinds import Repeated, TableCase
from .tables import (NORMAL, STYLES, TINY, normal, refused_tables, rounded, signed_zeros, staircase,
                     ties)

ROWS = (1, 2, 3, 4, 5, 8, 9, 16, 33, 64)


def adjusted_cases(rng):
    """Thousands of small tables, some at the limits, and refused ones, alone and in pairs."""
    yield from small_tables(rng, 5000)
    yield from tiny_tables()
    yield from largest_tables(rng)
    for case in chain(staircases(rng), refused_tables(every_pair=True)):
        yield replace(case, name=f"adjusted-{case.name}")


def case_of(name, cells, rows, columns, k, observed, room=None) -> TableCase:
    """A case without a level; the work buffer fits where its room is not given."""
    return TableCase(f"adjusted-{name}", cells, rows, columns, k, 0, 0, observed,
                     rows if room is None else room)


def few_ranks(rng):
    """Three values, so that columns tie in the observed row and rows tie with it."""
    return float(rng.randrange(3))


def small_cents(rng):
    """Sums of few cents: ties between some."""
    return float(rng.randint(-6, 6))


def near_zero(rng):
    """Both zeros among the values next to them."""
    return rng.choice((0.0, -0.0, 1.0, -1.0, TINY, -TINY, NORMAL))


DRAWN = (*STYLES, few_ranks, small_cents, near_zero)


def small_tables(rng, how_many):
    """Tables of each style, with any row observed, whose values are drawn in each of these ways."""
    for number in range(how_many):
        style = DRAWN[number % len(DRAWN)]
        rows, columns = rng.choice(ROWS), rng.randint(1, 8)
        k, observed = rng.randint(1, min(4, columns)), rng.randrange(rows)
        cells = drawn(rng, rows, columns, style, observed, OBSERVED[number % len(OBSERVED)])
        room = rng.choice((rows, rows, rows + 1, rows + 7, rows - 1))
        yield case_of(f"{style.__name__}-{rows}x{columns}-k{k}-{number}", cells, rows, columns, k,
                      observed, room)


def as_drawn(rng, row, column, value):
    return value


def largest(rng, row, column, value):
    return column[-1]


def among_largest(rng, row, column, value):
    return rng.choice(column[-2:])


def some_largest(rng, row, column, value):
    return rng.choice((column[-1], value))


def equals(rng, row, column, value):
    """The value of some column of the row."""
    return rng.choice(row)


OBSERVED = (as_drawn, largest, among_largest, some_largest, equals)


def drawn(rng, rows, columns, style, observed, choice) -> tuple:
    """A table of that style, its observed values chosen by the sorted columns and those drawn."""
    cells = [style(rng) for _ in range(rows * columns)]
    first = observed * columns
    row = cells[first:first + columns]
    for j, value in enumerate(row):
        cells[first + j] = choice(rng, row, sorted(cells[j::columns]), value)
    return tuple(cells)


def tiny_tables():
    """One row, one column, and every table of zeros and ones of some sizes."""
    for value in (0.0, -0.0, 1.5, -TINY):
        yield case_of(f"1x1-{value}", (value,), 1, 1, 1, 0)
    for rows, columns in ((2, 1), (1, 2), (3, 1), (2, 2), (3, 2), (2, 3)):
        for bits in range(2 ** (rows * columns)):
            cells = tuple((1.0, 0.0 if i % 2 else -0.0)[bits >> i & 1]
                          for i in range(rows * columns))
            for k in range(1, columns + 1):
                yield case_of(f"bits-{rows}x{columns}-{bits:b}-k{k}", cells, rows, columns, k,
                              bits % rows)


def staircases(rng):
    """Tables of many steps, for each k."""
    for k in (1, 2, 3, 4):
        for columns in (k, k + 1, 8, 11):
            yield staircase(rng, rng.choice((4, 9, 20, 48)), columns, k, rng.randrange(4))


LARGE = ((4096, 1, 1, normal, as_drawn), (4096, 1, 1, signed_zeros, as_drawn),
         (1, 32, 4, rounded, equals), (512, 16, 1, normal, some_largest),
         (512, 16, 3, rounded, equals), (512, 16, 4, normal, as_drawn),
         (512, 16, 4, normal, some_largest), (4096, 32, 1, normal, some_largest),
         (4096, 32, 1, ties, as_drawn), (4096, 32, 4, normal, largest), (4095, 31, 2, ties, equals),
         (4096, 6, 4, normal, as_drawn), (64, 32, 3, normal, some_largest))


def largest_tables(rng):
    """Both ends of the sizes, as far as every e can be tried for them."""
    for rows, columns, k, style, choice in LARGE:
        observed = rng.choice((0, rows - 1, rng.randrange(rows)))
        cells = drawn(rng, rows, columns, style, observed, choice)
        yield case_of(f"{style.__name__}-{choice.__name__}-{rows}x{columns}-k{k}", cells, rows,
                      columns, k, observed)
    ones = [float(rng.randrange(3)) for _ in range(101)]
    for rows, columns, room in ((4097, 1, 4097), (4096, 33, 4096), (4096, 32, 4095), (1, 33, 1)):
        yield case_of(f"end-{rows}x{columns}-room-{room}", Repeated((), ones, rows * columns), rows,
                      columns, 1, rows - 1, room)
