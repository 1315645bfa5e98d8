"""Lent tables and the figures of a begun run: refusals 4, 3, 9, 10, 11, 12 in that order."""

import math
from dataclasses import replace
from itertools import chain, combinations

from reference.refusals import MAX_B

from .kinds import Repeated, TableCase
from .trials import level

MOST = 2 ** 64 - 1
NAN, INF = math.nan, math.inf
TINY, HUGE = 5e-324, 1.7976931348623157e308
NORMAL = 2.2250738585072014e-308  # the smallest normal value
LARGE = 2048  # a table of more values than this has only
DRAWN = 1021  # so many of its own; a prime, so that rows and columns differ


def ties(rng):
    return rng.choice((0.0, 1.0))


def signed_zeros(rng):
    """Both zeros, and now and then a value beside them."""
    return rng.choice((0.0, -0.0, 0.0, -0.0, TINY, -TINY))


def subnormals(rng):
    return rng.choice((-1, 1)) * rng.randrange(4) * TINY + rng.choice((0.0, NORMAL - TINY))


def huge(rng):
    return rng.choice((HUGE, -HUGE, math.nextafter(HUGE, 0.0), -math.nextafter(HUGE, 0.0), 1e308))


def normal(rng):
    return rng.gauss(0.0, 1.0)


def rounded(rng):
    """Few distinct values of both signs."""
    return rng.randint(-8, 8) / 4.0


def any_size(rng):
    """Any exponent, either sign."""
    return math.ldexp(rng.choice((-1, 1)) * rng.random(), rng.randint(-1074, 1024))


def neighbours(rng):
    """Values that differ in the last bit."""
    return rng.choice((1.0, math.nextafter(1.0, 2.0), math.nextafter(1.0, 0.0)))


STYLES = (ties, signed_zeros, subnormals, huge, normal, rounded, any_size, neighbours)


def values(rng, rows, columns, style, observed, lift=0):
    """A table of that style; the first `lift` columns get falling peaks in the observed row.

    That row is the first one of a large table.
    """
    peaks = [1e300 if j % 3 == 0 else 2.0 + 0.25 * (columns - j) for j in range(lift)]
    if rows * columns > LARGE:
        first = peaks + [style(rng) for _ in range(columns - lift)] if lift else []
        return Repeated(first, [style(rng) for _ in range(DRAWN)], rows * columns)
    cells = [style(rng) for _ in range(rows * columns)]
    cells[observed * columns:observed * columns + lift] = peaks
    return tuple(cells)


def table_case(rng, name, rows, columns, k, style, lift=None, at=None) -> TableCase:
    """An accepted table with an observed row drawn for it, and a level where none is given."""
    observed = rng.choice((0, rows - 1, rng.randrange(rows))) if rows * columns <= LARGE else 0
    lift = rng.randint(0, columns) if lift is None else lift
    a, b = at or level(rng, rows)
    cells = values(rng, rows, columns, style, observed, lift if style in (normal, rounded) else 0)
    return TableCase(name, cells, rows, columns, k, a, b, observed,
                     rng.choice((rows, rows + 1, rows + 7)))


def staircase(rng, rows, columns, k, observed=0) -> TableCase:
    """Falling columns, the observed row on top of each: many steps of few rejections."""
    cells = []
    for g in range(rows):
        for j in range(columns):
            top = float(columns - j) * 4.0
            cells.append(top if g == observed else top - rng.choice((3.0, 5.0, 6.0, 9.0)))
    return TableCase(f"table-staircase-{rows}x{columns}-k{k}", tuple(cells), rows, columns, k,
                     1, max(2, rows - 1), observed, rows)


def table_cases(rng):
    """Accepted tables, every other one through a view, and refused ones, each in both ways."""
    for turn, case in enumerate(chain(accepted_tables(rng, 120), large_tables(rng))):
        yield replace(case, viewed=turn % 2 == 1)
    yield from in_both_ways(refused_tables())


def further_table_cases(rng):
    """More accepted tables, and each two refusals together."""
    for case in chain(accepted_tables(rng, 600), refused_tables(every_pair=True)):
        yield replace(case, name=f"further-{case.name}")


def in_both_ways(cases):
    """Each case by itself and through a view."""
    for case in cases:
        yield case
        yield replace(case, name=f"{case.name}-viewed", viewed=True)


def accepted_tables(rng, how_many):
    """Small and middling tables of each style, and staircases."""
    for number in range(how_many):
        style = STYLES[number % len(STYLES)]
        rows, columns = rng.choice((1, 2, 3, 4, 7, 8, 16, 33, 64)), rng.randint(1, 12)
        k = rng.randint(1, min(4, columns))
        yield table_case(rng, f"table-{style.__name__}-{rows}x{columns}-k{k}-{number}",
                         rows, columns, k, style)
    for value in (0.0, -0.0, 1.5, -HUGE, TINY):
        yield TableCase(f"table-1x1-{value}", (value,), 1, 1, 1, 1, 2, 0, 1)
    for zeros in ((0.0, -0.0), (-0.0, 0.0), (-0.0, -0.0)):
        yield TableCase(f"table-zeros-{zeros}", zeros, 2, 1, 1, 1, 2, 0, 2)
    for k in (1, 2, 3, 4):
        for columns in (k, k + 1, 6, 9, 32 if k == 1 else 12):
            yield staircase(rng, rng.choice((4, 9, 20)), columns, k)


def large_tables(rng):
    """Both ends of the sizes. Small levels, so that the put-back sets are few."""
    yield table_case(rng, "table-4096x1", 4096, 1, 1, normal, 1)
    yield table_case(rng, "table-1x32", 1, 32, 4, rounded, 0)
    yield table_case(rng, "table-4096x32-ties", 4096, 32, 4, ties)
    yield table_case(rng, "table-4096x32-zeros", 4096, 32, 1, signed_zeros)
    yield table_case(rng, "table-4096x32-normal-k4", 4096, 32, 4, normal, 7, (1, 4096))
    yield table_case(rng, "table-4096x32-normal-k2", 4096, 32, 2, normal, 20, (3, 4096))
    yield table_case(rng, "table-4095x31", 4095, 31, 3, any_size)
    yield staircase(rng, 64, 32, 1, 63)
    yield staircase(rng, 12, 32, 3, 5)
    ones = [float(rng.randrange(3)) for _ in range(101)]
    for rows, columns in ((4096, 32), (4097, 1), (4096, 33), (4097, 32), (1, 33)):
        for room in (rows, rows - 1):
            yield TableCase(f"table-end-{rows}x{columns}-room-{room}",
                            Repeated((), ones, rows * columns), rows, columns, 1, 1, 4, rows - 1,
                            room)
    for name, bad in (("inf", INF), ("nan", NAN)):
        yield TableCase(f"table-end-{name}", Repeated((bad,), ones, 4096 * 32), 4096, 32, 2,
                        1, 4, 0, 4096)
    for length in (4096 * 32 - 1, 4096 * 32 + 1):
        yield TableCase(f"table-end-length-{length}", Repeated((), ones, length), 4096, 32, 2,
                        1, 4, 0, 4096)


def figure_defects():
    """Named changes of accepted figures that break 4, 3 or 10."""
    listed = {f"4-rows-{n}": dict(rows=n) for n in (0, 4097, 2 ** 32 + 3, MOST)}
    listed |= {f"4-columns-{n}": dict(columns=n) for n in (0, 33, 2 ** 32 + 2, MOST)}
    listed |= {f"4-k-{k}": dict(k=k) for k in (0, 3, 5, MOST)}
    listed |= {f"3-{a}-{b}": dict(a=a, b=b) for a, b in
               ((0, 4), (1, 0), (4, 4), (5, 4), (1, MAX_B + 1), (1, MOST), (MOST, 4), (MOST, MOST))}
    listed |= {f"10-{n}": dict(observed=n) for n in (3, 4, 2 ** 32, MOST)}
    return listed


def refused_tables(every_pair=False):
    """Each refusal alone, and some or all pairs, over an accepted table of 3 rows, 2 columns."""
    good = dict(values=(5.0, 1.0, 2.0, 4.0, 0.0, 3.0), rows=3, columns=2, k=2, a=1, b=3,
                observed=0, work_room=3)
    listed = figure_defects()
    listed |= {f"9-{n}": dict(values=(1.0, NAN, 2.0, 3.0, INF, 0.0, 0.5)[:n]) for n in (0, 1, 5, 7)}
    for place in (0, 3, 5):
        for name, bad in (("inf", INF), ("minus-inf", -INF), ("nan", NAN)):
            cells = good["values"][:place] + (bad,) + good["values"][place + 1:]
            listed[f"11-{name}-{place}"] = dict(values=cells)
    listed |= {f"12-{n}": dict(work_room=n) for n in (0, 1, 2)}
    listed["ok"] = {}
    for name, change in listed.items():
        yield TableCase(f"table-{name}", **{**good, **change})
    paired = listed if every_pair else thinned(listed)
    for (one, first), (two, second) in combinations(paired.items(), 2):
        yield TableCase(f"table-{one}-{two}", **{**good, **second, **first})


def thinned(listed):
    """Of each number's changes the first and the last."""
    by_number = {}
    for name, change in listed.items():
        by_number.setdefault(name.split("-")[0], []).append((name, change))
    return {name: change for changes in by_number.values()
            for name, change in (changes[0], changes[-1])}


def begin_cases(rng):
    """Beginnings over no table: accepted figures at their ends, defects alone and in pairs."""
    good = dict(values=(), rows=3, columns=2, k=2, a=1, b=3, observed=0, work_room=0)
    for number in range(60):
        rows, columns = rng.choice((1, 2, 4096, rng.randint(1, 4096))), rng.randint(1, 32)
        a, b = level(rng, rows)
        yield TableCase(f"begin-valid-{number}", (), rows, columns, rng.randint(1, min(4, columns)),
                        a, b, rng.choice((0, rows - 1)), 0)
    for name, change in figure_defects().items():
        yield TableCase(f"begin-{name}", **{**good, **change})
    for (one, first), (two, second) in combinations(thinned(figure_defects()).items(), 2):
        yield TableCase(f"begin-{one}-{two}", **{**good, **second, **first})
