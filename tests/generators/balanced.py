"""Lent tables to be balanced: refusals 4 for the sizes, 9, 11, 12 in that order.

A column is looked at by itself: the columns of a table are of any kinds, each with its rows in an
order of its own. Some kinds are made for a sort by the bits of the values, from the last bits or
from the first: values that differ in few of their bytes, crowds, and one value far from all others.
"""

from itertools import combinations, product

from . import order, tables
from .adjusted import few_ranks, near_zero, small_cents
from .kinds import BalancedCase, BalancedRunCase, Repeated
from .order import ORDERS, of_bits, stepped
from .tables import INF, MOST, NAN, STYLES, TINY, figure_defects

ROWS = (1, 2, 3, 4, 5, 8, 9, 16, 33, 64, 100)


def balanced_cases(rng):
    """Many small tables, each kind in each order, some at the limits, and refused ones."""
    yield from small_tables(rng, 1500)
    yield from tiny_tables()
    yield from each_kind(rng)
    yield from largest_tables(rng)
    yield from refused_tables()


def case_of(name, cells, rows, columns, more=0) -> BalancedCase:
    """A case with room for the table, and for so many places more, or fewer."""
    return BalancedCase(f"balanced-{name}", cells, rows, columns, max(0, rows * columns + more))


# ---- the values of a column, in any order


def drawn(style):
    """A kind whose values are drawn one by one."""
    def kind(rng, rows):
        return [style(rng) for _ in range(rows)]
    kind.__name__ = style.__name__
    return kind


def cents(rng, rows):
    """Whole cents, with ties where rows are many."""
    return [float(round(rng.gauss(0, 300))) for _ in range(rows)]


def parts(rng, rows):
    """Hundredths and thirds, with ties: no code of equal steps gives them back."""
    unit = rng.choice((0.01, 1 / 3))
    return [unit * rng.randint(-400, 400) for _ in range(rows)]


def numbered(rng, rows):
    """All different: the numbers of the rows, mixed."""
    return [float(number) for number in rng.sample(range(rows), rows)]


def in_bytes(rng, rows, places):
    """Values that have all other bytes in common; place 0 is the last byte."""
    mask, shared = sum(0xFF << 8 * place for place in places), rng.getrandbits(64)
    return [of_bits(finite(shared & ~mask | rng.getrandbits(64) & mask)) for _ in range(rows)]


def finite(bits):
    """The pattern, or one with another exponent where it is that of no finite value."""
    return bits & ~(1 << 62) if bits >> 52 & 0x7FF == 0x7FF else bits


def one_byte(rng, rows):
    """They differ in one byte."""
    return in_bytes(rng, rows, [rng.randrange(8)])


def some_bytes(rng, rows):
    """They differ in some bytes."""
    return in_bytes(rng, rows, rng.sample(range(8), rng.randint(2, 4)))


def low_bytes(rng, rows):
    """They have their first bytes in common."""
    return in_bytes(rng, rows, range(rng.randint(1, 6)))


def far_one(rng, rows):
    """All within a millionth of one value, but for one."""
    column = [1000 + 1e-6 * rng.random() for _ in range(rows)]
    column[rng.randrange(rows)] = rng.choice((-1e300, -5.0, 2e9))
    return column


def crowds(rng, rows):
    """Two crowds, one at each side of zero, that differ in the last bits."""
    return [rng.choice((1, -1)) * stepped(1.0, rng.randrange(4096)) for _ in range(rows)]


KINDS = (*order.KINDS, *map(drawn, (*STYLES, few_ranks, small_cents, near_zero)), cents, parts,
         numbered, one_byte, some_bytes, low_bytes, far_one, crowds)


# ---- tables


def table_of(columns) -> tuple:
    """Columns as a table, row after row."""
    return tuple(value for row in zip(*columns) for value in row)


def any_column(rng, rows):
    """A column of some kind, its rows in some order."""
    return rng.choice(ORDERS)(rng.choice(KINDS)(rng, rows))


def small_tables(rng, how_many):
    """Columns of any kinds, with buffers that fit, are longer or too short."""
    for number in range(how_many):
        rows, columns = rng.choice(ROWS), rng.randint(1, 8)
        cells = table_of([any_column(rng, rows) for _ in range(columns)])
        more = rng.choice((0, 0, 0, 1, 7, -1, -len(cells)))
        yield case_of(f"small-{rows}x{columns}-{number}", cells, rows, columns, more)


def tiny_tables():
    """One row and one column, and every table of zeros and ones of some sizes; a row has one sign of zero, the next the other."""
    for value in (0.0, -0.0, 1.5, -TINY):
        yield case_of(f"1x1-{value}", (value,), 1, 1)
    for rows, columns in ((2, 1), (1, 2), (3, 1), (2, 2), (3, 2), (2, 3)):
        for bits in range(2 ** (rows * columns)):
            cells = tuple((1.0, 0.0 if i // columns % 2 else -0.0)[bits >> i & 1]
                          for i in range(rows * columns))
            yield case_of(f"bits-{rows}x{columns}-{bits:b}", cells, rows, columns)


def each_kind(rng):
    """Each kind in each order: three columns about 256 rows, and some of 4,096."""
    for number, (kind, ordered) in enumerate(product(KINDS, ORDERS)):
        name = f"{kind.__name__}-{ordered.__name__}-{number}"
        rows = rng.choice((255, 256, 257, 300))
        columns = [ordered(kind(rng, rows)) for _ in range(3)]
        yield case_of(f"{name}-{rows}", table_of(columns), rows, 3, rng.choice((0, 5)))
        if number % 3 == 0:
            yield case_of(f"{name}-4096", tuple(ordered(kind(rng, 4096))), 4096, 1)


LARGE = ((KINDS, 4096, 32), ((order.patterns,), 4096, 32), ((cents,), 4096, 32), (KINDS, 4095, 31),
         (KINDS, 1, 32), (KINDS, 2, 32))


def largest_tables(rng):
    """Both ends of the sizes, and buffers next to what the largest table takes."""
    for kinds, rows, columns in LARGE:
        cells = table_of([rng.choice(kinds)(rng, rows) for _ in range(columns)])
        name = kinds[0].__name__ if len(kinds) == 1 else "any"
        yield case_of(f"{name}-{rows}x{columns}", cells, rows, columns)
    ones = [float(rng.randrange(3)) for _ in range(101)]
    for rows, columns, more in ((4097, 1, 0), (4096, 33, 0), (1, 33, 0), (4096, 32, -1),
                                (4096, 32, 9)):
        cells = Repeated((), ones, rows * columns)
        yield case_of(f"end-{rows}x{columns}-{more}", cells, rows, columns, more)
    for name, bad in (("inf", INF), ("nan", NAN)):
        yield case_of(f"end-{name}", Repeated((), ones, 4096 * 32 - 1) + (bad,), 4096, 32)
    for length in (4096 * 32 - 1, 4096 * 32 + 1):
        yield case_of(f"end-length-{length}", Repeated((), ones, length), 4096, 32)


# ---- refusals


def defects(good):
    """Named changes of an accepted case that break 4, 9, 11 or 12, and some that break nothing."""
    listed = {name: change for name, change in figure_defects().items()
              if name.startswith(("4-rows", "4-columns"))}
    # The product of these sizes is 0 where it is taken modulo 2^64.
    listed |= {"4-both": dict(rows=2 ** 32, columns=2 ** 32, values=()),
               "4-rows-twice": dict(rows=(MOST + 1) // 2, values=())}
    listed |= {f"9-{n}": dict(values=(1.0, NAN, 2.0, 3.0, INF, 0.0, 0.5)[:n]) for n in (0, 1, 5, 7)}
    for place, (name, bad) in product((0, 3, 5), (("inf", INF), ("minus-inf", -INF), ("nan", NAN))):
        cells = good["values"][:place] + (bad,) + good["values"][place + 1:]
        listed[f"11-{name}-{place}"] = dict(values=cells)
    listed |= {f"12-{room}": dict(out_room=room) for room in (0, 1, 5)}
    listed |= {"ok": {}, "ok-longer": dict(out_room=13)}
    return listed


def refused_tables():
    """Each refusal alone, and each two together, over a table of 3 rows, 2 columns."""
    good = dict(values=(5.0, 1.0, 2.0, 4.0, 0.0, 3.0), rows=3, columns=2, out_room=6)
    listed = defects(good)
    for name, change in listed.items():
        yield BalancedCase(f"balanced-{name}", **{**good, **change})
    for (one, first), (two, second) in combinations(listed.items(), 2):
        yield BalancedCase(f"balanced-{one}-{two}", **{**good, **second, **first})


# ---- full runs


def balanced_run_cases(rng):
    """Tables of each style, and the refused ones of a plain run, with room for the table and without."""
    for case in tables.accepted_tables(rng, 40):
        yield run_case(case, case.rows * case.columns + rng.choice((0, 0, 1, 7)))
    for case, room in product(tables.refused_tables(), (6, 5)):
        yield run_case(case, room)


def run_case(case, out_room) -> BalancedRunCase:
    """The table of a full run for a balanced one."""
    figures = {**vars(case), "name": f"balanced-run-{case.name}-room-{out_room}"}
    return BalancedRunCase(**figures, out_room=out_room)
