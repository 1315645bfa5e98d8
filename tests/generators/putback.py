"""Lent tables for the walk over put-back sets, which may leave a set or a branch after a look at the rows.

A table is planned in ranks, and SCALES makes values of them: the method looks at their order alone.
The observed row has the highest rank in the columns that step 1 is to reject, so that step 2 walks
over their sets. One of the other columns is seen at a rank below the walk's value, equal to it, or
next above, which step 2 rejects: a verdict turns on the value. A family says what the walk does, and
test_putback.py holds each table to its family.
"""

from dataclasses import dataclass, replace
from itertools import combinations
from math import comb

from reference.refusals import MAX_B
from reference.run import Run

from .kinds import StepCase, TableCase
from .order import stepped
from .tables import HUGE, TINY

BASE = 1  # the value of the first set, in most families; no rank that is filled in is above it


@dataclass(frozen=True)
class Plan:
    """What a table is made for: k, e, the columns to be put back, and those that step 1 keeps."""

    k: int
    e: int
    back: tuple
    kept: tuple

    @property
    def columns(self) -> int:
        return len(self.back) + len(self.kept)

    @property
    def high(self) -> int:
        """A rank above each that the sets can rise to, one a set, and the next one."""
        return BASE + comb(len(self.back), self.k - 1) + 2

    def sets(self) -> list:
        """The choices of columns to be put back, in the order of the walk."""
        return list(combinations(self.back, self.k - 1))


def plan(rng, k, e, back, kept) -> Plan:
    """So many columns of each sort, in any places."""
    places = rng.sample(range(back + kept), back + kept)
    return Plan(k, e, tuple(sorted(places[:back])), tuple(sorted(places[back:])))


@dataclass(frozen=True)
class Mark:
    """Rows with these ranks by column: e of them, or so many `more`.

    `rank` is the highest value that sets get from them. Where the observed row has a kept column at that
    rank or above, it is one of them.
    """

    ranks: dict
    rank: int
    more: int


def ground(p) -> Mark:
    """Every set has the value BASE."""
    return Mark(dict.fromkeys(range(p.columns), BASE), BASE, 1)


def above(rng, p, chosen, rank, more=1) -> Mark:
    """These columns put back give that rank, and so do no others."""
    return Mark(dict.fromkeys((rng.choice(p.kept), *chosen), rank), rank, more)


def short(p, rank) -> Mark:
    """Every column is above BASE, in one row too few for any set."""
    return Mark(dict.fromkeys(range(p.columns), BASE + 1), rank, 0)


# ---- families


def at_once(rng, p):
    """Nothing is above the first set's value: all that can be left is left at once."""
    return [ground(p)]


def by_set(rng, p):
    """The same, by the columns chosen alone: those to be put back are above it in more than e rows."""
    return [ground(p), Mark(dict.fromkeys(p.back, BASE + 1), BASE, 1), short(p, BASE + 1)]


def by_rest(rng, p):
    """The same, by all columns together alone: k - 1 of them are above it in more than e rows.

    Among all columns the observed row has k that are, at whatever rank the kept one is seen.
    """
    few = (*p.kept, *p.back)[:p.k - 1]
    return [ground(p), Mark(dict.fromkeys(few, BASE + 1), BASE, 2), short(p, 0)]


def in_vain(rng, p):
    """Each set is above the first one's value in e rows: most have to be looked at, and none rises."""
    return [ground(p), *(above(rng, p, chosen, BASE + 1, 0) for chosen in p.sets())]


def never(rng, p):
    """No branch is left, and as few sets rise as that takes: those with the last two columns."""
    marks = [ground(p)]
    for first in combinations(p.back[:-2], p.k - 3):
        marks.append(above(rng, p, (*first, *p.back[-2:]), BASE + len(marks)))
    return marks


def every(rng, p):
    """Each set rises. Rows serve all sets that differ in the last column alone.

    That column has the set's rank, the others a high one; other rows give the set an earlier one's rank, or none.
    """
    ranks, marks = {chosen: BASE + 1 + number for number, chosen in enumerate(p.sets())}, []
    for first in combinations(p.back[:-1], p.k - 2):
        last = {j: ranks[(*first, j)] for j in p.back if not first or j > first[-1]}
        high = dict.fromkeys((rng.choice(p.kept), *first), p.high)
        marks.append(Mark(high | last, max(last.values()), 1))
    return marks


def every_own(rng, p):
    """Each set rises, by rows of its own."""
    return [above(rng, p, chosen, BASE + 1 + number) for number, chosen in enumerate(p.sets())]


def last(rng, p):
    """The last set rises, and no other but the first; nothing else is above its value."""
    return [ground(p), above(rng, p, p.sets()[-1], BASE + 1)]


def last_in_vain(rng, p):
    """The last set rises, and no other but the first; the others are above its value in e rows."""
    return [*in_vain(rng, p)[:-1], above(rng, p, p.sets()[-1], BASE + 1)]


def falling(rng, p):
    """The second set rises above the later ones, which fall and are all above the first."""
    sets = p.sets()
    return [ground(p), *(above(rng, p, chosen, BASE + len(sets) - number)
                         for number, chosen in enumerate(sets) if number > 0)]


def exact(rng, p):
    """A set is above the best value in e + 1 rows, or in e, or equals it: some rise."""
    best, marks = BASE, [ground(p)]
    for chosen in p.sets():
        rank, more = rng.choice(((best + 1, 1), (best + 1, 0), (best, 1)))
        marks.append(above(rng, p, chosen, rank, more))
        best = max(best, rank * more)
    return marks


MARKED = (at_once, by_set, by_rest, in_vain, never, every, every_own, last, last_in_vain, falling, exact)


def few_values(rng, columns, rows):
    """Three ranks, so that most values equal the best one."""
    return [[rng.randrange(3) for _ in range(columns)] for _ in range(rows)]


def equal_columns(rng, columns, rows):
    """Each column is one of three."""
    which = [rng.randrange(3) for _ in range(columns)]
    return [[row[i] for i in which] for row in few_values(rng, 3, rows)]


def many_values(rng, columns, rows):
    """Ranks with few ties."""
    return [[rng.randrange(BASE + 40) for _ in range(columns)] for _ in range(rows)]


DRAWN = (few_values, equal_columns, many_values)
FAMILIES = (*MARKED, *DRAWN)


# ---- from ranks to values: the highest rank is the observed one of the columns to be put back


def whole(rank, highest):
    return float(rank)


def about_zero(rank, highest):
    """BASE is zero."""
    return float(rank - BASE)


def up_to_zero(rank, highest):
    return float(rank - highest)


def last_bits(rank, highest):
    return stepped(1.0, rank)


def tiny(rank, highest):
    return rank * TINY


def lowest(rank, highest):
    return stepped(-HUGE, -rank)


def largest(rank, highest):
    return stepped(HUGE, rank - highest)


SCALES = (whole, about_zero, up_to_zero, last_bits, tiny, lowest, largest)


def valued(rng, table, scale) -> tuple:
    """The values of a table of ranks, row after row; a zero has either sign."""
    highest = max(map(max, table))
    pairs = [(value, value or -0.0) for value in (scale(rank, highest) for rank in range(highest + 1))]
    cells = []
    for row in table:
        signs = rng.getrandbits(len(row))
        cells += [pairs[rank][signs >> j & 1] for j, rank in enumerate(row)]
    return tuple(cells)


# ---- tables


def filled(rng, p, ranks, most) -> list:
    """A row with these ranks by column; the others have 0, or where BASE is the most that too."""
    bits = rng.getrandbits(p.columns)
    return [ranks.get(j, bits >> j & most) for j in range(p.columns)]


def seen_rank(rng, p, marks, value) -> int:
    """Below the walk's value, equal to it, or the next above; e rows are not to be the observed one alone."""
    if p.e == 0:
        return 0
    alone = min((mark.rank for mark in marks if mark.more == 0), default=p.high) if p.e == 1 else p.high
    return rng.choice([0, *(rank for rank in (value, value + 1) if rank < alone)])


def marked(rng, p, family, rows):
    """The rows of a table but the observed one, and the observed rank of a kept column."""
    marks, most = family(rng, p), rng.randint(0, BASE)
    value = max(mark.rank for mark in marks if mark.more)
    seen = seen_rank(rng, p, marks, value)
    table = [filled(rng, p, mark.ranks, most) for mark in marks
             for _ in range(p.e + mark.more - (mark.rank <= seen))]
    if seen > value:  # step 1 has to keep the column: k others are high in e rows and the observed one
        table += [filled(rng, p, dict.fromkeys(p.back[:p.k], p.high), most) for _ in range(p.e)]
    return table + [filled(rng, p, {}, most) for _ in range(rows - 1 - len(table))], seen


def drawn(rng, p, family, rows):
    """The same of a table whose ranks are drawn; step 1 has to keep a column."""
    table = family(rng, p.columns, rows - 1)
    return table, rng.randint(0, max(map(max, table)) + 1) if len(p.kept) > 1 else 0


def observed_row(rng, p, highest, seen) -> list:
    """The observed row: of the kept columns one is seen at a rank, the others at 0; with e = 0 it is not to count."""
    row = [0] * p.columns
    for j in p.back:
        row[j] = highest if p.e else 0
    row[rng.choice(p.kept)] = seen
    return row


def level_of(rng, e, rows):
    """A level at which e of so many rows may lie above: just e rows' worth, or some more."""
    if e == 0:
        return rng.choice(((1, MAX_B), (1, rows + 1)))
    return rng.choice(((e, rows), (2 * e + 1, 2 * rows), (3 * e + 1, 3 * rows)))


def case_of(rng, family, p, rows, number) -> TableCase:
    """A table of a family, with so many rows where it needs no more."""
    table, seen = (marked if family in MARKED else drawn)(rng, p, family, rows)
    highest = 1 + max(seen, *map(max, table))
    rng.shuffle(table)
    observed = rng.choice((0, len(table), rng.randint(0, len(table))))
    table.insert(observed, observed_row(rng, p, highest, seen))
    scale = rng.choice(SCALES)
    name = (f"putback-{family.__name__}-{scale.__name__}-{len(table)}x{p.columns}-{len(p.back)}-back"
            f"-k{p.k}-e{p.e}-{number}")
    return TableCase(name, valued(rng, table, scale), len(table), p.columns, p.k,
                     *level_of(rng, p.e, len(table)), observed, len(table) + rng.randrange(2))


def families_of(k):
    """With k = 2 one column is put back: there is no branch to be left."""
    return [family for family in FAMILIES if k > 2 or family is not never]


def small_case(rng, family, k, most_e, number) -> TableCase:
    """A few columns to be put back, more than k of them, and rows as they are needed or some more."""
    e = rng.randint(1, most_e)
    p = plan(rng, k, e, rng.randint(k + 1, k + 3), rng.randint(1, 4))
    return case_of(rng, family, p, rng.randint(e + 2, 3 * e + 12), number)


def putback_cases(rng):
    """A small table of each family for each k, every other one through a view."""
    for k in (2, 3, 4):
        for number, family in enumerate(families_of(k)):
            yield replace(small_case(rng, family, k, 2, number), viewed=number % 2 == 1)


def putback_step_cases(rng):
    """At e = 0, where a run that began ends with step 1: a step of a run that is given."""
    for k in (2, 3, 4):
        for number, family in enumerate(families_of(k)):
            if family in (in_vain, last_in_vain, exact, equal_columns, many_values):
                continue
            p = plan(rng, k, 0, rng.randint(k + 1, k + 2), rng.randint(1, 3))
            yield step_of(case_of(rng, family, p, rng.randint(3, 9), number), p, number % 2 == 1)


def step_of(case, p, viewed) -> StepCase:
    """The step of a run that has rejected the columns to be put back."""
    run = Run(case.rows, case.columns, case.k, case.a, case.b, case.observed,
              rejected=sum(1 << j for j in p.back), steps=1, ended=False)
    return StepCase(f"{case.name}-step", run, case.values, case.work_room, viewed)


# family, k, e, columns to be put back, columns kept, rows: as far as the reference goes through all sets
LARGE = ((at_once, 2, 409, 31, 1, 4096), (every, 2, 1023, 16, 16, 4096), (few_values, 2, 2047, 8, 24, 4096),
         (by_set, 3, 40, 5, 27, 4096), (every, 3, 300, 6, 26, 4096), (last_in_vain, 3, 230, 6, 26, 4096),
         (by_rest, 4, 1000, 5, 27, 4096), (never, 4, 400, 5, 27, 4096), (exact, 4, 180, 6, 26, 4096),
         (in_vain, 2, 15, 30, 2, 512), (equal_columns, 3, 64, 7, 9, 512), (every, 4, 40, 6, 10, 512),
         (last, 4, 27, 7, 9, 512), (few_values, 4, 300, 7, 9, 512), (many_values, 4, 100, 7, 9, 512),
         (every, 2, 5, 31, 1, 64), (every, 3, 1, 31, 1, 64), (every_own, 3, 2, 16, 4, 400), (every, 4, 1, 16, 3, 230),
         (at_once, 3, 3, 31, 1, 12), (at_once, 4, 1, 31, 1, 7), (by_set, 4, 2, 28, 4, 16), (by_rest, 4, 3, 28, 4, 16),
         (in_vain, 4, 1, 10, 4, 150), (never, 4, 2, 20, 2, 64), (last, 4, 1, 24, 8, 16), (last, 3, 2, 31, 1, 16))


def further_putback_cases(rng):
    """Many more small ones, some at more levels, and large ones."""
    for number in range(16):
        for k in (2, 3, 4):
            for family in families_of(k):
                yield small_case(rng, family, k, (2, 3, 7)[number % 3], f"further-{number}")
    for family, k, e, back, kept, rows in LARGE:
        yield case_of(rng, family, plan(rng, k, e, back, kept), rows, "large")
