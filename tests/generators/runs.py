"""Runs taken step by step: refusals 14, 13, 9, 11, 12 in that order."""

import math
from dataclasses import replace
from itertools import chain, cycle, islice

from reference.run import Run

from .kinds import StepCase, WalkCase
from .tables import (MOST, STYLES, begin_cases, in_both_ways, normal, refused_tables, rounded,
                     staircase, table_case, values)
from .trials import level

# 5 rows, 4 columns, k 2: a run that no clause of 14 spoils, after two steps.
LEGAL = Run(5, 4, 2, 1, 4, 0, 0b0111, 2, False)
CELLS = tuple(float(v) for v in (9, 8, 7, 2, 4, 1, 2, 3, 0, 4, 5, 1, 1, 0, 1, 6, 2, 2, 0, 3))


def step_cases(rng):
    """Runs of each sort, every other one through a view, and refused steps in both ways."""
    for turn, case in enumerate(chain(arbitrary_runs(rng), spoiled_runs(), wild_runs(rng))):
        yield replace(case, viewed=turn % 2 == 1)
    yield from in_both_ways(refused_steps())


def arbitrary_runs(rng):
    """Runs that no clause spoils, whatever led there: any k or more rejected, some left."""
    for number in range(60):
        rows, k = rng.choice((1, 3, 8, 25)), rng.randint(1, 4)
        columns = rng.choice((rng.randint(k + 1, 9), rng.randint(k + 1, 16), 32 if k < 3 else 12))
        held = rng.sample(range(columns), rng.randint(k, columns - 1))
        observed = rng.randrange(rows)
        a, b = level(rng, rows)
        cells = values(rng, rows, columns, STYLES[number % len(STYLES)], observed)
        if rng.random() < 0.3:
            style = rng.choice((normal, rounded))
            cells = values(rng, rows, columns, style, observed, rng.randint(1, columns))
        run = Run(rows, columns, k, a, b, observed, sum(1 << j for j in held),
                  rng.choice((1, len(held), rng.randint(1, len(held)))), False)
        yield StepCase(f"step-arbitrary-{number}", run, cells, rows)


def spoils():
    """Named changes of LEGAL, each breaking a clause of refusal 14."""
    listed = {f"3-{a}-{b}": dict(a=a, b=b) for a, b in
              ((0, 4), (1, 0), (4, 4), (5, 4), (1, 16_384), (1, MOST), (MOST, 4))}
    listed |= {f"4-rows-{n}": dict(rows=n) for n in (0, 4097, MOST)}
    listed |= {f"4-columns-{n}": dict(columns=n) for n in (0, 33, MOST)}
    listed |= {f"4-k-{n}": dict(k=n) for n in (0, 5, MOST)}
    listed["4-k-above-columns"] = dict(columns=3, k=4, rejected=0b11)
    listed |= {f"10-{n}": dict(observed=n) for n in (5, 6, MOST)}
    listed |= {f"column-{j}": dict(rejected=0b0011 | 1 << j) for j in (4, 5, 31)}
    listed["column-beyond-only"] = dict(rejected=0b110000)
    listed |= {f"steps-{n}": dict(steps=n) for n in (33, 34, 255, 256, 2 ** 32 + 2, MOST)}
    listed["rejections-at-step-0"] = dict(steps=0)
    listed["ended-at-step-0"] = dict(steps=0, rejected=0, ended=True)
    listed |= {f"fewer-than-steps-{n}": dict(steps=n) for n in (4, 5, 32)}
    listed |= {"fewer-than-steps-k1": dict(k=1, rejected=0b1, steps=2),
               "nothing-at-step-1": dict(rejected=0, steps=1),
               "fewer-than-k": dict(rejected=0b1000, steps=1),
               "fewer-than-k4": dict(k=4, rejected=0b0111, steps=3),
               "none-left": dict(rejected=0b1111),
               "none-left-at-step-4": dict(rejected=0b1111, steps=4),
               "none-left-one-column": dict(columns=1, k=1, rejected=1, steps=1)}
    return listed


def lent():
    """Tables and work rooms for a step of a run of 5 x 4: accepted, then 9, 11, 12 and mixed."""
    bad = CELLS[:7] + (math.nan,) + CELLS[8:]
    return {"ok": (CELLS, 5), "9": (CELLS[:-1], 5), "9-more": (CELLS + (0.0,), 5),
            "9-none": ((), 0), "11": (bad, 5), "11-inf": ((-math.inf,) + CELLS[1:], 6),
            "12": (CELLS, 4), "12-none": (CELLS, 0), "9-11": (bad[:-1], 5),
            "9-12": (CELLS[:-1], 0), "11-12": (bad, 4), "9-11-12": (bad + (0.0,), 4)}


def spoiled_runs():
    """Each spoil, ended as well or not, over lent tables in turn: 14 before 13, 9, 11, 12.

    Some clauses speak of runs not ended only: with ended set these are 13.
    """
    turns = cycle(lent().items())
    for name, change in spoils().items():
        for ended in (False, True):
            run = replace(LEGAL, **{"ended": ended, **change})
            for lent_name, (cells, room) in islice(turns, 5):
                yield StepCase(f"step-spoiled-{name}-{'ended-' * ended}{lent_name}",
                               run, cells, room)


def refused_steps():
    """Accepted runs and ended ones over each lent table: 13, 9, 11, 12."""
    runs = {"legal": LEGAL, "begun": replace(LEGAL, rejected=0, steps=0),
            "last-rung": replace(LEGAL, k=1, steps=3),
            "ended": replace(LEGAL, ended=True),
            "ended-all": replace(LEGAL, rejected=0b1111, ended=True),
            "ended-odd-none": replace(LEGAL, rejected=0, steps=32, ended=True),
            "ended-odd-few": replace(LEGAL, rejected=1, steps=3, ended=True)}
    for name, run in runs.items():
        for lent_name, (cells, room) in lent().items():
            yield StepCase(f"step-{name}-{lent_name}", run, cells, room)
    wide = Run(1, 32, 1, 1, 2, 0, 2 ** 31 - 1, 31, False)
    cells = tuple(float(j) for j in range(32))
    yield StepCase("step-wide-31", wide, cells, 1)
    yield StepCase("step-wide-31-top", replace(wide, rejected=2 ** 32 - 2), cells, 1)
    yield StepCase("step-wide-32", replace(wide, rejected=2 ** 32 - 1, steps=32), cells, 1)
    yield StepCase("step-wide-32-ended",
                   replace(wide, rejected=2 ** 32 - 1, steps=32, ended=True), cells, 1)


def wild_runs(rng):
    """Random figures near the clauses' edges."""
    for number in range(200):
        run = Run(rng.choice((5, 5, 5, 4, 6)), rng.choice((4, 4, 4, 3, 5)), rng.randint(1, 4),
                  rng.randint(1, 4), rng.randint(4, 5), rng.choice((0, 1, 4, 5)),
                  rng.choice((rng.randrange(16), rng.randrange(16), rng.randrange(32))),
                  rng.choice((0, 1, 1, 2, 3, 4, 32, 33)), rng.random() < 0.2)
        yield StepCase(f"step-wild-{number}", run, CELLS, rng.choice((5, 5, 5, 4)))


def walk_cases(rng):
    """Tables of each style, every other one through a view; long and refused runs in both ways."""
    for turn, case in enumerate(styled_walks(rng)):
        yield walked(replace(case, viewed=turn % 2 == 1))
    for case in in_both_ways(chain(long_walks(rng), refused_tables(), begin_cases(rng))):
        yield walked(case)


def walked(t) -> WalkCase:
    """The run by steps of a table case."""
    return WalkCase(**{**vars(t), "name": f"walk-{t.name}"})


def styled_walks(rng):
    """Tables of each style."""
    for number in range(100):
        rows, columns = rng.choice((1, 2, 4, 8, 20)), rng.randint(1, 12)
        yield table_case(rng, f"styled-{number}", rows, columns,
                         rng.randint(1, min(4, columns)), STYLES[number % len(STYLES)])


def long_walks(rng):
    """Many steps, and the largest table."""
    for k, columns in ((1, 32), (2, 16), (3, 12), (4, 10)):
        for rows in (40, 16, 9):
            yield staircase(rng, rows, columns, k, rng.randrange(rows))
    yield table_case(rng, "4096x32", 4096, 32, 2, normal, 12, (1, 4096))
