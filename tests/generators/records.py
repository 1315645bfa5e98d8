"""Trial records: anything that the types hold. Refusals 4, 15, 3, 5, 6, 7 and 12 in that order."""

from dataclasses import replace
from itertools import combinations

from reference.designs import Paired, Unpaired
from reference.trial import FIGURE_PLACES, Trial, padded, remaining, rows_of
from reference.trialfile import LONGEST, write

from .aside import (aside_trials, milk_and_saffron, planned, some_aside_shop_trial,
                    some_aside_trial)
from .designs import ENDS
from .kinds import RecordCase
from .trials import BASE, SHOP_STYLES, SHOPS_BASE, any_trial, some_shop_trial, some_trial

MOST = 2 ** 64 - 1
ROOMY = LONGEST, 512 * 16, 512


def record_cases(rng):
    """All record cases; one in four has rubbish in the places that the counts don't use."""
    for number in range(64):
        trial = some_trial(rng, 16, 7)
        yield roomy(f"record-valid-{number}", trial if number % 4 else with_rubbish(rng, trial))
    yield from short_rooms("record-room", (some_trial(rng, 16, 6) for _ in range(12)))
    for turn, (name, change) in enumerate(defects().items()):
        trial = change(BASE) if turn % 4 else with_rubbish(rng, change(BASE))
        yield roomy(f"record-{name}", trial)
        yield RecordCase(f"record-{name}-no-room", trial, 0, 0, 0)
    yield from paired_defects("record", BASE, defects(), PAIRED)
    for number in range(60):
        yield roomy(f"record-wild-{number}", wild(rng, Paired(rng.randint(0, 10))))
    yield from aside_records(rng)
    yield from shop_records(rng)


def shop_records(rng):
    """The same of shops without partners, fewer of each."""
    for design in ENDS:
        yield roomy(f"record-shops-end-{design.shops}-{design.treated}",
                    any_trial(rng, 4, design, 2, rng.choice(SHOP_STYLES)))
    for number in range(24):
        trial = some_shop_trial(rng, 9, 8)
        yield roomy(f"record-shops-valid-{number}", trial if number % 4 else with_rubbish(rng, trial))
    yield from short_rooms("record-shops-room", (some_shop_trial(rng, 6, 6) for _ in range(3)))
    yield from shop_defects(rng)
    for number in range(12):
        shops = Unpaired(rng.randint(0, 12), rng.randint(0, 11))
        yield roomy(f"record-shops-wild-{number}", wild(rng, shops))
    plans = ((1, Unpaired(2, 1)), (3, Unpaired(4, 2)))
    for turn, (name, trial) in enumerate(aside_trials(rng, plans)):
        yield roomy(f"record-shops-aside-{name}", with_rubbish(rng, trial) if turn % 2 else trial)
    yield from aside_rooms("record-shops-aside-room", some_aside_shop_trial(rng, 6, 5))


def shop_defects(rng):
    """Defects alone and together, many with no room, since 12 comes last; and each base as a trial of the other kind."""
    listed = defects(SHOPS_BASE)
    for turn, (name, change) in enumerate(listed.items()):
        trial = change(SHOPS_BASE) if turn % 16 else with_rubbish(rng, change(SHOPS_BASE))
        yield RecordCase(f"record-shops-{name}", trial, *((LONGEST, 9, 3) if turn % 3 else (0, 0, 0)))
    yield from paired_defects("record-shops", SHOPS_BASE, listed, SHOPS_PAIRED, (0, 0, 0))
    three = listed["3-8-8"](listed["15-shops-11"](listed["4-k-0"](SHOPS_BASE)))
    yield RecordCase("record-shops-4-and-15-and-3", three, 0, 0, 0)
    for name, base, design in (("as-pairs", SHOPS_BASE, Paired(3)), ("as-shops", BASE, Unpaired(2, 1))):
        trial = replace(base, design=design)
        yield RecordCase(f"record-shops-{name}", trial, len(write(trial)), rows_of(trial) * 3, rows_of(trial))


def aside_records(rng):
    """Trials with offers set aside; every other one with rubbish, which makes no offer a sold one."""
    listed = [*aside_trials(rng, ((1, Paired(1)), (4, Paired(3)))),
              *((f"any-{number}", some_aside_trial(rng, 16, 4)) for number in range(8)),
              *((f"sizes-{number}", planned(rng, 7, Paired(4), 2, 4, milk_and_saffron))
                for number in range(8))]
    for turn, (name, trial) in enumerate(listed):
        yield roomy(f"record-aside-{name}", with_rubbish(rng, trial) if turn % 2 else trial)
    for turn in range(2):
        yield from aside_rooms(f"record-aside-room-{turn}", some_aside_trial(rng, 6, 3))


def aside_rooms(name, trial):
    """Buffers that just fit, and some with room for the offers that remain alone: the table has all offers."""
    rows, left = rows_of(trial), len(remaining(trial))
    cells = rows * trial.offers
    for table_room, work_room in ((cells, rows), (rows * left, rows), (cells - 1, rows),
                                  (cells, rows - 1), (cells + 1, rows + 1)):
        yield RecordCase(f"{name}-{table_room}-{work_room}", trial, len(write(trial)), table_room,
                         work_room)


def roomy(name, trial) -> RecordCase:
    """Buffers long enough for every trial."""
    return RecordCase(name, trial, *ROOMY)


def with_rubbish(rng, trial) -> Trial:
    """Refusable content in the places that the counts don't use: nothing looks at them."""
    offers, used = min(trial.offers, 16), min(trial.offers * trial.design.units, FIGURE_PLACES)
    return replace(
        trial,
        codes=trial.codes[:offers] + tuple(rng.getrandbits(32) for _ in range(16 - offers)),
        digits=trial.digits[:offers] + tuple(rng.getrandbits(8) for _ in range(16 - offers)),
        figures=trial.figures[:used]
        + tuple(rng.randrange(-2 ** 31, 2 ** 31) for _ in range(FIGURE_PLACES - used)),
    )


def short_rooms(name, trials):
    """Refusal 12 at each buffer, and buffers that just fit."""
    for number, trial in enumerate(trials):
        length, rows = len(write(trial)), rows_of(trial)
        cells = rows * trial.offers
        rooms = [(length + d, cells + e, rows + f)
                 for d, e, f in ((0, 0, 0), (-1, 0, 0), (0, -1, 0), (0, 0, -1), (1, 1, 1),
                                 (-length, -cells, -rows), (0, -cells, 0))]
        for turn, room in enumerate(rooms):
            yield RecordCase(f"{name}-{number}-{turn}", trial, *room)


def paired_defects(name, base, listed, names, rooms=ROOMY):
    """Each two of the defects that are named."""
    for one, two in combinations(names, 2):
        yield RecordCase(f"{name}-{one}-{two}", listed[two](listed[one](base)), *rooms)


def changed(field, place, value):
    """A defect: one place of a listed field is changed."""
    def change(trial):
        places = getattr(trial, field)
        return replace(trial, **{field: places[:place] + (value,) + places[place + 1:]})
    return change


def figures(**values):
    """A defect: counts, k or level are changed."""
    return lambda trial: replace(trial, **values)


def layout(**values):
    """A defect: counts of the design are changed."""
    return lambda trial: replace(trial, design=replace(trial.design, **values))


# Of a design's own counts; for three shops with two treated and for two pairs.
LAYOUTS = {
    Paired: {f"4-pairs-{value}": layout(pairs=value) for value in (0, 10, 257, MOST)},
    Unpaired: {f"15-{field}-{value}": layout(**{field: value})
               for field, values in (("shops", (0, 1, 2, 11, 258, MOST)),
                                     ("treated", (0, 3, 4, 257, MOST))) for value in values}
              | {"15-both": layout(shops=11, treated=0), "15-shops-1-treated-1": layout(shops=1, treated=1),
                 "15-shops-0-treated-0": layout(shops=0, treated=0), "ok-treated-1": layout(treated=1)},
}


def defects(base=BASE):
    """Named defects of BASE or SHOPS_BASE; `first` and `last` are places among the used ones."""
    used = base.offers * base.design.units
    listed = {f"4-{field}-{value}": figures(**{field: value})
              for field, values in (("k", (0, 4, 5, MOST)), ("offers", (0, 1, 17, 258, MOST)))
              for value in values}
    listed |= LAYOUTS[type(base.design)]
    listed |= {f"3-{a}-{b}": figures(a=a, b=b)
               for a, b in ((0, 8), (2, 0), (8, 8), (9, 8), (1, 16_384), (MOST, MOST),
                            (1, 2 ** 32 + 2), (2 ** 32, 2 ** 32 + 9), (MOST - 1, MOST))}
    listed |= {f"5-digits-{d}": changed("digits", 0, d) for d in (0, 8, 255)}
    listed |= {f"5-number-{n}": changed("codes", 0, n)
               for n in (1000, 10_000_000, 2 ** 24, 2 ** 32 - 1)}
    listed |= {"5-last": changed("digits", 2, 2), "5-second": changed("digits", 1, 1)}
    listed |= {"6-second": changed("codes", 1, 7), "6-third": changed("codes", 2, 42)}
    listed |= {f"7-first-{d}": changed("figures", 0, d)
               for d in (134_217_728, -134_217_728, 2 ** 31 - 1, -2 ** 31)}
    listed |= {"7-last": changed("figures", used - 1, 134_217_728),
               "ok-lowest": changed("figures", 0, -134_217_727),
               "ok-beyond": changed("figures", used, -2 ** 31),
               "ok-level": figures(a=16_382, b=16_383)}
    return listed


# At least one defect of each number, at an early and at a late place.
PAIRED = ("4-k-0", "4-offers-0", "4-offers-17", "4-pairs-10", "3-0-8", "3-8-8", f"3-{MOST}-{MOST}",
          "5-digits-0", "5-number-1000", "5-last", "5-second", "6-second", "6-third",
          "7-first-134217728", "7-last")
SHOPS_PAIRED = ("4-k-0", "4-offers-17", "15-shops-1", "15-shops-11", "15-treated-0", "15-treated-3",
                "3-8-8", "5-digits-0", "6-third", "7-last")


def wild(rng, design) -> Trial:
    """Random figures, near the ranges or far off."""
    def figure(near):
        return rng.choice((rng.randint(0, near), rng.randint(1, near), rng.getrandbits(64)))
    return Trial(figure(9), figure(20), rng.randint(0, 5), rng.randint(0, 18), design,
                 tuple(rng.randrange(40) for _ in range(16)),
                 tuple(rng.choice((2, 3, 7, 7, 8)) if rng.random() < 0.2 else 2 for _ in range(16)),
                 padded([rng.choice((1, -1, 0, 5, 2 ** 27)) if rng.random() < 0.1 else 3
                         for _ in range(40)], FIGURE_PLACES))
