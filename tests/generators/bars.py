"""Tables and trials with many ties, for the row and the offer of each critical value (document 02, §5).

Few different values, zeros of both signs among them: a critical value stands in many rows and in many offers
of a row, and many put-back sets give it. Most runs take several steps, so that sets are put back. Some tables
are made for the order of these sets, the last offer of 32 or a row above 255. Which wrong rows and offers these
cases tell apart, test_bars.py says.
"""

from dataclasses import replace
from itertools import chain, cycle, islice, product

from reference.balanced import full_run as run_balanced
from reference.run import Run
from reference.table import full_run as run_table
from reference.trial import Trial, full_run as run_trial, make_trial, rows_of
from reference.trialfile import LONGEST, write

from .balanced import run_case
from .designs import label, raised, raising, some_paired, some_unpaired, untested
from .files import LONGEST_REPORT, report_room
from .kinds import FileCase, RecordCase, StepCase, TableCase
from .runs import walked
from .trials import printed_codes

TRIES = 40  # draws until a run takes as many steps as are asked for; then the last one does
STEPS = (2, 3, 1, 2, 4)  # in turn


# ---- tables: a style gives the rows but the observed one, in ranks from 0 up, and the observed one


def few_values(rng, rows, columns, k):
    """Three ranks; k columns or more are observed above them."""
    table = [[rng.randrange(3) for _ in range(columns)] for _ in range(rows - 1)]
    seen = [3] * rng.randint(k, columns) + [rng.randrange(4) for _ in range(columns)]
    return table, rng.sample(seen[:columns], columns)


def equal_columns(rng, rows, columns, k):
    """Each column is one of three."""
    which = [rng.randrange(3) for _ in range(columns)]
    table, seen = few_values(rng, rows, 3, 1)
    return [[row[i] for i in which] for row in table], [seen[i] for i in which]


def equal_rows(rng, rows, columns, k):
    """Each row is one of three."""
    table, seen = few_values(rng, rows, columns, k)
    return [rng.choice(table[:3]) for _ in table], seen


def tiers(rng, rows, columns, k):
    """Columns of falling tops, k or more of the highest, each observed just above its own: a tier falls in a step."""
    tops = sorted(rng.choice((2, 4, 6)) for _ in range(columns - k)) + [8] * k
    rng.shuffle(tops)
    table = [[top - rng.choice((0, 0, 1, 2)) for top in tops] for _ in range(rows - 1)]
    return table, [top + 1 for top in tops]


def wide_tiers(rng, rows, columns, k):
    """The same; a row is now and then far down in a column, so that it matters which set is put back."""
    table, seen = tiers(rng, rows, columns, k)
    return [[rng.choice((cell, cell, 0)) for cell in row] for row in table], seen


def some_seen(rng, rows, columns, k):
    """Ranks up to a column's own; the column's highest one is observed, or any."""
    tops = [rng.randint(2, 5) for _ in range(columns)]
    table = [[rng.randint(0, top) for top in tops] for _ in range(rows - 1)]
    return table, [rng.choice((top + 1, top, rng.randint(0, top))) for top in tops]


def apart(rng, rows, columns, k):
    """Two choices of k - 1 columns give one value, each in rows of its own, more than any level leaves out.

    For k 3 or 4 and 7 rows or more. One choice has the lowest and the highest of these columns: it is the first one,
    but not by its mask. A row has one column more with the value, of those that are left.
    """
    mixed = rng.sample(range(columns), columns)
    low, *middle, high = sorted(mixed[:2 * k - 2])
    rng.shuffle(middle)
    choices = [low, high, *middle[k - 1:]], middle[:k - 1]
    rejected, left = mixed[:rng.randint(2 * k - 2, columns - 1)], mixed[-1]
    table = [[rng.randrange(3) for _ in range(columns)] for _ in range(rows - 1)]
    for turn, row in enumerate(rng.sample(table, rows - 1)):
        for j in (*choices[turn % 2], left):
            row[j] = 3
    return table, [4 if j in rejected else rng.randrange(3) for j in range(columns)]


def last_offer(rng, rows, columns, k):
    """The k-max of each row is in the last column, over all of them and with k - 1 certain ones put back."""
    tops = rng.sample(range(columns - 1), k + rng.randrange(3))
    table = [[rng.randrange(3) for _ in range(columns - 1)] + [rng.randint(3, 4)] for _ in range(rows - 1)]
    for row in table:
        for j in tops[:k - 1]:
            row[j] = 5
    return table, [6 if j in tops else rng.randrange(3) for j in range(columns)]


def late_rows(rng, rows, columns, k):
    """The rows after the first 256 are the higher ones; 390 rows or more, so that no level reaches below them."""
    table = [[rng.randrange(3) + 3 * (row >= 256) for _ in range(columns)] for row in range(rows - 1)]
    return table, [6] * k + [rng.randrange(3) for _ in range(columns - k)]


STYLES = (few_values, tiers, equal_columns, wide_tiers, equal_rows, wide_tiers)
RANKED = (some_seen, few_values, equal_columns, some_seen)  # in a balanced table all tops are one


def valued(rng, ranks, zero) -> list:
    """The values of a row, with that rank as zero, of either sign."""
    return [float(rank - zero) or rng.choice((0.0, -0.0)) for rank in ranks]


def drawn_table(rng, style, rows, columns, k, number) -> TableCase:
    """A table of that style, at a level of some rows."""
    table, seen = style(rng, rows, columns, k)
    observed = rng.randrange(rows)
    table.insert(observed, seen)
    zero = rng.randint(0, max(map(max, table)))
    cells = tuple(value for row in table for value in valued(rng, row, zero))
    e = rng.randint(1, max(1, rows // 3))
    return TableCase(f"bar-table-{style.__name__}-{rows}x{columns}-k{k}-{number}", cells, rows, columns, k,
                     e, rows, observed, rows + rng.randrange(2))


def with_steps(draw, run_of, steps):
    """The first draw whose run takes so many steps or more."""
    for _ in range(TRIES):
        drawn = draw()
        if len(run_of(drawn).records) >= steps:
            break
    return drawn


def bar_tables(rng, each, most_rows, most_columns, styles=STYLES, run_of=run_table):
    """So many tables of each style for each k."""
    for number, (_, k, style) in enumerate(product(range(each), (1, 2, 3, 4), styles)):
        rows, columns = rng.randint(3, most_rows), rng.randint(k + 2, most_columns)
        yield with_steps(lambda: drawn_table(rng, style, rows, columns, k, number),
                         lambda case: run_of(case.values, case.rows, case.columns, case.k, case.a, case.b,
                                             case.observed), STEPS[number % len(STEPS)])


def tables_apart(rng, how_many, most_rows, most_columns):
    """So many tables whose sets tie in rows of their own."""
    for number in range(how_many):
        k = 3 + number % 2
        yield drawn_table(rng, apart, rng.randint(7, most_rows), rng.randint(2 * k - 1, most_columns), k, number)


def last_offers(rng, most_rows):
    """Tables of 32 columns, one for each k."""
    for number, k in enumerate((1, 2, 3, 4)):
        yield drawn_table(rng, last_offer, rng.randint(3, most_rows), 32, k, number)


def late_tables(rng, rows):
    """Two tables of few columns."""
    for number, (columns, k) in enumerate(((2, 1), (3, 2))):
        yield drawn_table(rng, late_rows, rows, columns, k, number)


def given_runs(rng, how_many):
    """Runs that are given: any k or more rejected, some left, and any level; a step then takes any sets."""
    styles = cycle(STYLES)
    for number, style in enumerate(islice(styles, how_many)):
        k = number % 4 + 1
        case = drawn_table(rng, style, rng.randint(2, 9), rng.randint(k + 2, k + 5), k, number)
        held = rng.sample(range(case.columns), rng.randint(k, case.columns - 1))
        a, b = rng.choice(((1, 16_383), (case.a, case.b), (1, 2)))
        run = Run(case.rows, case.columns, k, a, b, case.observed, sum(1 << j for j in held),
                  rng.randint(1, len(held)), False)
        yield StepCase(f"bar-step-{style.__name__}-{case.rows}x{case.columns}-k{k}-{number}", run,
                       case.values, case.work_room)


# ---- trials: a style gives the figures of the offers that are not set aside


@raising
def few_sums(rng, offers, units):
    return [[rng.choice((-1, 0, 1, 2)) for _ in range(units)] for _ in range(offers)]


@raising
def rising(rng, offers, units):
    """None against the observed row: it has the largest sums."""
    return [[rng.choice((0, 1, 1, 2)) for _ in range(units)] for _ in range(offers)]


def alike(rng, offers, design):
    """Each offer is one of three."""
    three = [*rising(rng, 2, design), *few_sums(rng, 1, design)]
    return [rng.choice(three) for _ in range(offers)]


def opposite(rng, offers, design):
    """Each offer is one of two, or that one with all signs changed."""
    two = [*rising(rng, 1, design), *few_sums(rng, 1, design)]
    return [[cent * sign for cent in rng.choice(two)] for sign in rng.choices((1, 1, -1), k=offers)]


def scaled(rng, offers, design):
    """Few sums on three scales: the offers of the largest one are rejected first."""
    return [[cent * size for cent in cents] for cents, size
            in zip(rising(rng, offers, design), rng.choices((1, 1, 2, 4), k=offers))]


TRIAL_STYLES = (few_sums, scaled, alike, rising, opposite, scaled)


def drawn_trial(rng, style, offers, design, k, left) -> Trial:
    """So many offers are left, in any places; at a level of some rows."""
    figures = [untested(design, rng) for _ in range(offers)]
    for place, cents in zip(rng.sample(range(offers), left), style(rng, left, design), strict=True):
        figures[place] = raised(design, [1] * design.units) if design.untested(cents) else cents
    level = rng.randint(1, max(1, design.rows // 3)), design.rows
    trial = make_trial(level, k, list(zip(printed_codes(rng, offers), figures)))
    return replace(trial, design=design)


def bar_trials(rng, each, most_offers, most_units, design_of=some_paired):
    """(name, trial): so many of each style for each k, every other one with offers set aside."""
    for number, (_, k, style) in enumerate(product(range(each), (1, 2, 3, 4), TRIAL_STYLES)):
        offers, design = rng.randint(k + 3, most_offers), design_of(rng, most_units, 2)
        left = offers if number % 2 else rng.randint(k + 1, offers - 1)
        trial = with_steps(lambda: drawn_trial(rng, style, offers, design, k, left), run_trial,
                           STEPS[number % len(STEPS)])
        yield f"{style.__name__}-{offers}x{label(design)}-k{k}-left{left}-{number}", trial


def both_kinds(rng, pairs, shops):
    """Trials of pairs, then of shops: how many of each, the most offers, the most pairs or shops."""
    return chain(bar_trials(rng, *pairs), bar_trials(rng, *shops, some_unpaired))


# ---- cases


def bar_file_cases(rng):
    for name, trial in both_kinds(rng, (4, 10, 5), (1, 9, 6)):
        data = write(trial)
        yield FileCase(f"bar-file-{name}", data, trial.offers, report_room(rng, data))


def bar_record_cases(rng):
    """Plain and balanced full runs."""
    for name, trial in both_kinds(rng, (2, 8, 4), (1, 8, 5)):
        rows = rows_of(trial)
        yield RecordCase(f"bar-record-{name}", trial, LONGEST, rows * trial.offers, rows)


def bar_table_cases(rng):
    """Every other one through a view."""
    plain = bar_tables(rng, 5, 12, 8), tables_apart(rng, 24, 9, 8), last_offers(rng, 5), late_tables(rng, 390)
    for turn, case in enumerate(chain(*plain)):
        yield replace(case, viewed=turn % 2 == 1)


def bar_walk_cases(rng):
    """Runs by steps, begun or given, every other one through a view."""
    begun = bar_tables(rng, 2, 9, 7), tables_apart(rng, 16, 9, 8), last_offers(rng, 4)
    for turn, case in enumerate(chain(*begun)):
        yield walked(replace(case, viewed=turn % 2 == 1))
    for turn, case in enumerate(given_runs(rng, 72)):
        yield replace(case, viewed=turn % 2 == 1)


def bar_balanced_cases(rng):
    for case in chain(bar_tables(rng, 5, 12, 8, RANKED, run_balanced), tables_apart(rng, 16, 9, 8)):
        yield run_case(case, case.rows * case.columns)


def further_bar_files(rng):
    """Larger trials, up to the largest."""
    for name, trial in both_kinds(rng, (10, 16, 6), (10, 16, 8)):
        yield FileCase(f"further-bar-file-{name}", write(trial), 16, LONGEST_REPORT)
    for name, trial in both_kinds(rng, (1, 11, 9), (1, 11, 10)):
        yield FileCase(f"further-bar-long-{name}", write(trial), 16, LONGEST_REPORT)


def further_bar_tables(rng):
    """Many more, and some with more rows and columns."""
    for case in chain(bar_tables(rng, 30, 12, 10), tables_apart(rng, 120, 20, 12), last_offers(rng, 40)):
        yield replace(case, name=f"further-{case.name}")
    for case in chain(bar_tables(rng, 2, 400, 12), tables_apart(rng, 8, 400, 12), late_tables(rng, 600)):
        yield replace(case, name=f"large-{case.name}")
