"""Which offer set the bar (document 02, §5): the reference on examples, what must hold always, and wrong bars.

A step is looked at over the positions of the trial or table, offers set aside among them, as the request has it;
the reference takes such offers out first.
"""

import unittest
from dataclasses import dataclass
from functools import lru_cache
from itertools import combinations

from answers import record_numbers, run_numbers, step_text
from cases import cases_of, every_case_of
from expected import expected
from frames import value_number
from generators.examples import ASIDE, P
from generators.files import W
from generators.kinds import StepCase
from reference import balanced, method, report, run, table, trial, trialfile
from reference.method import Record
from reference.refusals import Refused
from reference.table import Rejected

BOTH = ((trial.full_run, report.report), (balanced.trial_run, balanced.report))


def records_of(rows, k, a, b, observed=0) -> list:
    """(critical value, row, offer) of each step of a table that is given by its rows."""
    values = [float(value) for row in rows for value in row]
    full = table.full_run(values, len(rows), len(rows[0]), k, a, b, observed)
    return [(record.critical_value, record.row, record.offer) for record in full.records]


class Examples(unittest.TestCase):
    def test_w(self):
        data = trialfile.write(W)
        self.assertEqual(report.report(data).splitlines()[1:3], ["step 1 4 4 0042", "step 2 2 0 7"])
        self.assertEqual(balanced.report(data).splitlines()[1:3], ["step 1 7 6 7", "step 2 7 0 7"])

    def test_table_p(self):
        """Step 1: the second largest values are 8, 2, 4, 1. Step 2: with offer 2 put back 3, 1, 4, 0."""
        full = table.full_run(P, 4, 3, 2, 1, 4, 0)
        self.assertEqual(full.records, (Record(1, 4.0, 2, 2), Record(2, 3.0, 0, 3)))

    def test_equal_offers(self):
        """Of the largest values 7, 7 the second one is offer 2's, not offer 3's."""
        self.assertEqual(records_of([(5, 7, 7, 1)], 2, 1, 2), [(7, 0, 2)])
        self.assertEqual(records_of([(5, 7, 7, 1)], 3, 1, 2), [(5, 0, 1)])
        self.assertEqual(records_of([(7, 7, 7, 7)], 4, 1, 2), [(7, 0, 1)])

    def test_equal_rows(self):
        self.assertEqual(records_of([(1, 0), (0, 2), (2, 2), (1, 3)], 1, 1, 4, 3), [(2, 1, 2), (1, 0, 1)])

    def test_equal_sets(self):
        """Both sets of step 2 give 4: that with offer 1 in row 2, that with offer 2 in row 1."""
        rows = [(9, 9, 0), (0, 4, 4), (4, 4, 4), (4, 0, 4), (0, 0, 0)]
        self.assertEqual(records_of(rows, 2, 1, 5), [(4, 1, 2), (4, 2, 1)])

    def test_a_later_set(self):
        """Offer 1 put back gives 0, offers 2 and 3 both give 4, in other rows."""
        rows = [(9, 9, 9, 0), (0, 4, 0, 4), (0, 4, 4, 4), (0, 0, 4, 4), (0, 0, 0, 0)]
        self.assertEqual(records_of(rows, 2, 1, 5), [(4, 1, 2), (4, 1, 2)])
        other = [(9, 9, 9, 0), (0, 0, 4, 4), (0, 4, 4, 4), (0, 4, 0, 4), (0, 0, 0, 0)]
        self.assertEqual(records_of(other, 2, 1, 5), [(4, 1, 3), (4, 2, 2)])

    def test_order_of_sets(self):
        """Offers 1 and 4 come before 2 and 3; both choices give 4."""
        rows = [(9, 9, 9, 9, 0), (0, 4, 4, 0, 4), (0, 4, 4, 0, 4), (4, 0, 0, 4, 4), (4, 0, 0, 4, 4)]
        self.assertEqual(records_of(rows, 3, 1, 5), [(4, 1, 2), (4, 3, 1)])

    def test_zero_and_minus_zero(self):
        self.assertEqual(records_of([(-1, -0.0), (0.0, 0.0)], 1, 1, 3), [(0, 0, 2)])
        self.assertEqual(records_of([(-0.0, 0.0), (-1, -1)], 1, 1, 3), [(0, 0, 1)])
        self.assertEqual(records_of([(0.0, 1, -0.0), (1, 1, 0.0)], 2, 1, 2), [(0, 0, 1)])

    def test_offers_aside(self):
        """Positions are those of the trial: 04711 stands first and is set aside."""
        self.assertEqual(trial.full_run(ASIDE["k-left"]).records, (Record(1, 0.0, 4, 3),))
        self.assertEqual(report.report(trialfile.write(ASIDE["k-left"])).splitlines()[1], "step 1 0 4 7")

    def test_printed(self):
        """A record of `vectors` is four numbers, also where a place is blank; a step's line has them all."""
        blank = (0, value_number(0.0), 0, 0)
        for answer, records in ((table.full_run(P, 4, 3, 2, 1, 4, 0), [(1, 4.0, 2, 2), (2, 3.0, 0, 3)]),
                                (Refused(4), [])):
            numbers = run_numbers(answer)[3:]
            told = [(step, value_number(value), row, offer) for step, value, row, offer in records]
            self.assertEqual([tuple(numbers[8 * i:8 * i + 4]) for i in range(32)],
                             told + [blank] * (32 - len(told)))
        after, record = run.step(run.begin(4, 3, 2, 1, 4, 0), P)
        self.assertEqual(record_numbers(record), (1, value_number(4.0), 2, 2))
        self.assertEqual(step_text((after, record)), "step 0 1 401000 2 2 4 3 2 1 4 0 3 1 0\n")


# ---- the steps of the generated cases


@dataclass(frozen=True)
class Step:
    """A step: the columns of the table, the offers set aside and those rejected before it, k, e, the record."""

    table: tuple
    aside: frozenset
    rejected: frozenset
    k: int
    e: int
    record: Record

    def sets(self) -> list:
        """The sets of the step in the order of the walk, each in ascending order."""
        left = [j for j in range(len(self.table)) if j not in self.rejected | self.aside]
        if not self.rejected:
            return [left]
        return [sorted((*left, *back)) for back in combinations(sorted(self.rejected), self.k - 1)]

    def k_maxes(self, offers) -> list:
        return [sorted(row[j] for j in offers)[-self.k] for row in zip(*self.table)]

    def c(self, offers) -> float:
        return sorted(self.k_maxes(offers))[-1 - self.e]


def steps_of_run(columns, aside, full, k, e):
    """The steps of a full run."""
    for record in full.records:
        before = frozenset(j for j, verdict in enumerate(full.verdicts)
                           if isinstance(verdict, Rejected) and verdict.step < record.step)
        yield Step(tuple(columns), frozenset(aside), before, k, e, record)


def steps_of_trial(one, full, values):
    rows, left = trial.rows_of(one), trial.remaining(one)
    return steps_of_run(method.columns_of(values, one.offers), set(range(one.offers)) - set(left), full,
                        one.k, method.level_rows(rows, one.a, one.b))


def of_trial(one):
    """Of the plain full run, then of the balanced one."""
    values = trial.table_of(one)
    yield from steps_of_trial(one, trial.full_run(one), values)
    yield from steps_of_trial(one, balanced.trial_run(one),
                              balanced.table_balanced(values, trial.rows_of(one), one.offers))


def of_table(case, values=None):
    return steps_of_run(method.columns_of(values or case.values, case.columns), (),
                        expected(case)["full_run"][0], case.k, method.level_rows(case.rows, case.a, case.b))


def of_balanced(case):
    return of_table(case, balanced.table_balanced(case.values, case.rows, case.columns))


def of_walk(case):
    """Of a run taken step by step, begun or given; the last answer is a refusal."""
    given = case.run if isinstance(case, StepCase) else expected(case)["begin"]
    columns = method.columns_of(case.values, given.columns)
    for after, record in expected(case)["steps"][0][:-1]:
        yield Step(tuple(columns), frozenset(), frozenset(j for j in range(given.columns) if given.rejected >> j & 1),
                   given.k, method.level_rows(given.rows, given.a, given.b), record)
        given = after


KINDS = {
    "bar_file": lambda case: of_trial(trialfile.read(case.data)),
    "bar_record": lambda case: of_trial(case.trial),
    "bar_table": of_table,
    "bar_walk": of_walk,
    "bar_balanced": of_balanced,
}


@lru_cache(maxsize=None)
def stored(family: str) -> tuple:
    """The steps of the stored cases of a family."""
    return tuple(step for case in cases_of(family) for step in KINDS[family](case))


class Properties(unittest.TestCase):
    def check(self, step):
        """The facts of the request, one by one."""
        value, row, offer = step.record.critical_value, step.record.row, step.record.offer - 1
        sets = step.sets()
        values = [step.c(offers) for offers in sets]
        first = sets[values.index(value)]
        self.assertTrue(all(c < value for c in values[:values.index(value)]))
        self.assertEqual(max(values), value)
        k_maxes = step.k_maxes(first)
        self.assertEqual(k_maxes[row], value)
        self.assertNotIn(value, k_maxes[:row])
        self.assertIn(offer, first)
        self.assertEqual(step.table[offer][row], value)
        self.assertTrue(all(step.table[j][row] != value for j in first if j < offer))
        self.assertNotIn(offer, step.aside)

    def test_stored_cases(self):
        for family in KINDS:
            for step in stored(family):
                self.check(step)

    def test_further_cases(self):
        for family in ("bar_file", "bar_table"):
            for case in every_case_of(family):
                for step in KINDS[family](case):
                    if len(step.table[0]) <= 32:
                        self.check(step)

    def test_other_cases(self):
        """Of the families that were not made for it."""
        for case in cases_of("putback"):
            for step in of_table(case):
                self.check(step)
        for case in cases_of("record"):
            if trial.trial_refusal(case.trial) is None and trial.rows_of(case.trial) <= 16:
                for step in of_trial(case.trial):
                    self.check(step)

    def test_reports(self):
        """A step line ends in the record's row and the printed code of its offer."""
        for case in every_case_of("bar_file"):
            one = trialfile.read(case.data)
            for run_of, text_of in BOTH if trial.rows_of(one) <= 32 else ():
                codes = [str(code).zfill(digits) for code, digits in zip(one.codes, one.digits)]
                lines = [line.split() for line in text_of(case.data).splitlines() if line.startswith("step ")]
                self.assertEqual(lines, [["step", str(r.step), str(int(r.critical_value)), str(r.row),
                                          codes[r.offer - 1]] for r in run_of(one).records])

    def test_many_ties(self):
        """In each family: equal values in rows, in offers, in sets; later steps, some with a later set first."""
        for family in KINDS:
            rows = offers = sets = later = zeros = 0
            for step in stored(family):
                value, row, listed = step.record.critical_value, step.record.row, step.sets()
                reached = [i for i, K in enumerate(listed) if step.c(K) == value]
                first = listed[reached[0]]
                rows += step.k_maxes(first).count(value) > 1
                offers += sum(step.table[j][row] == value for j in first) > 1
                sets += len(reached) > 1
                later += reached[0] > 0
                zeros += value == 0.0
            self.assertGreaterEqual(min(rows, offers, sets), 20, family)
            self.assertGreaterEqual(later, 5, family)
            self.assertTrue(zeros >= 10 or family == "bar_balanced", family)

    def test_large_figures(self):
        """The last of 32 offers sets the bar for each k, with offers put back too; and so does a row above 255."""
        for family in ("bar_table", "bar_walk"):
            last = {(step.k, step.record.step) for step in stored(family) if step.record.offer == 32}
            self.assertEqual(last, {(k, number) for k in (1, 2, 3, 4) for number in (1, 2)}, family)
        late = {(step.k, step.record.step) for step in stored("bar_table") if step.record.row > 255}
        self.assertEqual(late, {(k, number) for k in (1, 2) for number in (1, 2)})


# ---- wrong bars


class Bar:
    """The row and the offer of a step, part by part; a wrong one gets a part of it wrong."""

    def of(self, step):
        """None where a wrong bar has no such row."""
        offers = self.chosen(step)
        rows = [g for g, value in enumerate(self.figures(step, offers))
                if self.equal(value, step.record.critical_value)]
        if not rows:
            return None
        row = self.row(rows)
        return row, self.told(step, offers, self.offer(step, offers, [column[row] for column in step.table]))

    def chosen(self, step):
        return self.tied(step)[0]

    def tied(self, step):
        """The sets that give the value."""
        return [offers for offers in step.sets() if step.c(offers) == step.record.critical_value]

    def figures(self, step, offers):
        return step.k_maxes(offers)

    def equal(self, one, other):
        return one == other

    def row(self, rows):
        return rows[0]

    def offer(self, step, offers, row):
        return min(j for j in offers if row[j] == sorted(row[i] for i in offers)[-step.k])

    def told(self, step, offers, offer):
        return offer + 1


class HighestRow(Bar):
    def row(self, rows):
        return rows[-1]


class ReachingRow(Bar):
    """The lowest row whose k-max reaches the value."""

    def equal(self, one, other):
        return one >= other


class RowByMaximum(Bar):
    def figures(self, step, offers):
        return [max(row[j] for j in offers) for row in zip(*step.table)]


class LastSet(Bar):
    """The last set that reaches the value."""

    def chosen(self, step):
        return self.tied(step)[-1]


class ByMask(Bar):
    """The first by the number that its columns make as bits."""

    def chosen(self, step):
        return min(self.tied(step), key=lambda offers: sum(1 << j for j in offers))


class RowOfAnySet(Bar):
    """The lowest row over any set that gives the value."""

    def chosen(self, step):
        return min(self.tied(step), key=lambda offers: step.k_maxes(offers).index(step.record.critical_value))


class FirstSet(Bar):
    """The first set of the walk, whether it reaches the value or not."""

    def chosen(self, step):
        return step.sets()[0]


class AllOffers(Bar):
    """Those rejected among them, all of them."""

    def chosen(self, step):
        return [j for j in range(len(step.table)) if j not in step.aside]


class KthInOrder(Bar):
    """The k-th by value and position."""

    def offer(self, step, offers, row):
        return sorted(offers, key=lambda j: (-row[j], j))[step.k - 1]


class HighestOffer(Bar):
    def offer(self, step, offers, row):
        return max(j for j in offers if row[j] == step.record.critical_value)


class ReachingOffer(Bar):
    """The lowest offer of the set whose value reaches it."""

    def offer(self, step, offers, row):
        return min(j for j in offers if row[j] >= step.record.critical_value)


class OfAnySet(Bar):
    """The lowest position with the value, in the set or not."""

    def offer(self, step, offers, row):
        return row.index(step.record.critical_value)


class WithinTheSet(Bar):
    def told(self, step, offers, offer):
        return offers.index(offer) + 1


class AmongThoseLeft(Bar):
    """The position among the offers that are not set aside."""

    def told(self, step, offers, offer):
        return offer + 1 - sum(j < offer for j in step.aside)


class FromZero(Bar):
    def told(self, step, offers, offer):
        return offer


class ZerosApart(Bar):
    """Minus zero is not the plus zero of the record."""

    def equal(self, one, other):
        return one.hex() == other.hex()


WRONG = (HighestRow, ReachingRow, RowByMaximum, LastSet, FirstSet, AllOffers, KthInOrder, HighestOffer, ReachingOffer,
         OfAnySet, WithinTheSet, FromZero)
# These differ in so many steps of some families, in the others perhaps in none.
BY_FAMILY = {
    AmongThoseLeft: {"bar_file": 10, "bar_record": 10},
    ZerosApart: {"bar_table": 10, "bar_walk": 10},
    ByMask: {"bar_table": 20, "bar_walk": 15, "bar_balanced": 10},
    RowOfAnySet: {"bar_file": 10, "bar_table": 15, "bar_walk": 10, "bar_balanced": 15},
}


class WrongBars(unittest.TestCase):
    def differ(self, bar, family) -> int:
        return sum(bar().of(step) != (step.record.row, step.record.offer) for step in stored(family))

    def test_right(self):
        for family in KINDS:
            self.assertEqual(self.differ(Bar, family), 0, family)

    def test_found_by_stored_cases(self):
        for family in KINDS:
            for wrong in WRONG:
                self.assertGreaterEqual(self.differ(wrong, family), 3, (family, wrong.__name__))

    def test_found_by_some_families(self):
        for wrong, families in BY_FAMILY.items():
            for family, least in families.items():
                self.assertGreaterEqual(self.differ(wrong, family), least, (family, wrong.__name__))


if __name__ == "__main__":
    unittest.main()
