"""The files of the test program, crates/vectors: made again they are the same, and nothing is missing.

`rt ci` runs the program over stdin and holds what it prints to stdout, which the reference made.
"""

import math
import unittest
from collections import Counter
from itertools import combinations

from cases import SEED, all_cases, every_case_of
from expected import expected
from generators import designs, files, order, records
from generators.kinds import (BalancedRunCase, FileCase, LookCase, RecordCase, StepCase, TableCase,
                              WalkCase)
from generators.trials import shapes as every_shape
from make_vectors import CRATE, files as made_files
from reference import balanced, table
from reference.designs import Paired, Unpaired
from reference.refusals import Refused, breaks_3, table_breaks_4
from reference.report import report
from reference.run import CLAUSES_OF_14, clauses_broken
from reference.table import Rejected
from reference.trial import (full_run, offer_figures, remaining, rows_of, table_of,
                             trial_refusal)
from reference.trialfile import bytes_of, read, words_of, write
from reference.view import OUTSIDE


def number_of(answer) -> int:
    return answer.number if isinstance(answer, Refused) else 0


def broken_by(defect: str) -> int:
    """The number that a defect's name begins with; 0 for one that breaks nothing."""
    first = defect.partition("-")[0]
    return 0 if first == "ok" else int(first)


def of_figures(held) -> list:
    """Which of 4, 3 and 10 the figures of a table, a beginning or a run break."""
    return [number for number, broken in (
        (4, table_breaks_4(held.rows, held.columns, held.k)), (3, breaks_3(held.a, held.b)),
        (10, held.observed >= held.rows)) if broken]


def of_lent(held, case) -> list:
    """Which of 9, 11 and 12 the lent table and work buffer break."""
    return [number for number, broken in (
        (9, len(case.values) != held.rows * held.columns),
        (11, not all(map(math.isfinite, case.values))), (12, case.work_room < held.rows))
        if broken]


def rejections(run) -> list:
    """By offer, whether it is rejected."""
    return [isinstance(verdict, Rejected) for verdict in run.verdicts]


class Stored(unittest.TestCase):
    """The stored files are what the cases and the reference give."""

    @classmethod
    def setUpClass(cls):
        cls.made = made_files()

    def test_same(self):
        for name, content in self.made.items():
            self.assertTrue((CRATE / name).read_bytes() == content,
                            f"crates/vectors/{name} differs: python3 tests/make_vectors.py")

    def test_small(self):
        self.assertLess(len(self.made["stdin"]) + len(self.made["stdout"]), 1_800_000)

    def test_seed(self):
        self.assertTrue(self.made["stdout"].startswith(f"seed {SEED:x}\n".encode()))


class Covered(unittest.TestCase):
    """What the cases have to reach."""

    @classmethod
    def setUpClass(cls):
        cls.cases = {case.name: case for case in all_cases()}

    def of(self, kind):
        return [case for case in self.cases.values() if type(case) is kind]

    def orders(self, kind, broken, answer, order, ways=(False, True)):
        """Each number decides where it alone is broken, and before each later one; by itself and viewed."""
        for viewed in ways:
            alone, before = set(), set()
            for case in (case for case in self.of(kind) if case.viewed == viewed):
                numbers, found = sorted(broken(case), key=order.index), answer(expected(case))
                self.assertEqual(found, numbers[0] if numbers else 0, case.name)
                alone.update(numbers if len(numbers) == 1 else ())
                before.update((found, later) for later in numbers[1:])
            self.assertEqual(alone, set(order))
            self.assertEqual(before, set(combinations(order, 2)))

    def test_orders_of_a_table(self):
        self.orders(TableCase, lambda case: of_figures(case) + of_lent(case, case),
                    lambda answers: number_of(answers["full_run"][0]), (4, 3, 9, 10, 11, 12))

    def test_orders_of_a_balanced_run(self):
        """As of a table, with 12 for either buffer, or for both."""
        short = set()

        def broken(case):
            rooms = case.work_room < case.rows, case.out_room < case.rows * case.columns
            numbers = {*of_figures(case), *of_lent(case, case), *[12] * any(rooms)}
            short.update([rooms] * (numbers == {12}))
            return numbers
        self.orders(BalancedRunCase, broken, lambda answers: number_of(answers["full_run"][0]),
                    (4, 3, 9, 10, 11, 12), ways=(False,))
        self.assertEqual(short, {(True, False), (False, True), (True, True)})

    def test_orders_of_a_beginning(self):
        self.orders(WalkCase, of_figures, lambda answers: number_of(answers["begin"]), (4, 3, 10))

    def test_orders_of_a_step(self):
        def broken(case):
            numbers = [14] * bool(clauses_broken(case.run)) + [13] * case.run.ended
            return numbers + of_lent(case.run, case)
        self.orders(StepCase, broken, lambda answers: number_of(answers["steps"][0][0]),
                    (14, 13, 9, 11, 12))

    def test_orders_of_a_record(self):
        """The defects of the generator, alone and in pairs; 12 is a buffer too short."""
        defects = {name: change for name, change in records.defects().items() if name[0] != "o"}
        answered = {name: trial_refusal(change(records.BASE)) for name, change in defects.items()}
        self.assertEqual(set(answered.values()), {4, 3, 5, 6, 7})
        for name, number in answered.items():
            self.assertEqual(number, broken_by(name))
            self.assertIn(f"record-{name}", self.cases)
            no_room = self.cases[f"record-{name}-no-room"]
            self.assertEqual({number}, {number_of(answer[0]) for call, answer
                                        in expected(no_room).items() if call != "check"})
        self.assertEqual(self.before(records.PAIRED, lambda one, two: trial_refusal(
            self.cases[f"record-{one}-{two}"].trial)),
                         set(combinations((4, 3, 5, 6, 7), 2)) | {(6, 5)})
        rooms = [case for case in self.of(RecordCase) if case.name.startswith("record-room")]
        refused = Counter(tuple(number_of(answer[0]) for call, answer in expected(case).items()
                                if call != "check") for case in rooms)
        self.assertEqual(set(refused), {(0, 0, 0, 0), (12, 0, 0, 0), (0, 12, 12, 12), (0, 0, 12, 12),
                                        (12, 12, 12, 12)})

    def before(self, names, found_of) -> set:
        """(the number that two defects are refused by, the other's), where these differ."""
        found = {(one, two): found_of(one, two) for one, two in combinations(names, 2)}
        return {(number, later) for pair, number in found.items()
                for later in set(map(broken_by, pair)) - {number}}

    def test_orders_of_a_record_of_shops(self):
        """4 before 15, 15 before 3 and all others; no room is asked after."""
        for name, change in records.defects(records.SHOPS_BASE).items():
            case = self.cases[f"record-shops-{name}"]
            self.assertEqual(trial_refusal(case.trial) or 0, broken_by(name), name)
        self.assertEqual(self.before(records.SHOPS_PAIRED, lambda one, two: trial_refusal(
            self.cases[f"record-shops-{one}-{two}"].trial)), set(combinations((4, 15, 3, 5, 6, 7), 2)))

    def check_defects_of_files(self, base, name, names, before):
        """Each defect alone is met by its number; of each two named, the numbers that come before others."""
        words = words_of(write(base))
        for defect, change in files.defects(base).items():
            self.assertEqual(number_of(read(bytes_of(change(words)))), broken_by(defect), defect)
            self.assertIn(f"{name}-defect-{defect}", self.cases)
        self.assertEqual(before, self.before(names, lambda one, two: number_of(
            read(self.cases[f"{name}-defects-{one}-{two}"].data))))

    def test_orders_of_a_file(self):
        """The defects of the generator, alone and in pairs; 1 before all."""
        order = (2, 3, 4, 5, 6, 7, 8)
        self.check_defects_of_files(files.BASE, "file", files.PAIRED, set(combinations(order, 2))
                                    | {(n, 2) for n in order[1:-1]} | {(6, 5)})
        for name in files.defects(files.BASE):
            self.assertEqual(read(self.cases[f"file-defect-{name}-odd"].data), Refused(1))

    def test_orders_of_a_file_of_shops(self):
        """At the shape word 2, 4, 15; the level stands before it."""
        order = (2, 3, 4, 15, 5, 6, 7, 8)
        self.check_defects_of_files(files.SHOPS_BASE, "file-shops", files.SHOPS_PAIRED,
                                    set(combinations(order, 2)) | {(n, 2) for n in order[1:-1]})

    def test_trials(self):
        """Each shape is stored; the C tests take some thousand trials and as many damaged files."""
        found = Counter(number_of(read(case.data)) for case in self.of(FileCase))
        self.assertEqual(set(found), {*range(9), 15})
        self.assertGreaterEqual(sum(found.values()) - found[0], 700)
        read_ones = [trial for case in self.of(FileCase)
                     if not isinstance(trial := read(case.data), Refused)]
        shapes = {(trial.offers, trial.design, trial.k) for trial in read_ones}
        self.assertLessEqual(set(every_shape()), shapes)
        self.assertLessEqual(set(designs.EVERY_UNPAIRED), {design for _, design, _ in shapes})
        of_shops = {(offers, k) for offers, design, k in shapes if design.KIND == 5}
        self.assertLessEqual({(offers, k) for k in (1, 2, 3, 4) for offers in (k, 7, 16)}, of_shops)
        found = Counter(number_of(read(case.data)) for case in every_case_of("file"))
        self.assertGreaterEqual(found[0], 2500)
        self.assertGreaterEqual(sum(found.values()) - found[0], 2000)

    def test_reports(self):
        """Buffers with room to spare, that just fit, and too short, for trials and refused files."""
        for accepted in (True, False):
            cases = [case for case in self.of(FileCase)
                     if case.report_room < files.LONGEST_REPORT
                     and (number_of(read(case.data)) == 0) == accepted]
            spare = Counter(case.report_room - len(report(case.data)) for case in cases)
            self.assertTrue(all(spare[n] >= 10 for n in (-1, 0, 1)), spare)
            self.assertTrue(any(case.report_room == 0 for case in cases))

    def trials_aside(self) -> list:
        """The accepted trials with offers set aside: those of files, and those of records."""
        read_ones = (read(case.data) for case in self.of(FileCase))
        given = (case.trial for case in self.of(RecordCase) if not trial_refusal(case.trial))
        return [[trial for trial in trials if not isinstance(trial, Refused)
                 and len(remaining(trial)) < trial.offers] for trials in (read_ones, given)]

    def test_aside(self):
        """No offer, fewer than k, just k and more remain, some with a sum of 0; the ends of the shapes."""
        for trials in self.trials_aside():
            left = [(len(remaining(trial)), trial.k) for trial in trials]
            states = Counter((n > 0) + (n >= k) + (n > k) for n, k in left)
            self.assertTrue(all(states[state] >= 5 for state in range(4)), states)
            self.assertLessEqual({Paired(1), Unpaired(2, 1)}, {trial.design for trial in trials})
            self.assertIn(16, {trial.offers for trial in trials})
            sums = [trial.design.entry(offer_figures(trial, i), 0) for trial in trials
                    for i in remaining(trial)]
            self.assertGreaterEqual(sums.count(0), 5)

    def test_runs_aside(self):
        """Another list than where the zeros are a column like any other, plain and balanced; and these two differ."""
        for trials in self.trials_aside():
            differ = Counter()
            for trial in trials:
                figures = (rows_of(trial), trial.offers, trial.k, trial.a, trial.b, 0)
                plain, weighed, plain_table, weighed_table = map(rejections, (
                    full_run(trial), balanced.trial_run(trial),
                    table.full_run(table_of(trial), *figures),
                    balanced.full_run(table_of(trial), *figures)))
                differ.update(plain=plain != plain_table, balanced=weighed != weighed_table,
                              apart=plain != weighed)
            self.assertGreaterEqual(min(differ.values()), 5, differ)

    def test_styles(self):
        for style in ("ties", "equal_offers", "zeros", "opposite_offers", "ladder"):
            self.assertTrue(any(f"file-valid-{style}" in name for name in self.cases), style)
        signs = {tuple(sorted({math.copysign(1.0, value) for value in case.values}))
                 for case in self.of(TableCase) if not any(case.values)}
        self.assertEqual(signs, {(-1.0,), (1.0,), (-1.0, 1.0), ()})

    def test_sizes(self):
        accepted = {(case.rows, case.columns) for case in self.of(TableCase)
                    if not of_figures(case) + of_lent(case, case)}
        self.assertLessEqual({(1, 1), (1, 32), (4096, 1), (4096, 32)}, accepted)
        refused = {(case.rows, case.columns) for case in self.of(TableCase)
                   if 4 in of_figures(case)}
        self.assertLessEqual({(4097, 1), (1, 33), (4097, 32), (4096, 33), (0, 2)}, refused)

    def test_order(self):
        """Each kind of values at every rank, and each end as the critical value."""
        names = [f"order-{kind.__name__}-{order.SHORT}-e{e}" for kind in order.KINDS
                 for e in range(order.SHORT)]
        self.assertLessEqual(set(names), set(self.cases))
        found = {expected(self.cases[name])["full_run"][0].records[0].critical_value
                 for name in names if name.startswith("order-ends-")}
        self.assertEqual(found, {value + 0.0 for value in order.ENDS})

    def test_clauses_of_14(self):
        broken = Counter(tuple(clauses_broken(case.run)) for case in self.of(StepCase))
        for name, _ in CLAUSES_OF_14:
            self.assertGreaterEqual(broken[(name,)], 3, name)

    def test_looks(self):
        """A value; Outside by the row, by the column, and by values that do not reach so far."""
        found = Counter((case.row < case.rows, case.column < case.columns,
                         case.row * case.columns + case.column < len(case.values),
                         expected(case)["look"] is not OUTSIDE) for case in self.of(LookCase))
        self.assertGreaterEqual(found[True, True, True, True], 50)
        for reasons in ((False, True, True), (True, False, True), (True, True, False)):
            self.assertGreaterEqual(found[(*reasons, False)], 5, reasons)
        self.assertEqual({reasons for reasons in found if reasons[3] != all(reasons[:3])}, set())

    def test_walks(self):
        for viewed in (False, True):
            lengths = Counter(len(expected(case)["steps"][0]) for case in self.of(WalkCase)
                              if case.viewed == viewed)
            self.assertEqual(max(lengths), 33)
            self.assertGreaterEqual(sum(lengths[n] for n in range(3, 34)), 20, lengths)

    def test_examples(self):
        """The examples of document 01 that have no star, and those that have one; W with an offer set aside."""
        def read_number(name):
            return number_of(read(self.cases[name].data))
        self.assertEqual([read_number(f"example-1-offers-{n}-pairs") for n in (9, 10)], [0, 4])
        self.assertEqual([read_number(f"example-{n}-offers-1-pairs") for n in (16, 17)], [0, 4])
        self.assertEqual([read_number(f"example-code-{n}") for n in (9999999, 10000000)], [0, 5])
        rows = [expected(self.cases[f"example-rows-{n}"])["full_run"][0] for n in (4096, 4097)]
        self.assertEqual([number_of(answer) for answer in rows], [0, 4])
        trials = {name: full_run(read(self.cases[f"example-w-file-{name}"].data))
                  for name in ("as-printed", "1-8", "1-9", "7-8", "k2", "k2-1-9")}
        self.assertEqual({name: [record.critical_value for record in trial.records]
                          for name, trial in trials.items()},
                         {"as-printed": [4, 2], "1-8": [6, 2], "1-9": [12], "7-8": [-4],
                          "k2": [0], "k2-1-9": [4]})
        rejecting = [row for row in range(8)
                     if expected(self.cases[f"example-w-row-{row}"])["full_run"][0].rejected()]
        self.assertEqual(rejecting, [0, 2])
        self.assertEqual(expected(self.cases["example-aside-w"])["report"][0], b"trial 3 3 1 2 8\nstep 1 4 4 0042\n"
                         b"step 2 2 0 7\n0042 rejected 1 1\n7 kept 2 3\n04711 aside 0 0\nend 1\n")
        self.assertIn("example-aside-BalancedRunCase", self.cases)
        for name in ("p", "one", "zeros"):
            for kind in ("TableCase", "WalkCase"):
                self.assertIn(f"example-{name}-{kind}", self.cases)
                self.assertIn(f"example-{name}-{kind}-viewed", self.cases)


if __name__ == "__main__":
    unittest.main()
