"""The reference against every example of document 01, and against what must hold always.

Run from this directory's parent: python3 -m unittest discover -s tests
"""

import math
import random
import unittest
from dataclasses import replace
from itertools import combinations

from reference import (adjusted, balanced, ccall, method, report, run, sheet, table, trial,
                       trialfile)
from reference.designs import Paired
from reference.method import Record
from reference.refusals import Refused
from reference.table import Kept, Rejected

W_WORDS = [0x10004004, 0x20010203, 0x3400002A, 0x31000007, 0x40000005, 0x40000003,
           0x40000004, 0x40000002, 0x4FFFFFFF, 0x40000001, 0xF000000A]
W_FILE = trialfile.bytes_of(W_WORDS)
W = trial.make_trial((1, 4), 1, [("0042", (5, 3, 4)), ("7", (2, -1, 1))])
W_REPORT = """trial 3 2 1 2 8
step 1 4 4 0042
step 2 2 0 7
0042 rejected 1 1
7 kept 2 3
end 1
"""
P = [9, 8, 3, 4, 1, 2, 0, 4, 5, 1, 0, 1]
NAN, INF = math.nan, math.inf
SAFFRON = trial.make_trial((1, 4), 1, [("4011", (500, -300, 200)), ("0907", (3, 2, 1))])


def w_at(a, b, k=1):
    """W at another level or with another k."""
    return trial.full_run(replace(W, a=a, b=b, k=k))


def critical_values(full):
    return [record.critical_value for record in full.records]


def steps_of(full):
    """By offer, the rejecting step or 0."""
    return [v.step if isinstance(v, Rejected) else 0 for v in full.verdicts]


def is_plus_zero(value):
    return value == 0.0 and math.copysign(1.0, value) == 1.0


class StarredExamples(unittest.TestCase):
    """Document 01, "Examples", those marked as proved."""

    def test_w_as_printed(self):
        self.assertEqual(report.report(W_FILE), W_REPORT)
        self.assertEqual(trialfile.read(W_FILE), W)
        self.assertEqual(trialfile.write(W), W_FILE)
        full = trial.full_run(W)
        self.assertEqual(full.verdicts, (Rejected(1, 4.0), Kept(2.0)))
        self.assertEqual(full.counts, (1, 3))
        self.assertEqual(full.records, (Record(1, 4.0, 4, 1), Record(2, 2.0, 0, 2)))

    def test_w_at_one_eighth(self):
        self.assertEqual(method.level_rows(8, 1, 8), 1)
        self.assertEqual(critical_values(w_at(1, 8)), [6, 2])
        self.assertEqual(steps_of(w_at(1, 8)), [1, 0])

    def test_w_at_one_ninth(self):
        self.assertEqual(method.level_rows(8, 1, 9), 0)
        self.assertEqual(critical_values(w_at(1, 9)), [12])
        self.assertEqual(steps_of(w_at(1, 9)), [0, 0])

    def test_w_at_seven_eighths(self):
        self.assertEqual(critical_values(w_at(7, 8)), [-4])
        self.assertEqual(steps_of(w_at(7, 8)), [1, 1])

    def test_w_with_k_2(self):
        full = w_at(1, 4, k=2)
        self.assertEqual(critical_values(full), [0])
        self.assertTrue(is_plus_zero(full.records[0].critical_value))
        self.assertEqual(steps_of(full), [1, 1])

    def test_w_with_k_2_at_one_ninth(self):
        full = w_at(1, 9, k=2)
        self.assertEqual(critical_values(full), [4])
        self.assertEqual(steps_of(full), [1, 0])
        after, record = run.step(run.begin(8, 2, 2, 1, 9, 0), trial.table_of(W))
        self.assertEqual((after.rejected, after.steps, after.ended), (1, 1, True))
        self.assertEqual(record, Record(1, 4.0, 2, 2))

    def test_rows_of_w_as_observed(self):
        values = trial.table_of(W)
        rejecting = [row for row in range(8)
                     if table.full_run(values, 8, 2, 1, 1, 4, row).rejected() > 0]
        self.assertEqual(rejecting, [0, 2])

    def test_table_p(self):
        values = [float(v) for v in P]
        full = table.full_run(values, 4, 3, 2, 1, 4, 0)
        self.assertEqual(critical_values(full), [4, 3])
        self.assertEqual(full.verdicts, (Rejected(1, 4.0), Rejected(1, 4.0), Kept(3.0)))
        columns = method.columns_of(values, 3)
        self.assertEqual(method.put_back_sets({0, 1}, 2), [(0,), (1,)])
        self.assertEqual(method.c(columns, [2, 0], 2, 1), 2)
        self.assertEqual(method.c(columns, [2, 1], 2, 1), 3)

    def test_one_row_one_column(self):
        for value in (0.0, -3.5, 1e308):
            full = table.full_run([value], 1, 1, 1, 1, 2, 0)
            self.assertEqual((full.verdicts, full.counts), ((Kept(value),), (1,)))

    def test_zero_and_minus_zero(self):
        for values in ([0.0, -0.0], [-0.0, 0.0]):
            full = table.full_run(values, 2, 1, 1, 1, 2, 0)
            self.assertEqual((full.verdicts, full.counts), ((Kept(0.0),), (2,)))
            self.assertTrue(is_plus_zero(full.records[0].critical_value))
            self.assertTrue(is_plus_zero(full.verdicts[0].critical_value))


class OtherExamples(unittest.TestCase):
    """Document 01, "Examples", those not marked: the ends of the ranges."""

    def shaped(self, offers, pairs):
        """A file of that shape, with its words counted truly."""
        words = [0x10004004, 2 << 28 | 1 << 16 | offers << 8 | pairs]
        words += [3 << 28 | 2 << 24 | i for i in range(offers)]
        words += [4 << 28 | i for i in range(offers * pairs)]
        return trialfile.bytes_of(words + [15 << 28 | len(words)])

    def test_pairs_9_and_10(self):
        self.assertEqual(trialfile.read(self.shaped(1, 9)).design, Paired(9))
        self.assertEqual(trialfile.read(self.shaped(1, 10)), Refused(4))

    def test_offers_16_and_17(self):
        self.assertEqual(trialfile.read(self.shaped(16, 1)).offers, 16)
        self.assertEqual(trialfile.read(self.shaped(17, 1)), Refused(4))

    def test_longest_file_of_pairs(self):
        """Up to 716 bytes, the longest file of all, what follows its end is words."""
        longest = self.shaped(16, 9)
        self.assertEqual(len(longest), 652)
        self.assertTrue(report.report(longest).startswith("trial 9 16 1 128 512\n"))
        for length in range(656, 717, 4):
            self.assertEqual(trialfile.read(longest.ljust(length, b"\0")), Refused(8))
        self.assertEqual(trialfile.read(longest.ljust(720, b"\0")), Refused(1))
        self.assertEqual(trialfile.read(longest[:-4]), Refused(2))

    def test_code_9999999(self):
        good = trial.make_trial((1, 2), 1, [("9999999", (1,))])
        self.assertEqual(trialfile.read(trialfile.write(good)), good)
        self.assertEqual(report.report(trialfile.write(good)),
                         "trial 1 1 1 1 2\nstep 1 -1 1 9999999\n9999999 rejected 1 1\nend 1\n")
        beyond = replace(good, codes=(10_000_000,) + good.codes[1:])
        self.assertEqual(trial.full_run(beyond), Refused(5))

    def test_rows_4096_and_4097(self):
        values = [float(g) for g in range(4096)]
        full = table.full_run(values, 4096, 1, 1, 1, 4096, 4095)
        self.assertEqual((full.verdicts, full.counts), ((Rejected(1, 4094.0),), (1,)))
        self.assertEqual(table.full_run(values + [0.0], 4097, 1, 1, 1, 4096, 0), Refused(4))


class Refusals(unittest.TestCase):
    """Document 01, "Turned away because of ...": each number, and their order."""

    def read_words(self, **places):
        words = list(W_WORDS)
        for place, word in places.items():
            words[int(place[1:])] = word
        answer = trialfile.read(trialfile.bytes_of(words))
        return answer.number if isinstance(answer, Refused) else 0

    def test_file(self):
        for data in (b"", W_FILE[:-1], W_FILE + b"\0", bytes(720)):
            self.assertEqual(trialfile.read(data), Refused(1))
        self.assertEqual(self.read_words(w0=0x00004004), 2)
        self.assertEqual(self.read_words(w0=0x10000004), 3)
        self.assertEqual(self.read_words(w0=0x10004001), 3)
        self.assertEqual(self.read_words(w1=0x21010203), 4)
        self.assertEqual(self.read_words(w1=0x20030203), 4)
        self.assertEqual(self.read_words(w2=0x3100002A), 5)
        self.assertEqual(self.read_words(w3=0x3200002A), 6)
        self.assertEqual(self.read_words(w3=0x3100002A), 5)
        self.assertEqual(self.read_words(w4=0x48000000), 7)
        self.assertEqual(self.read_words(w4=0x48000001), 0)
        self.assertEqual(self.read_words(w10=0xF000000B), 8)
        self.assertEqual(self.read_words(w10=0x40000001), 2)
        self.assertEqual(trialfile.read(W_FILE + W_FILE[-4:]), Refused(8))
        self.assertEqual(self.read_words(w0=0x10000000, w1=0x20000000), 3)

    def test_record(self):
        bad_level = replace(W, a=4)
        self.assertEqual(trial.full_run(bad_level), Refused(3))
        self.assertEqual(trial.full_run(replace(bad_level, design=Paired(10))), Refused(4))
        self.assertEqual(trial.full_run(replace(W, offers=2 ** 64 - 1)), Refused(4))
        twice = replace(W, codes=(42, 42) + W.codes[2:], digits=(4, 2) + W.digits[2:])
        self.assertEqual(trial.full_run(twice), Refused(6))
        self.assertEqual(trial.full_run(replace(twice, digits=(4, 1) + W.digits[2:])), Refused(5))
        wide = replace(W, figures=(-134_217_728,) + W.figures[1:])
        self.assertEqual(trialfile.write(wide), Refused(7))

    def test_table(self):
        good = dict(values=[1.0, 2.0], rows=2, columns=1, k=1, a=1, b=2, observed=0, work=[9.0] * 2)
        self.assertEqual(steps_of(table.full_run(**good)), [0])
        faults = [(4, dict(k=2)), (3, dict(b=1)), (9, dict(values=[NAN, 1.0, 2.0])),
                  (10, dict(observed=2)), (11, dict(values=[1.0, -INF])), (12, dict(work=[9.0]))]
        for at, (number, fault) in enumerate(faults):
            self.assertEqual(table.full_run(**{**good, **fault}), Refused(number))
            for _, later in faults[at + 1:]:
                self.assertEqual(table.full_run(**{**good, **later, **fault}), Refused(number))

    def test_step(self):
        values, begun = [3.0, 1.0], run.begin(2, 1, 1, 1, 2, 0)
        ended = run.step(begun, values)[0]
        self.assertTrue(ended.ended)
        self.assertEqual(run.step(ended, []), Refused(13))
        self.assertEqual(run.step(replace(ended, rejected=2), []), Refused(14))
        self.assertEqual(run.step(begun, [NAN], []), Refused(9))
        self.assertEqual(run.step(begun, [NAN, 0.0], []), Refused(11))
        self.assertEqual(run.step(begun, values, [7.0]), Refused(12))

    def test_clauses_of_14(self):
        legal = run.Run(4, 5, 2, 1, 4, 0, 0b00111, 2, False)
        self.assertEqual(run.clauses_broken(legal), [])
        spoiled = [dict(a=0), dict(rows=4097), dict(observed=4), dict(rejected=0b100111),
                   dict(steps=33, ended=True), dict(steps=0), dict(steps=0, rejected=0, ended=True),
                   dict(steps=4), dict(rejected=0b1, steps=1), dict(rejected=0b11111)]
        for (name, _), change in zip(run.CLAUSES_OF_14, spoiled, strict=True):
            self.assertEqual(run.clauses_broken(replace(legal, **change)), [name])
        odd = replace(legal, ended=True, rejected=0, steps=32)
        self.assertEqual(run.step(odd, []), Refused(13))

    def test_lent_buffers(self):
        work, buffer = [7.0] * 10, [7.0] * 20
        trial.full_run(W, buffer, work)
        self.assertEqual(work, [0.0] * 8 + [7.0] * 2)
        self.assertEqual(buffer, trial.table_of(W) + [7.0] * 4)
        short = [7.0] * 15
        self.assertEqual(trial.full_run(W, short, work), Refused(12))
        self.assertEqual(trial.table_of(W, short), Refused(12))
        self.assertEqual(short, [7.0] * 15)
        data = bytearray(b"\7" * 50)
        trialfile.write(W, data)
        self.assertEqual(bytes(data), W_FILE + b"\7" * 6)
        self.assertEqual(trialfile.write(W, data[:43]), Refused(12))

    def test_c_call(self):
        buffer = bytearray(b"\7" * 3)
        self.assertEqual(ccall.on_file(W_FILE, buffer), 1)
        self.assertEqual(buffer, b"\1\0\7")
        short = bytearray(b"\7")
        self.assertEqual(ccall.on_file(W_FILE, short), 112)
        self.assertEqual(ccall.on_file(W_FILE + bytes(4), short), 108)
        self.assertEqual(short, b"\7")


def random_trial(rng, most_pairs=9, most_offers=16, spread=134_217_727):
    """A random accepted trial."""
    pairs, offers = rng.randint(1, most_pairs), rng.randint(1, most_offers)
    b = rng.randint(2, 16_383)
    codes = rng.sample(range(10 ** rng.randint(2, 7)), offers)
    listed = [(str(code).zfill(rng.randint(len(str(code)), 7)),
               [rng.randint(-spread, spread) for _ in range(pairs)]) for code in codes]
    return trial.make_trial((rng.randint(1, b - 1), b), rng.randint(1, min(4, offers)), listed)


def random_table(rng, most_rows=8, most_columns=4):
    """The arguments of a full run over a small random table with many ties."""
    rows, columns = rng.randint(1, most_rows), rng.randint(1, most_columns)
    values = [rng.choice((-2.0, -1.0, -0.0, 0.0, 1.0, 1.0, 5.5)) for _ in range(rows * columns)]
    b = rng.randint(2, 20)
    return dict(values=values, rows=rows, columns=columns, k=rng.randint(1, min(4, columns)),
                a=rng.randint(1, b - 1), b=b, observed=rng.randrange(rows))


def pass_of(values, rows, columns, observed) -> tuple:
    """The figures for k = 1 by one pass, as document 02, §1 words it."""
    table_rows = [values[g * columns:(g + 1) * columns] for g in range(rows)]
    seen, left = table_rows[observed], list(range(columns))
    figures, running = [None] * columns, 0
    while left:
        j = min(left, key=lambda i: (-seen[i], i))
        running = max(running, sum(max(row[i] for i in left) >= seen[j] for row in table_rows))
        figures[j] = running
        left.remove(j)
    return tuple(figures)


class AdjustedFigures(unittest.TestCase):
    """Document 02, §1."""

    def figures(self, rows, k=1, observed=0):
        """Those of a table given by its rows."""
        values = [float(value) for row in rows for value in row]
        return adjusted.table_figures(values, len(rows), len(rows[0]), k, observed)

    def test_w(self):
        self.assertEqual(adjusted.trial_figures(W), (1, 3))
        self.assertEqual(sheet.sheet(W_FILE), "0042 1\n7 3\nend 8\n")
        self.assertEqual(adjusted.trial_figures(replace(W, a=1, b=16_383)), (1, 3))

    def test_p(self):
        values = [float(value) for value in P]
        self.assertEqual(adjusted.table_figures(values, 4, 3, 2, 0), (0, 1, 2))

    def test_one_row(self):
        self.assertEqual(self.figures([(-3.5,)]), (1,))
        self.assertEqual(self.figures([(5, 2, 5)]), (1, 1, 1))
        self.assertEqual(self.figures([(5, 2, 4)], k=2), (0, 1, 1))

    def test_none_rejects(self):
        """M where the observed value is below all others, or all are equal."""
        self.assertEqual(self.figures([(0,), (1,), (2,)]), (3,))
        self.assertEqual(self.figures([(1, 1), (1, 1)]), (2, 2))
        self.assertEqual(self.figures([(0, 9), (1, 1), (2, 3)]), (3, 1))

    def test_ties(self):
        """Equal observed values have equal figures, and a row that reaches one counts."""
        self.assertEqual(self.figures([(3, 3), (3, 0), (0, 1), (2, 2)]), (2, 2))
        self.assertEqual(self.figures([(3, 3), (3, 0), (0, 3), (2, 2)]), (3, 3))
        self.assertEqual(self.figures([(3, 3), (3, 0), (0, 3), (2, 2)], k=2), (1, 1))

    def test_zeros(self):
        for values in ((0.0, -0.0), (-0.0, 0.0), (-0.0, -0.0)):
            self.assertEqual(self.figures([(value,) for value in values]), (2,))
        self.assertEqual(self.figures([(-0.0, 0.0), (-1.0, 0.0), (-1.0, -1.0)]), (2, 2))

    def test_running_maximum(self):
        """A larger observed value that many rows reach holds up the columns below it."""
        self.assertEqual(self.figures([(5, 4), (9, 0), (9, 0), (0, 0)]), (3, 3))
        self.assertEqual(self.figures([(4, 5), (0, 9), (0, 9), (0, 0)]), (3, 3))

    def test_by_full_runs(self):
        """Rejected at a level exactly from the figure on."""
        rng = random.Random("adjusted, full runs")
        for _ in range(200):
            given = random_table(rng)
            rows = given["rows"]
            figures = adjusted.table_figures(given["values"], rows, given["columns"], given["k"],
                                             given["observed"])
            for e in range(rows):
                full = table.full_run(**{**given, "a": 2 * e + 1, "b": 2 * rows})
                self.assertEqual([step > 0 for step in steps_of(full)],
                                 [figure <= e for figure in figures])

    def test_the_pass(self):
        """For k = 1 both ways agree."""
        rng = random.Random("adjusted, pass")
        for _ in range(1500):
            given = random_table(rng, 12, 6)
            figures = (given["values"], given["rows"], given["columns"])
            self.assertEqual(adjusted.table_figures(*figures, 1, given["observed"]),
                             pass_of(*figures, given["observed"]))

    def test_refusals(self):
        good = dict(values=[1.0, 2.0], rows=2, columns=1, k=1, observed=0, work=[9.0] * 3)
        self.assertEqual(adjusted.table_figures(**good), (2,))
        self.assertEqual(good["work"], [0.0, 0.0, 9.0])
        short = [9.0]
        faults = [(4, dict(k=2)), (9, dict(values=[NAN, 1.0, 2.0])), (10, dict(observed=2)),
                  (11, dict(values=[1.0, -INF])), (12, dict(work=short))]
        for at, (number, fault) in enumerate(faults):
            self.assertEqual(adjusted.table_figures(**{**good, **fault}), Refused(number))
            for _, later in faults[at + 1:]:
                self.assertEqual(adjusted.table_figures(**{**good, **later, **fault}),
                                 Refused(number))
        self.assertEqual(short, [9.0])

    def test_trial_refusals(self):
        """A trial is checked as ever, its level too."""
        self.assertEqual(adjusted.trial_figures(replace(W, a=4)), Refused(3))
        self.assertEqual(adjusted.trial_figures(replace(W, a=4, design=Paired(10))), Refused(4))
        self.assertEqual(adjusted.trial_figures(W, [7.0] * 15), Refused(12))
        self.assertEqual(adjusted.trial_figures(W, None, [7.0] * 7), Refused(12))
        buffer, work = [7.0] * 17, [7.0] * 9
        self.assertEqual(adjusted.trial_figures(W, buffer, work), (1, 3))
        self.assertEqual((buffer, work), (trial.table_of(W) + [7.0], [0.0] * 8 + [7.0]))
        self.assertEqual(sheet.sheet(W_FILE[:-1]), "refused 1\n")

    def test_c_calls(self):
        figures, rows = [7] * 3, [7]
        self.assertEqual(ccall.adjusted_on_file(W_FILE, figures, rows), 0)
        self.assertEqual((figures, rows), ([1, 3, 7], [8]))
        short, rows = [7], [7]
        self.assertEqual(ccall.adjusted_on_file(W_FILE, short, rows), 112)
        self.assertEqual(ccall.adjusted_on_file(W_FILE + bytes(4), short, rows), 108)
        self.assertEqual((short, rows), ([7], [7]))
        values = [float(value) for value in P]
        for room, places, answer in ((3, 4, 0), (2, 4, 112), (3, 3, 112), (5, 6, 0)):
            figures, work = [7] * room, [7.0] * places
            self.assertEqual(ccall.adjusted_on_table(values, 4, 3, 2, 0, work, figures), answer)
            self.assertEqual(figures, ([0, 1, 2] + [7] * room)[:room] if answer == 0 else [7] * room)
            self.assertEqual(work, ([0.0] * 4 + [7.0] * places)[:places] if answer == 0
                             else [7.0] * places)
        self.assertEqual(ccall.adjusted_on_table([NAN] * 12, 4, 3, 2, 0, [], []), 111)


class Balanced(unittest.TestCase):
    """Document 02, §3."""

    def column(self, *values):
        """A column balanced, as a table of its own."""
        return balanced.table_balanced([float(value) for value in values], len(values), 1)

    def test_w(self):
        expected = [8, 7, 5, 3, 7, 8, 3, 5, 6, 5, 2, 1, 4, 7, 1, 3]
        self.assertEqual(balanced.table_balanced(trial.table_of(W), 8, 2), expected)
        full = balanced.trial_run(W)
        self.assertEqual(full.verdicts, (Rejected(1, 7.0), Kept(7.0)))
        self.assertEqual((full.counts, critical_values(full)), ((1, 3), [7, 7]))
        self.assertEqual(balanced.report(W_FILE), W_REPORT.replace("step 1 4 4 0042\nstep 2 2",
                                                                   "step 1 7 6 7\nstep 2 7"))

    def test_milk_and_saffron(self):
        data = trialfile.write(SAFFRON)
        self.assertEqual(report.report(data), "trial 3 2 1 2 8\nstep 1 400 0 4011\n4011 kept 1 3\n"
                                              "0907 kept 1 1\nend 0\n")
        self.assertEqual(balanced.report(data), "trial 3 2 1 2 8\nstep 1 7 4 0907\nstep 2 6 0 4011\n"
                                                "4011 kept 2 3\n0907 rejected 1 1\nend 1\n")
        expected = [6, 8, 2, 5, 8, 6, 5, 2, 5, 7, 1, 3, 7, 5, 3, 1]
        self.assertEqual(balanced.table_balanced(trial.table_of(SAFFRON), 8, 2), expected)

    def test_ties(self):
        self.assertEqual(self.column(3, 1, 3, 2), [4, 1, 4, 2])
        self.assertEqual(self.column(5, 5, 5), [3, 3, 3])
        self.assertEqual(self.column(2, 2, 1, 1, 3), [4, 4, 2, 2, 5])

    def test_zeros(self):
        self.assertEqual(self.column(0.0, -0.0, -5e-324), [3, 3, 1])
        self.assertEqual(self.column(-0.0, 5e-324, 0.0), [2, 3, 2])

    def test_ends(self):
        """The largest and the smallest values, and next ones."""
        huge, one = 1.7976931348623157e308, math.nextafter(1.0, 2.0)
        self.assertEqual(self.column(huge, -huge, 0.0, 5e-324, -5e-324), [5, 1, 3, 4, 2])
        self.assertEqual(self.column(one, 1.0, math.nextafter(1.0, 0.0), -one), [4, 3, 2, 1])

    def test_one_row_and_one_column(self):
        self.assertEqual(balanced.table_balanced([5.0, -2.0, 5.0], 1, 3), [1, 1, 1])
        self.assertEqual(self.column(-3.5), [1])
        self.assertEqual(self.column(1, 2, 3), [1, 2, 3])

    def test_each_column_by_itself(self):
        self.assertEqual(balanced.table_balanced([1.0, 900.0, 2.0, 700.0, 3.0, 800.0], 3, 2),
                         [1, 3, 2, 1, 3, 2])

    def test_by_the_definition(self):
        """Row by row counted, and balancing again changes nothing."""
        rng = random.Random("balanced, definition")
        for _ in range(300):
            given = random_table(rng, 12, 6)
            values, rows, columns = (given[name] for name in ("values", "rows", "columns"))
            found = balanced.table_balanced(values, rows, columns)
            self.assertEqual(found, [sum(other <= value for other in values[i % columns::columns])
                                     for i, value in enumerate(values)])
            self.assertEqual(balanced.table_balanced(found, rows, columns), found)

    def test_the_order_alone(self):
        """Strictly rising changes, another one of each column, give the same balanced table."""
        rng = random.Random("balanced, rising")
        rising = (math.atan, math.exp, lambda x: x ** 3, lambda x: 3 * x - 1e3, lambda x: 1e300 * x)
        for _ in range(300):
            given = random_table(rng)
            values, rows, columns = (given[name] for name in ("values", "rows", "columns"))
            chosen = [rng.choice(rising) for _ in range(columns)]
            changed = [chosen[i % columns](value) for i, value in enumerate(values)]
            self.assertEqual(balanced.table_balanced(changed, rows, columns),
                             balanced.table_balanced(values, rows, columns))
            self.assertEqual(balanced.full_run(**{**given, "values": changed}),
                             balanced.full_run(**given))

    def test_runs(self):
        """Counts are the plain ones; so are the verdicts of one column."""
        rng, differ = random.Random("balanced, runs"), 0
        for _ in range(400):
            given = random_table(rng, 12, 5)
            plain, found = table.full_run(**given), balanced.full_run(**given)
            self.assertEqual(found.counts, plain.counts)
            if given["columns"] == 1:
                self.assertEqual(steps_of(found), steps_of(plain))
            differ += steps_of(found) != steps_of(plain)
        self.assertGreater(differ, 20)

    def test_figures(self):
        """Adjusted figures of a balanced table tell its list at each level."""
        for one, figures in ((W, (2, 3)), (SAFFRON, (3, 2))):
            values = balanced.table_balanced(trial.table_of(one), 8, 2)
            self.assertEqual(adjusted.table_figures(values, 8, 2, 1, 0), figures)
            for e in range(8):
                full = balanced.trial_run(replace(one, a=2 * e + 1, b=16))
                self.assertEqual([step > 0 for step in steps_of(full)],
                                 [figure <= e for figure in figures])

    def check_order(self, call, good, faults):
        """Each fault is refused by its number, alone and with each that comes later."""
        for at, (number, fault) in enumerate(faults):
            for later in [{}] + [later for _, later in faults[at + 1:]]:
                self.assertEqual(call(**{**good, **later, **fault}), Refused(number))

    def test_refusals(self):
        good = dict(values=[1.0, 2.0, 7.0, -0.0], rows=2, columns=2, out=[9.0] * 5)
        self.assertEqual(balanced.table_balanced(**good), [1, 2, 2, 1])
        self.assertEqual(good["out"], [1, 2, 2, 1, 9])
        short = [9.0] * 3
        faults = [(4, dict(columns=33)), (9, dict(values=[NAN, 1.0, 2.0])),
                  (11, dict(values=[1.0, -INF, 0.0, 0.0])), (12, dict(out=short))]
        self.check_order(balanced.table_balanced, good, faults)
        for sizes in (dict(rows=0), dict(columns=0), dict(rows=4097), dict(columns=33)):
            self.assertEqual(balanced.table_balanced(**{**good, **sizes}), Refused(4))
        self.assertEqual(short, [9.0] * 3)

    def test_run_refusals(self):
        good = dict(values=[1.0, 2.0], rows=2, columns=1, k=1, a=1, b=2, observed=1, out=[9.0] * 3,
                    work=[9.0] * 3)
        self.assertEqual(balanced.full_run(**good).verdicts, (Rejected(1, 1.0),))
        self.assertEqual((good["out"], good["work"]), ([1.0, 2.0, 9.0], [0.0, 0.0, 9.0]))
        short = [9.0]
        faults = [(4, dict(k=2)), (3, dict(b=1)), (9, dict(values=[NAN, 1.0, 2.0])),
                  (10, dict(observed=2)), (11, dict(values=[1.0, -INF])), (12, dict(out=short))]
        self.check_order(balanced.full_run, good, faults)
        out = [9.0] * 2
        self.assertEqual(balanced.full_run(**{**good, "out": out, "work": short}), Refused(12))
        self.assertEqual((out, short), ([9.0] * 2, [9.0]))

    def test_trial_refusals(self):
        self.assertEqual(balanced.trial_run(replace(W, a=4)), Refused(3))
        self.assertEqual(balanced.trial_run(replace(W, a=4, design=Paired(10))), Refused(4))
        for rooms in ((15, 8), (16, 7)):
            lent = [[7.0] * room for room in rooms]
            self.assertEqual(balanced.trial_run(W, *lent), Refused(12))
            self.assertEqual(lent, [[7.0] * room for room in rooms])
        out, work = [7.0] * 18, [7.0] * 9
        self.assertEqual(balanced.trial_run(W, out, work), balanced.trial_run(W))
        self.assertEqual(out, balanced.table_balanced(trial.table_of(W), 8, 2) + [7.0] * 2)
        self.assertEqual(work, [0.0] * 8 + [7.0])
        self.assertEqual(balanced.report(W_FILE[:-1]), "refused 1\n")

    def test_c_calls(self):
        saffron, buffer = trialfile.write(SAFFRON), bytearray(b"\7" * 3)
        self.assertEqual(ccall.balanced_on_file(saffron, buffer), 1)
        self.assertEqual(buffer, b"\0\1\7")
        short = bytearray(b"\7")
        self.assertEqual(ccall.balanced_on_file(saffron, short), 112)
        self.assertEqual(ccall.balanced_on_file(saffron + bytes(4), short), 108)
        self.assertEqual(short, b"\7")
        for room, answer in ((3, 112), (4, 0), (6, 0)):
            out = [7.0] * room
            self.assertEqual(ccall.balanced_on_table([3.0, 1.0, 3.0, 2.0], 4, 1, out), answer)
            self.assertEqual(out, ([4.0, 1.0, 4.0, 2.0] + [7.0] * room)[:room] if answer == 0
                             else [7.0] * room)
        self.assertEqual(ccall.balanced_on_table([NAN], 1, 1, []), 111)
        self.assertEqual(ccall.balanced_on_table([NAN], 1, 2, []), 109)
        self.assertEqual(ccall.balanced_on_table([NAN], 1, 33, []), 104)


def subsets(size):
    """All sets of the numbers below size."""
    return [set(chosen) for n in range(size + 1) for chosen in combinations(range(size), n)]


def idle_rejected(full, idle):
    return sum(1 for j in idle if isinstance(full.verdicts[j], Rejected))


def run_g(rng, one, idle, g, drawn=((-3, 0, 1, 2, 134_217_727),)):
    """Run g's own trial: idle figures as it lists them, those of every other offer new, each of one drawing."""
    figures = []
    for i in range(one.offers):
        if i in idle:
            figures += one.design.listed(trial.offer_figures(one, i), g)
        else:
            choice = rng.choice(drawn)
            figures += [rng.choice(choice) for _ in range(one.design.units)]
    return replace(one, figures=trial.padded(figures, trial.FIGURE_PLACES))


class Properties(unittest.TestCase):
    """What holds for every trial and table, on random ones."""

    def test_file_round_trip(self):
        rng = random.Random("round trip")
        for _ in range(400):
            one = random_trial(rng)
            data = trialfile.write(one)
            self.assertEqual(trialfile.read(data), one)
            rubbish = replace(one, codes=one.codes[:one.offers] + (99,) * (16 - one.offers))
            self.assertTrue(trial.same(one, rubbish))
            self.assertEqual(trialfile.write(rubbish), data)

    def test_damaged_file_round_trip(self):
        """What is read from any bytes is written back as those bytes."""
        rng, accepted = random.Random("damage"), 0
        for _ in range(2000):
            data = bytearray(trialfile.write(random_trial(rng, 3, 3, 9)))
            data[rng.randrange(len(data))] ^= 1 << rng.randrange(8)
            answer = trialfile.read(bytes(data))
            if not isinstance(answer, Refused):
                accepted += 1
                self.assertEqual(trialfile.write(answer), bytes(data))
        self.assertGreater(accepted, 200)

    def test_steps_equal_full_run(self):
        rng = random.Random("steps")
        for _ in range(600):
            given = random_table(rng, 12, 7)
            values = given["values"]
            full = table.full_run(**given)
            now = run.begin(**{name: given[name] for name in given if name != "values"})
            rejecting, records = [0] * now.columns, []
            while not now.ended:
                before = now.rejected
                now, record = run.step(now, values)
                records.append(record)
                for j in range(now.columns):
                    if (now.rejected & ~before) >> j & 1:
                        rejecting[j] = now.steps
            self.assertEqual(tuple(records), full.records)
            self.assertEqual(rejecting, steps_of(full))

    def test_selection_by_rank(self):
        """c(K) by ranks alone: fewer than m below it and at least m at most it."""
        rng = random.Random("rank")
        for _ in range(300):
            given = random_table(rng)
            columns = method.columns_of(given["values"], given["columns"])
            m = given["rows"] - method.level_rows(given["rows"], given["a"], given["b"])
            k_maxes = []
            for row in zip(*columns):
                k_maxes += [next(v for v in row if sum(w > v for w in row) < given["k"]
                                 <= sum(w >= v for w in row))]
            expected = next(v for v in k_maxes if sum(w < v for w in k_maxes) < m
                            <= sum(w <= v for w in k_maxes))
            found = method.c(columns, range(given["columns"]), given["k"], given["rows"] - m)
            self.assertEqual(found, expected)
            self.assertTrue(found != 0.0 or is_plus_zero(found))

    def test_demand_3_tables(self):
        """At most e of the M runs reject k or more idle columns, plain or balanced."""
        rng = random.Random("demand 3, tables")
        for run_of in (table.full_run, balanced.full_run) * 60:
            given = random_table(rng, 6)
            rows, columns = given["rows"], given["columns"]
            e = method.level_rows(rows, given["a"], given["b"])
            for idle in subsets(columns):
                bad = 0
                for g in range(rows):
                    values = [v if i % columns in idle else rng.choice((-9.0, 0.0, 1.0, 1e9))
                              for i, v in enumerate(given["values"])]
                    full = run_of(**{**given, "values": values, "observed": g})
                    bad += idle_rejected(full, idle) >= given["k"]
                self.assertLessEqual(bad, e)

    def test_demand_3_trials(self):
        """At most e of the 2^n runs reject k or more idle offers, plain or balanced."""
        rng = random.Random("demand 3, trials")
        for run_of in (trial.full_run, balanced.trial_run) * 60:
            one = random_trial(rng, 3, 4, 4)
            rows = trial.rows_of(one)
            e = method.level_rows(rows, one.a, one.b)
            for idle in subsets(one.offers):
                runs = [run_of(run_g(rng, one, idle, g)) for g in range(rows)]
                bad = sum(idle_rejected(full, idle) >= one.k for full in runs)
                self.assertLessEqual(bad, e)

    def test_report_and_c_call_agree(self):
        rng = random.Random("report")
        for call, text_of in ((ccall.on_file, report.report),
                              (ccall.balanced_on_file, balanced.report)) * 150:
            one = random_trial(rng, 6, 8, 5)
            data, buffer = trialfile.write(one), bytearray(b"\7" * 20)
            answer = call(data, buffer)
            text = text_of(data)
            self.assertTrue(text.endswith(f"\nend {answer}\n"))
            self.assertEqual(answer, sum(1 for step in buffer[:one.offers] if step not in (0, 255)))
            self.assertEqual(buffer[one.offers:], b"\7" * (20 - one.offers))
            self.assertNotIn("-0", [line.split()[-1] for line in text.splitlines()])


if __name__ == "__main__":
    unittest.main()
