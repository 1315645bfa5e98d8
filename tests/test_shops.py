"""Shops without partners (document 02, §6): the reference on examples, what must hold always, and wrong versions."""

import random
import unittest
from collections import Counter
from contextlib import contextmanager
from dataclasses import replace
from functools import lru_cache
from math import comb
from unittest import mock

from answers import BLANK_TRIAL, text, trial_numbers
from cases import cases_of
from frames import shape_numbers
from generators.designs import ENDS, EVERY_UNPAIRED
from generators.examples import UNPAIRED
from generators.files import FULL_SHOPS, SHOPS, W
from generators.kinds import FileCase, RecordCase
from generators.trials import some_shop_trial, valid_shop_trials
from reference import adjusted, balanced, ccall, method, report, sheet, trial, trialfile
from reference.designs import DESIGNS, Paired, Unpaired
from reference.refusals import MAX_DIFFERENCE, Refused, trial_breaks_4
from reference.table import Aside
from test_reference import idle_rejected, run_g, subsets

BOTH = (trial.full_run, balanced.trial_run)
WORDS = [0x10004006, 0x51020402, 0x3400002A, 0x31000007, 0x40000009, 0x40000007, 0x40000002, 0x40000004,
         0x40000003, 0x4FFFFFFF, 0x40000005, 0x40000001, 0xF000000C]


def report_of(name) -> str:
    return report.report(trialfile.write(UNPAIRED[name]))


def number_of(answer) -> int:
    return answer.number if isinstance(answer, Refused) else 0


class Examples(unittest.TestCase):
    def test_rows(self):
        """Shops count from 0 in the reference: {1,2}, {1,3}, {1,4}, {2,3}, {2,4}, {3,4}."""
        self.assertEqual(Unpaired(4, 2).choices(), ((0, 1), (0, 2), (0, 3), (1, 2), (1, 3), (2, 3)))
        self.assertEqual(Unpaired(2, 1).choices(), ((0,), (1,)))
        self.assertEqual(Unpaired(3, 2).choices(), ((0, 1), (0, 2), (1, 2)))

    def test_table(self):
        columns = method.columns_of(trial.table_of(SHOPS), 2)
        self.assertEqual(columns, [[20, 0, 8, -8, 0, -20], [-8, 16, 0, 0, -16, 8]])
        all_but_one = method.columns_of(trial.table_of(UNPAIRED["all-but-one"]), 2)
        self.assertEqual(all_but_one, [[21, -3, -7, -11], [-21, 3, 7, 11]])

    def test_report(self):
        self.assertEqual(report_of("4-of-2"), "trial 4 2 1 1 6\nstep 1 16 1 7\nstep 2 8 5 7\n"
                                              "0042 rejected 1 1\n7 kept 2 5\nend 1\n")
        self.assertEqual(report_of("4-of-2-1-3"), "trial 4 2 1 2 6\nstep 1 8 2 0042\nstep 2 0 2 7\n"
                                                  "0042 rejected 1 1\n7 kept 2 5\nend 1\n")
        self.assertEqual(report_of("4-of-2-k2"), "trial 4 2 2 3 6\nstep 1 -8 0 7\n0042 rejected 1 1\n"
                                                 "7 kept 1 5\nend 1\n")

    def test_balanced_report(self):
        self.assertEqual(balanced.report(trialfile.write(SHOPS)),
                         "trial 4 2 1 1 6\nstep 1 6 0 0042\n0042 kept 1 1\n7 kept 1 5\nend 0\n")
        self.assertEqual(balanced.report(trialfile.write(UNPAIRED["4-of-2-1-3"])),
                         "trial 4 2 1 2 6\nstep 1 5 2 0042\nstep 2 4 2 7\n0042 rejected 1 1\n7 kept 2 5\nend 1\n")

    def test_figures(self):
        self.assertEqual(sheet.sheet(trialfile.write(SHOPS)), "0042 1\n7 5\nend 6\n")
        self.assertEqual(adjusted.trial_figures(UNPAIRED["aside"]), (1, 6, 6, 6, 6))

    def test_file(self):
        self.assertEqual(trialfile.words_of(trialfile.write(SHOPS)), WORDS)
        self.assertEqual(trialfile.read(trialfile.bytes_of(WORDS)), SHOPS)

    def test_two_shops(self):
        """One treated of two: the entries of a pair with the difference of the two figures."""
        self.assertEqual(report_of("2-of-1"), "trial 2 3 1 1 2\nstep 1 2 0 0042\n0042 kept 1 1\n7 kept 1 2\n"
                                              "04711 aside 0 0\nend 0\n")

    def test_aside(self):
        """Equal figures in all shops, zeros or not; one figure that differs keeps an offer in."""
        self.assertEqual(report_of("aside"), "trial 4 5 1 2 6\nstep 1 8 2 0042\nstep 2 2 2 13\n"
                                             "0042 rejected 1 1\n11 aside 0 0\n12 aside 0 0\n13 kept 2 6\n"
                                             "7 kept 2 5\nend 1\n")
        self.assertEqual(report_of("few"), "trial 3 3 2 1 3\n0042 aside 0 0\n7 kept 0 1\n04711 aside 0 0\nend 0\n")
        self.assertEqual(report_of("all-aside"), "trial 3 2 2 1 3\n0042 aside 0 0\n7 aside 0 0\nend 0\n")
        buffer = bytearray(b"\7" * 6)
        self.assertEqual(ccall.on_file(trialfile.write(UNPAIRED["aside"]), buffer), 1)
        self.assertEqual(buffer, b"\1\xff\xff\0\0\7")

    def test_pairs_are_set_aside_by_zeros_alone(self):
        one = trial.make_trial((1, 2), 1, [("1", (5, 5)), ("2", (0, 0))])
        self.assertEqual(trial.remaining(one), [0])
        self.assertEqual(trial.remaining(replace(one, design=Unpaired(2, 1))), [])

    def test_longest_file(self):
        self.assertEqual(len(FULL_SHOPS), 716)
        self.assertTrue(report.report(FULL_SHOPS).startswith("trial 10 16 4 84 252\n"))
        self.assertEqual(trialfile.read(FULL_SHOPS + FULL_SHOPS[-4:]), Refused(1))
        for length in range(652, 716):
            self.assertEqual(trialfile.read(FULL_SHOPS[:length]), Refused(1 if length % 4 else 2))

    def test_numbers_of_a_record(self):
        """In the input and the output of `vectors`: a, b, k, offers, kind, units, treated."""
        self.assertEqual(shape_numbers(SHOPS), (1, 6, 1, 2, 5, 4, 2))
        self.assertEqual(shape_numbers(W), (1, 4, 1, 2, 2, 3, 0))
        self.assertEqual(shape_numbers(BLANK_TRIAL), (0, 0, 0, 0, 2, 0, 0))
        self.assertEqual(len(trial_numbers(SHOPS)), 7 + 32 + 160)


class Refusals(unittest.TestCase):
    def shape(self, k, offers, shops, treated, level=0x10004006):
        """What the example's file is refused by, with another shape word or level."""
        shape = 5 << 28 | k << 24 | offers << 16 | shops << 8 | treated
        return number_of(trialfile.read(trialfile.bytes_of([level, shape, *WORDS[2:]])))

    def record(self, k=1, offers=2, shops=4, treated=2, a=1):
        one = replace(SHOPS, k=k, offers=offers, a=a, design=Unpaired(shops, treated))
        self.assertEqual(number_of(trialfile.write(one)), trial.trial_refusal(one) or 0)
        return trial.trial_refusal(one) or 0

    def test_bounds(self):
        """Every shops and treated up to beyond both ends: accepted, or 15."""
        for shops in (*range(14), 255, 2 ** 64 - 1):
            for treated in (*range(14), shops - 1, shops, shops + 1, 2 ** 64 - 1):
                if treated >= 0:
                    good = 2 <= shops <= 10 and 1 <= treated < shops
                    self.assertEqual(self.record(shops=shops, treated=treated), 0 if good else 15)
        for shops, treated in ((0, 0), (1, 0), (1, 1), (11, 5), (255, 255), (4, 0), (4, 4), (4, 5), (4, 255)):
            self.assertEqual(self.shape(1, 2, shops, treated), 15)
        self.assertEqual(self.shape(1, 2, 4, 1), 0)

    def test_order_at_the_shape_word(self):
        self.assertEqual(self.shape(0, 2, 11, 0), 4)
        self.assertEqual(self.shape(3, 2, 4, 4), 4)
        self.assertEqual(self.shape(5, 16, 0, 0), 4)
        self.assertEqual(self.shape(1, 17, 11, 11), 4)
        self.assertEqual(self.shape(1, 2, 11, 2, level=0x10000006), 3)
        for kind in set(range(16)) - {2, 5}:
            words = [WORDS[0], kind << 28 | 0x0B04, *WORDS[2:]]
            self.assertEqual(trialfile.read(trialfile.bytes_of(words)), Refused(2))

    def test_order_of_a_record(self):
        self.assertEqual(self.record(k=0, shops=1, a=0), 4)
        self.assertEqual(self.record(offers=17, treated=0, a=0), 4)
        self.assertEqual(self.record(treated=4, a=6), 15)
        self.assertEqual(self.record(a=6), 3)
        spoiled = replace(SHOPS, codes=(7, 7, *SHOPS.codes[2:]), figures=(2 ** 31 - 1,) * 160)
        self.assertEqual(trial.trial_refusal(replace(spoiled, design=Unpaired(4, 4))), 15)
        self.assertEqual(trial.trial_refusal(spoiled), 6)

    def test_the_other_kind(self):
        """A word of one kind is no word of the other: k of the one is what the other wants to be zero."""
        of_pairs = trialfile.words_of(trialfile.write(W))
        for level, shape, *others in (WORDS, of_pairs):
            words = [level, shape ^ 7 << 28, *others]
            self.assertEqual(trialfile.read(trialfile.bytes_of(words)), Refused(4))

    def test_same(self):
        """Two trials are the same only if their kinds are."""
        one = trial.make_trial((1, 2), 1, [("1", (5, 4))], 1)
        self.assertFalse(trial.same(one, replace(one, design=Paired(2))))
        self.assertFalse(trial.same(SHOPS, replace(SHOPS, design=Unpaired(4, 1))))
        self.assertTrue(trial.same(SHOPS, replace(SHOPS, figures=SHOPS.figures[:8] + (9,) * 152)))


class Properties(unittest.TestCase):
    def test_rows(self):
        """All choices once, ascending; row 0 is the real one."""
        self.assertEqual(len(EVERY_UNPAIRED), 45)
        for design in EVERY_UNPAIRED:
            chosen = design.choices()
            self.assertEqual(len(chosen), comb(design.shops, design.treated))
            self.assertTrue(all(one < other for one, other in zip(chosen, chosen[1:])))
            self.assertTrue(all(len(set(shops)) == design.treated for shops in chosen))
            self.assertEqual(chosen[0], tuple(range(design.treated)))
        self.assertEqual(max(design.rows for design in EVERY_UNPAIRED), 252)

    def test_entries(self):
        """By the words of the request; a listing's row 0 is the row that it is listed for; all rows cancel out."""
        rng = random.Random("shops, entries")
        for design in EVERY_UNPAIRED:
            figures = [rng.randint(-MAX_DIFFERENCE, MAX_DIFFERENCE) for _ in range(design.shops)]
            entries = [design.entry(figures, row) for row in range(design.rows)]
            for entry, chosen in zip(entries, design.choices()):
                rest = [figures[i] for i in range(design.shops) if i not in chosen]
                self.assertEqual(entry, len(rest) * sum(figures[i] for i in chosen) - len(chosen) * sum(rest))
                self.assertEqual(int(float(entry)), entry)
            self.assertEqual(entries, [design.entry(design.listed(figures, row), 0) for row in range(design.rows)])
            self.assertEqual(sum(entries), 0)

    def test_largest_entries(self):
        """Both ends of the figures, exact as f64."""
        for design in ENDS:
            figures = [MAX_DIFFERENCE if i < design.treated else -MAX_DIFFERENCE for i in range(design.shops)]
            largest = 2 * design.treated * (design.shops - design.treated) * MAX_DIFFERENCE
            one = replace(trial.make_trial((1, 2), 1, [("1", figures)]), design=design)
            self.assertEqual((trial.table_of(one)[0], max(trial.table_of(one))), (largest, largest))

    def test_listings(self):
        """Figures stay with their shops, those of the choice first, each group in its order."""
        for design in EVERY_UNPAIRED:
            for row, chosen in enumerate(design.choices()):
                listed = design.listed(range(design.shops), row)
                self.assertEqual(tuple(listed[:design.treated]), chosen)
                self.assertEqual(sorted(listed[design.treated:]), listed[design.treated:])
                self.assertEqual(sorted(listed), list(range(design.shops)))

    def test_what_all_shops_share(self):
        """The same cents more in every shop change nothing."""
        rng = random.Random("shops, shared")
        for _ in range(200):
            one = some_shop_trial(rng, 6, 6)
            share = rng.randint(-9, 9)
            figures = [min(max(figure, -10 ** 6), 10 ** 6) for figure in trial.used_figures(one)]
            moved = [replace(one, figures=trial.padded([figure + more for figure in figures], 160))
                     for more in (0, share)]
            self.assertEqual(trial.table_of(moved[0]), trial.table_of(moved[1]))
            for run_of in BOTH:
                self.assertEqual(run_of(moved[0]), run_of(moved[1]))

    def test_round_trips(self):
        rng = random.Random("shops, round trips")
        for _, one in valid_shop_trials(rng, 6):
            data = trialfile.write(one)
            self.assertEqual(trialfile.read(data), one)
            self.assertEqual(len(data), 4 * (3 + one.offers * (1 + one.design.shops)))
            damaged = bytearray(data)
            damaged[rng.randrange(len(data))] ^= 1 << rng.randrange(8)
            found = trialfile.read(bytes(damaged))
            if not isinstance(found, Refused):
                self.assertEqual(trialfile.write(found), damaged)

    def test_aside(self):
        """Exactly where all figures are equal, and so in every listing."""
        rng = random.Random("shops, aside")
        found = Counter()
        for _ in range(300):
            one = some_shop_trial(rng, 8, 6)
            for i, verdict in enumerate(trial.full_run(one).verdicts):
                figures = trial.offer_figures(one, i)
                equal = all(figure == figures[0] for figure in figures)
                self.assertEqual(verdict == Aside(), equal)
                self.assertTrue(all(one.design.untested(one.design.listed(figures, row)) == equal
                                    for row in range(one.design.rows)))
                found[equal, any(figures)] += 1
        self.assertGreater(min(found[True, True], found[True, False], found[False, True]), 30)

    def test_first_line(self):
        rng = random.Random("shops, first line")
        for _ in range(60):
            one = some_shop_trial(rng, 5, 7)
            first = f"trial {one.design.shops} {one.offers} {one.k} "
            rows = comb(one.design.shops, one.design.treated)
            for text_of in (report.report, balanced.report):
                line = text_of(trialfile.write(one)).splitlines()[0]
                self.assertEqual(line, f"{first}{rows * one.a // one.b} {rows}")


class Rarity(unittest.TestCase):
    """Over all C choices named as treated, at most floor(C x a/b) runs reject k or more idle offers."""

    DRAWN = ((0,), (6,), (-3, 0, 1, 2, MAX_DIFFERENCE))  # of other offers: set aside, or anything

    def trials(self, rng):
        """Small trials of few figures, at levels that reject, and some with offers set aside."""
        for shops, treated in ((2, 1), (3, 1), (3, 2), (4, 1), (4, 2), (4, 3), (5, 2), (5, 3)):
            design = Unpaired(shops, treated)
            for _ in range(4):
                offers = rng.randint(1, 4)
                listed = [(str(i), [rng.choice((0, 1, 2, 5))] * shops if rng.random() < 0.2 else
                           [rng.randint(0, 6) for _ in range(shops)]) for i in range(offers)]
                level = rng.choice(((1, design.rows), (2, design.rows + 1), (1, 2), (2, 3)))
                one = trial.make_trial(level, rng.randint(1, min(3, offers)), listed)
                yield replace(one, design=design)

    def test_runs(self):
        rng, found = random.Random("shops, rarity"), Counter()
        for one in self.trials(rng):
            self.assertIsNone(trial.trial_refusal(one))
            for idle in subsets(one.offers):
                runs = [run_g(rng, one, idle, g, self.DRAWN) for g in range(one.design.rows)]
                for run_of in BOTH:
                    bad = sum(idle_rejected(run_of(run), idle) >= one.k for run in runs)
                    most = one.design.rows * one.a // one.b
                    self.assertLessEqual(bad, most)
                    found.update(met=bad > 0, all_idle=bad > 0 and len(idle) == one.offers,
                                 full=0 < bad == most)
        self.assertGreater(min(found.values()), 10, found)

    def test_the_example(self):
        """At 1/6 and with both offers idle the runs that reject: not more than one of the six."""
        runs = [run_g(random.Random(0), SHOPS, {0, 1}, g) for g in range(6)]
        self.assertEqual(runs[0], SHOPS)
        self.assertEqual([trial.offer_figures(run, 0) for run in runs],
                         [(9, 7, 2, 4), (9, 2, 7, 4), (9, 4, 7, 2), (7, 2, 9, 4), (7, 4, 9, 2), (2, 4, 9, 7)])
        self.assertEqual([trial.full_run(run).rejected() for run in runs], [1, 0, 0, 0, 0, 0])

    def test_rows_are_reordered(self):
        """Why it holds: with all offers idle, run g's table has the trial's rows in another order, row g first."""
        def rows_of(one):
            return list(zip(*method.columns_of(trial.table_of(one), one.offers)))
        rng = random.Random("shops, reordered")
        for one in self.trials(rng):
            rows = rows_of(one)
            for g, row in enumerate(rows):
                moved = rows_of(run_g(rng, one, set(range(one.offers)), g))
                self.assertEqual((moved[0], sorted(moved)), (row, sorted(rows)))


# ---- wrong versions


class Colexicographic(Unpaired):
    """Choices by their masks as numbers, the first shop the lowest bit."""

    def choices(self):
        return tuple(sorted(super().choices(), key=lambda chosen: sum(1 << i for i in chosen)))


class Descending(Unpaired):
    def choices(self):
        return super().choices()[::-1]


class RealThenDescending(Unpaired):
    """Row 0 is right, and the others are turned round."""

    def choices(self):
        first, *others = super().choices()
        return (first, *others[::-1])


class ChosenAlone(Unpaired):
    def entry(self, figures, row):
        return sum(figures[i] for i in self.choices()[row])


class PlainDifference(Unpaired):
    """The chosen sum less the remaining one."""

    def entry(self, figures, row):
        return 2 * sum(figures[i] for i in self.choices()[row]) - sum(figures)


class FactorsExchanged(Unpaired):
    def entry(self, figures, row):
        chosen = sum(figures[i] for i in self.choices()[row])
        return self.treated * chosen - (self.shops - self.treated) * (sum(figures) - chosen)


class RemainingFirst(Unpaired):
    """Treated and untreated shops exchanged: the sign is another."""

    def entry(self, figures, row):
        return -super().entry(figures, row)


class TreatedLast(Unpaired):
    """The treated shops are looked for at the end of the figures."""

    def entry(self, figures, row):
        return super().entry(figures[::-1], row)


class ZerosAside(Unpaired):
    def untested(self, figures):
        return not any(figures)


class NoneAside(Unpaired):
    def untested(self, figures):
        return False


class AsideByTheObservedEntry(Unpaired):
    def untested(self, figures):
        return self.entry(figures, 0) == 0


class AsideByTheTreated(Unpaired):
    """Equal figures in the treated shops are enough."""

    def untested(self, figures):
        return len(set(figures[:self.treated])) == 1


class OneShopAccepted(Unpaired):
    def breaks_15(self):
        return not (1 <= self.shops <= 10 and 1 <= self.treated <= max(self.shops - 1, 1))


class NineShopsAtMost(Unpaired):
    def breaks_15(self):
        return super().breaks_15() or self.shops == 10


class ElevenShopsAccepted(Unpaired):
    def breaks_15(self):
        return super().breaks_15() and not (self.shops == 11 and 1 <= self.treated <= 10)


class AllTreated(Unpaired):
    def breaks_15(self):
        return super().breaks_15() and not 2 <= self.treated == self.shops <= 10


class NoneTreated(Unpaired):
    def breaks_15(self):
        return super().breaks_15() and not (2 <= self.shops <= 10 and self.treated == 0)


class AsFourInstead(Unpaired):
    """The counts of shops are judged by 4."""

    def breaks_4(self):
        return self.breaks_15()


class LaidOutAsPairs(Unpaired):
    """k, offers and shops where the word of pairs has them."""

    @classmethod
    def of_content(cls, content):
        return content >> 16 & 0xFF, content >> 8 & 0xFF, cls(content & 0xFF, 1), content >> 24


class ShopsAndTreatedExchanged(Unpaired):
    @classmethod
    def of_content(cls, content):
        return content >> 24, content >> 16 & 0xFF, cls(content & 0xFF, content >> 8 & 0xFF), 0


# How many stored files and records at least have another answer; a record has no shape word.
DIFFERENT = {
    Colexicographic: (15, 20), Descending: (30, 30), RealThenDescending: (30, 30), ChosenAlone: (30, 30),
    PlainDifference: (30, 30), FactorsExchanged: (30, 30), RemainingFirst: (30, 30), TreatedLast: (30, 30),
    ZerosAside: (15, 15), NoneAside: (15, 15), AsideByTheObservedEntry: (3, 3), AsideByTheTreated: (15, 15),
    OneShopAccepted: (1, 1), NineShopsAtMost: (3, 3), ElevenShopsAccepted: (3, 3), AllTreated: (3, 3),
    NoneTreated: (1, 3), AsFourInstead: (15, 30), LaidOutAsPairs: (30, 0), ShopsAndTreatedExchanged: (30, 0),
}


@contextmanager
def read_as(designs):
    """Files are read with these designs by the kind of the shape word."""
    with mock.patch.dict(DESIGNS, designs, clear=True):
        yield


def small(case) -> bool:
    """Quickly run in many wrong versions."""
    if isinstance(case, FileCase):
        return len(case.data) < 260
    return isinstance(case, RecordCase) and case.trial.offers < 8


@lru_cache(maxsize=None)
def stored() -> tuple:
    """(case, what it prints) of the stored files and records that are small."""
    return tuple((case, text(case)) for family in ("example", "file", "record", "bar_file", "bar_record")
                 for case in cases_of(family) if small(case) and of_shops(case))


def of_shops(case) -> bool:
    """Whether the shape word, or the record, is one of shops."""
    if isinstance(case, FileCase):
        return len(case.data) >= 8 and case.data[7] >> 4 == 5
    return isinstance(case.trial.design, Unpaired)


def differ(kind, changed) -> int:
    """How many of the stored cases of a kind print something else, once changed."""
    return sum(text(changed(case)) != printed for case, printed in stored() if isinstance(case, kind))


class WrongVersions(unittest.TestCase):
    def test_right(self):
        self.assertEqual(differ((FileCase, RecordCase), lambda case: case), 0)

    def test_designs(self):
        for wrong, (files, records) in DIFFERENT.items():
            with read_as({2: Paired, 5: wrong}):
                self.assertGreaterEqual(differ(FileCase, lambda case: case), files, wrong.__name__)
            found = differ(RecordCase, lambda case: replace(case, trial=replace(
                case.trial, design=wrong(case.trial.design.shops, case.trial.design.treated))))
            self.assertGreaterEqual(found, records, wrong.__name__)

    def test_kinds_mixed_up(self):
        """Each kind read as the other, shops as pairs, and shops as no kind of shape at all."""
        for designs in ({2: Unpaired, 5: Paired}, {2: Paired, 5: Paired}, {2: Paired}):
            with read_as(designs):
                self.assertGreaterEqual(differ(FileCase, lambda case: case), 30)
        as_pairs = differ(RecordCase, lambda case: replace(case, trial=replace(
            case.trial, design=Paired(case.trial.design.shops))))
        self.assertGreaterEqual(as_pairs, 30)

    def test_pairs_read_as_shops(self):
        with read_as({2: Unpaired, 5: Unpaired}):
            found = sum(number_of(trialfile.read(case.data)) == 15 for case in cases_of("file"))
        self.assertGreaterEqual(found, 10)

    def test_15_before_4(self):
        def wrong(k, offers, design):
            return not design.breaks_15() and trial_breaks_4(k, offers, design)
        with mock.patch.object(trial, "trial_breaks_4", wrong), mock.patch.object(trialfile, "trial_breaks_4", wrong):
            self.assertGreaterEqual(differ(FileCase, lambda case: case), 3)
            self.assertGreaterEqual(differ(RecordCase, lambda case: case), 3)

    def test_15_after_3(self):
        """Of a record: a file has its level first."""
        found = [case for case, _ in stored() if isinstance(case, RecordCase)
                 and trial.trial_refusal(case.trial) == 15 and trial.breaks_3(case.trial.a, case.trial.b)]
        self.assertGreaterEqual(len(found), 3)


if __name__ == "__main__":
    unittest.main()
