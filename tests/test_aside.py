"""Offers that have not been tested (document 02, §4 and §6): the reference on examples, and what must hold always."""

import random
import unittest
from dataclasses import replace

from generators.aside import some_aside_shop_trial, some_aside_trial
from generators.designs import cancelling, some_paired, some_unpaired, untested
from generators.examples import ASIDE
from reference import adjusted, balanced, ccall, method, report, sheet, table, trial, trialfile
from reference.method import Record
from reference.refusals import Refused
from reference.table import Aside, Kept, Rejected
from test_reference import idle_rejected, is_plus_zero, run_g, subsets

BOTH = ((trial.full_run, report.report, ccall.on_file),
        (balanced.trial_run, balanced.report, ccall.balanced_on_file))


def report_of(name) -> str:
    return report.report(trialfile.write(ASIDE[name]))


def without(one, offers):
    """The trial with these offers removed."""
    kept = [i for i in range(one.offers) if i not in offers]
    listed = [(str(one.codes[i]).zfill(one.digits[i]), trial.offer_figures(one, i)) for i in kept]
    return replace(trial.make_trial((one.a, one.b), one.k, listed), design=one.design)


class Examples(unittest.TestCase):
    def test_w_with_a_third_offer(self):
        self.assertEqual(report_of("w"), "trial 3 3 1 2 8\nstep 1 4 4 0042\nstep 2 2 0 7\n0042 rejected 1 1\n"
                                         "7 kept 2 3\n04711 aside 0 0\nend 1\n")
        full = trial.full_run(ASIDE["w"])
        self.assertEqual(full.verdicts, (Rejected(1, 4.0), Kept(2.0), Aside()))
        self.assertEqual((full.counts, full.records),
                         ((1, 3, 0), (Record(1, 4.0, 4, 1), Record(2, 2.0, 0, 2))))

    def test_w_balanced(self):
        """In the balanced table the zeros have rank 8 in every row: no offer would be above that."""
        data = trialfile.write(ASIDE["w"])
        self.assertEqual(balanced.report(data), report_of("w").replace("1 4 4 0042\nstep 2 2", "1 7 6 7\nstep 2 7"))
        full = balanced.trial_run(ASIDE["w"])
        self.assertEqual(full.verdicts, (Rejected(1, 7.0), Kept(7.0), Aside()))
        self.assertEqual(full.counts, (1, 3, 0))
        handed_in = balanced.full_run(trial.table_of(ASIDE["w"]), 8, 3, 1, 1, 4, 0)
        self.assertEqual((handed_in.verdicts, handed_in.counts), ((Kept(8.0),) * 3, (1, 3, 8)))

    def test_no_part_in_any_set(self):
        """W at 7/8 has the critical value -4; with the zeros in the set it would be 0."""
        one = replace(ASIDE["w"], a=7, b=8)
        self.assertEqual(trial.full_run(one).records, (Record(1, -4.0, 5, 2),))
        self.assertEqual(ccall.on_file(trialfile.write(one), None), 2)
        handed_in = table.full_run(trial.table_of(one), 8, 3, 1, 7, 8, 0)
        self.assertEqual(handed_in.verdicts, (Rejected(1, 0.0), Rejected(1, 0.0), Kept(0.0)))

    def test_all_aside(self):
        for text in (report_of("all"), balanced.report(trialfile.write(ASIDE["all"]))):
            self.assertEqual(text, "trial 3 3 2 2 8\n0042 aside 0 0\n7 aside 0 0\n04711 aside 0 0\nend 0\n")
        for run_of, _, _ in BOTH:
            full = run_of(ASIDE["all"])
            self.assertEqual((full.verdicts, full.counts, full.records),
                             ((Aside(),) * 3, (0, 0, 0), ()))

    def test_fewer_than_k_left(self):
        """Also at a level at which every offer that is tested is rejected."""
        expected = "trial 3 3 2 4 8\n0042 aside 0 0\n7 kept 0 3\n04711 aside 0 0\nend 0\n"
        for text in (report_of("few"), balanced.report(trialfile.write(ASIDE["few"]))):
            self.assertEqual(text, expected)
        for one in (ASIDE["few"], replace(ASIDE["few"], a=16_382, b=16_383)):
            for run_of, _, _ in BOTH:
                full = run_of(one)
                self.assertEqual((full.verdicts, full.counts, full.records),
                                 ((Aside(), Kept(0.0), Aside()), (0, 3, 0), ()))
                self.assertTrue(is_plus_zero(full.verdicts[1].critical_value))

    def test_just_k_left(self):
        self.assertEqual(report_of("k-left"), "trial 3 3 2 2 8\nstep 1 0 4 7\n04711 aside 0 0\n"
                                              "0042 rejected 1 1\n7 rejected 1 3\nend 2\n")

    def test_cancelling_differences(self):
        """A sum of 0 in the observed row sets no offer aside."""
        self.assertEqual(report_of("cancelling"), "trial 3 3 2 2 8\nstep 1 0 0 5\n5 kept 1 6\n"
                                                  "04711 aside 0 0\n3 kept 1 5\nend 0\n")
        one = trial.make_trial((7, 8), 1, [("1", (5, -5)), ("2", (0, 0))])
        self.assertEqual(report.report(trialfile.write(one)),
                         "trial 2 2 1 3 4\nstep 1 -10 1 1\n1 rejected 1 3\n2 aside 0 0\nend 1\n")

    def test_sold_in_one_pair(self):
        self.assertEqual(report_of("once"), "trial 3 3 1 4 8\nstep 1 1 0 1\n1 kept 1 4\n"
                                            "04711 aside 0 0\n2 kept 1 8\nend 0\n")

    def test_one_pair(self):
        one = trial.make_trial((1, 2), 1, [("1", (0,)), ("2", (3,)), ("0", (0,))])
        for _, text_of, _ in BOTH:
            lines = text_of(trialfile.write(one)).splitlines()
            self.assertEqual(lines[2:], ["1 aside 0 0", "2 rejected 1 1", "0 aside 0 0", "end 1"])

    def test_bytes_for_c(self):
        for name, found in (("w", b"\1\0\xff"), ("all", b"\xff" * 3), ("few", b"\xff\0\xff"),
                            ("k-left", b"\xff\1\1"), ("cancelling", b"\0\xff\0")):
            for _, _, call in BOTH:
                buffer = bytearray(b"\7" * 5)
                rejected = call(trialfile.write(ASIDE[name]), buffer)
                self.assertEqual((rejected, buffer), (found.count(1), found + b"\7\7"))
        short = bytearray(b"\7" * 2)  # an offer set aside has a byte too
        self.assertEqual(ccall.on_file(trialfile.write(ASIDE["w"]), short), 112)
        self.assertEqual(short, b"\7\7")

    def test_figures(self):
        for name, figures in (("w", (1, 3, 8)), ("all", (8, 8, 8)), ("few", (8, 8, 8)),
                              ("k-left", (8, 0, 2)), ("cancelling", (5, 8, 5)), ("once", (6, 8, 8))):
            self.assertEqual(adjusted.trial_figures(ASIDE[name]), figures)
        data = trialfile.write(ASIDE["w"])
        self.assertEqual(sheet.sheet(data), "0042 1\n7 3\n04711 8\nend 8\n")
        places, rows = [7] * 4, [7]
        self.assertEqual(ccall.adjusted_on_file(data, places, rows), 0)
        self.assertEqual((places, rows), ([1, 3, 8, 7], [8]))

    def test_lent_buffers(self):
        """They hold the whole table, and the work buffer is cleared where no step is run too."""
        for one in ASIDE.values():
            values = trial.table_of(one)
            for call, whole in ((trial.full_run, values), (adjusted.trial_figures, values),
                                (balanced.trial_run, balanced.table_balanced(values, 8, 3))):
                buffer, work = [7.0] * 25, [7.0] * 9
                call(one, buffer, work)
                self.assertEqual((buffer, work), (whole + [7.0], [0.0] * 8 + [7.0]))
                for short in (([7.0] * 23, [7.0] * 8), ([7.0] * 24, [7.0] * 7)):
                    held = [list(lent) for lent in short]
                    self.assertEqual(call(one, *short), Refused(12))
                    self.assertEqual([list(lent) for lent in short], held)

    def test_table_of_zeros(self):
        """A table that is handed in knows nothing of this."""
        full = table.full_run([0.0, 1.0, 0.0, -1.0], 2, 2, 2, 1, 2, 0)
        self.assertEqual(full.verdicts, (Rejected(1, -1.0), Rejected(1, -1.0)))
        self.assertEqual((full.counts, len(full.records)), ((2, 1), 1))
        self.assertEqual(adjusted.table_figures([0.0, 1.0, 0.0, -1.0], 2, 2, 2, 0), (1, 0))


class Properties(unittest.TestCase):
    def trials(self, name, how_many, most_offers=8, most_units=4):
        """So many of pairs, and half as many of shops."""
        rng = random.Random(f"aside, {name}")
        for number in range(how_many * 3 // 2):
            drawn = some_aside_shop_trial if number % 3 == 2 else some_aside_trial
            yield drawn(rng, most_offers, most_units)

    def test_the_offers_removed(self):
        """Without the lines of the offers set aside the report is that of the trial without these offers."""
        compared = few = 0
        for one in self.trials("removed", 600, 16, 5):
            left = trial.remaining(one)
            aside = [i for i in range(one.offers) if i not in left]
            for run_of, text_of, _ in BOTH:
                lines = text_of(trialfile.write(one)).splitlines()
                self.assertEqual(sum(line.endswith(" aside 0 0") for line in lines), len(aside))
                rest = [line for line in lines if not line.endswith(" aside 0 0")]
                if len(left) >= one.k:
                    compared += 1
                    others = text_of(trialfile.write(without(one, aside))).splitlines()
                    self.assertEqual(rest[1:], others[1:])
                    first, other = rest[0].split(), others[0].split()
                    self.assertEqual((first[2], other[2]), (str(one.offers), str(len(left))))
                    self.assertEqual(first[:2] + first[3:], other[:2] + other[3:])
                else:
                    few += 1
                    self.assertEqual([line.split()[1:3] for line in rest[1:-1]], [["kept", "0"]] * len(left))
                    self.assertEqual((rest[-1], run_of(one).records), ("end 0", ()))
        self.assertGreater(min(compared, few), 200)

    def test_verdicts(self):
        """Set aside exactly where every entry is 0, with count 0; all other counts are those of the table."""
        for one in self.trials("verdicts", 400):
            left, columns = trial.remaining(one), method.columns_of(trial.table_of(one), one.offers)
            for run_of, _, _ in BOTH:
                full = run_of(one)
                for i, (verdict, count) in enumerate(zip(full.verdicts, full.counts, strict=True)):
                    unsold = set(columns[i]) == {0.0}
                    self.assertEqual((verdict == Aside(), i not in left), (unsold, unsold))
                    self.assertEqual(count, 0 if unsold else method.count(columns[i], 0))

    def test_calls_and_reports_agree(self):
        for one in self.trials("calls", 300):
            data = trialfile.write(one)
            for run_of, text_of, call in BOTH:
                buffer = bytearray(b"\7" * 20)
                rejected = call(data, buffer)
                self.assertTrue(text_of(data).endswith(f"\nend {rejected}\n"))
                self.assertEqual(rejected, sum(0 < byte < 255 for byte in buffer[:one.offers]))
                self.assertEqual([byte == 255 for byte in buffer[:one.offers]],
                                 [verdict == Aside() for verdict in run_of(one).verdicts])
                self.assertEqual(buffer[one.offers:], b"\7" * (20 - one.offers))

    def test_figures(self):
        """Rejected at a level exactly from the figure on, so that of an offer set aside is M."""
        for one in self.trials("figures", 150, 7, 3):
            rows, figures = trial.rows_of(one), adjusted.trial_figures(one)
            for e in range(rows):
                full = trial.full_run(replace(one, a=2 * e + 1, b=2 * rows))
                self.assertEqual([isinstance(verdict, Rejected) for verdict in full.verdicts],
                                 [figure <= e for figure in figures])
            left = trial.remaining(one)
            self.assertTrue(all(figures[i] == rows for i in range(one.offers)
                                if i not in left or len(left) < one.k))

    def test_cancelling_differences_remain(self):
        rng = random.Random("aside, cancelling")
        for number in range(300):
            design = some_unpaired(rng, 7, 3) if number % 3 == 0 else some_paired(rng, 9, 2)
            cents = cancelling(design, rng)
            one = trial.make_trial((1, 2), 1, [("1", cents), ("2", untested(design, rng))])
            one = replace(one, design=design)
            self.assertEqual((design.entry(cents, 0), trial.trial_refusal(one)), (0, None))
            self.assertEqual(trial.remaining(one), [0])
            self.assertNotIn(Aside(), trial.full_run(one).verdicts[:1])

    def test_demand_3(self):
        """At most e of the M runs reject k or more idle offers, plain or balanced.

        Idle offers may be set aside, and are so in every run; the others are set aside in some runs.
        """
        rng, met = random.Random("aside, demand 3"), 0
        for number in range(80):
            one = some_aside_shop_trial(rng, 4, 4) if number % 4 == 0 else some_aside_trial(rng, 4, 3)
            rows, left = trial.rows_of(one), set(trial.remaining(one))
            for idle in subsets(one.offers):
                runs = [run_g(rng, one, idle, g, ((0,), (-3, 0, 1, 2, 134_217_727))) for g in range(rows)]
                varies = len({tuple(trial.remaining(run)) for run in runs}) > 1
                for run_of, _, _ in BOTH:
                    bad = sum(idle_rejected(run_of(run), idle) >= one.k for run in runs)
                    self.assertLessEqual(bad, method.level_rows(rows, one.a, one.b))
                    met += bad > 0 and varies and not idle <= left
        self.assertGreater(met, 20)


if __name__ == "__main__":
    unittest.main()
