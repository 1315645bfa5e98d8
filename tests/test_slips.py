"""The slips of the reference: each does what it says on a sample, and none is made outside its context."""

import unittest
from pathlib import Path

from generators.examples import P, starred
from generators.kinds import RecordCase, TableCase
from reference import report, table, trial
from reference.slips import SLIPS, slip
from reference.table import Kept, Rejected

SAMPLES = Path(__file__).resolve().parent.parent / "samples"
ZEROS = (0.0, -10.0, 10.0, -0.0)  # samples/zeros.table


def lines(name: str) -> list:
    """The report of a sample."""
    return report.report((SAMPLES / f"{name}.trial").read_bytes()).splitlines()


def parted(name: str, sample: str) -> tuple:
    """The lines of a sample's report that a slip takes away, and those that it brings."""
    right = lines(sample)
    with slip(name):
        slipped = lines(sample)
    return [line for line in right if line not in slipped], [line for line in slipped if line not in right]


def answers() -> list:
    """The full runs of the starred examples, trials and tables."""
    return [trial.full_run(case.trial) if isinstance(case, RecordCase)
            else table.full_run(case.values, case.rows, case.columns, case.k, case.a, case.b, case.observed)
            for case in starred() if type(case) in (RecordCase, TableCase)]


class Slips(unittest.TestCase):
    def test_as_large_as(self):
        """7 is rejected at a sum that equals the critical value."""
        self.assertEqual(parted("as-large-as", "w"), (["7 kept 2 3", "end 1"], ["7 rejected 2 3", "end 2"]))

    def test_minus_zero(self):
        """A sum of zero is rejected above minus zero, and a row with minus zero does not reach it."""
        right = table.full_run(ZEROS, 4, 1, 1, 1, 2, 0)
        with slip("minus-zero"):
            slipped = table.full_run(ZEROS, 4, 1, 1, 1, 2, 0)
        self.assertEqual((right.verdicts, right.counts), ((Kept(0.0),), (3,)))
        self.assertEqual((slipped.verdicts, slipped.counts), ((Rejected(1, -0.0),), (2,)))
        self.assertEqual(str(slipped.records[0].critical_value), "-0.0")

    def test_drop_rejected(self):
        self.assertEqual(parted("drop-rejected", "putback"),
                         (["step 2 7 1 204", "step 3 6 0 203", "203 kept 3 4", "end 3"],
                          ["step 2 4 2 201", "203 rejected 2 4", "end 4"]))

    def test_drop_rejected_with_fewer_than_k_left(self):
        """Of P offer 3 alone is left: its own values are then the smallest."""
        with slip("drop-rejected"):
            self.assertEqual(table.full_run(P, 4, 3, 2, 1, 4, 0).records[1].critical_value, 3.0)

    def test_first_set(self):
        """P: the first put-back set gives 2, and offer 3 is rejected."""
        with slip("first-set"):
            slipped = table.full_run(P, 4, 3, 2, 1, 4, 0)
        self.assertEqual((slipped.records[1].critical_value, slipped.verdicts[2]), (2.0, Rejected(2, 2.0)))

    def test_stop_at_zero(self):
        """W with k 2 at 1/9: 0042 is lost, and no step is told. At another e nothing changes."""
        self.assertEqual(parted("stop-at-zero", "tight"),
                         (["step 1 4 2 7", "0042 rejected 1 1", "7 kept 1 3", "end 1"],
                          ["0042 kept 0 1", "7 kept 0 3", "end 0"]))
        self.assertEqual(parted("stop-at-zero", "w"), ([], []))

    def test_eth_largest(self):
        """With e = 1 the largest of all values is the critical one, and nobody is above it; at e = 0 it is right."""
        right, slipped = parted("eth-largest", "ladder")
        self.assertEqual((right[-1], slipped[0], slipped[-1]), ("end 4", "step 1 260 0 0005", "end 0"))
        self.assertEqual(parted("eth-largest", "tight"), ([], []))

    def test_observed_left_out(self):
        self.assertEqual(parted("observed-left-out", "w"),
                         (["0042 rejected 1 1", "7 kept 2 3"], ["0042 rejected 1 0", "7 kept 2 2"]))


class Examples(unittest.TestCase):
    def test_starred_examples_catch_them(self):
        """All but one: where rejected offers are dropped, of P fewer than k are left, and the bar is as high."""
        right = answers()
        for name in SLIPS:
            with slip(name):
                self.assertEqual(answers() != right, name != "drop-rejected", name)

    def test_off_outside(self):
        """Also where the reference fails inside."""
        right = answers()
        for name in SLIPS:
            with self.assertRaises(ZeroDivisionError), slip(name):
                1 / 0
            self.assertEqual(answers(), right)


if __name__ == "__main__":
    unittest.main()
