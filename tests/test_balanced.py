"""The program `balanced`, as a process: a trial file in, its balanced report or one refusal out."""

import unittest

import programs
from reference.balanced import report


def setUpModule():
    programs.prove("balanced")


class Balanced:
    name, text = "balanced", staticmethod(report)


class Samples(Balanced, programs.Samples, unittest.TestCase):
    stored = "saffron.trial"  # W's verdicts are the plain ones

    def test_w(self):
        self.assertEqual(self.printed(programs.W), "trial 3 2 1 2 8\nstep 1 7 6 7\nstep 2 7 0 7\n"
                                                   "0042 rejected 1 1\n7 kept 2 3\nend 1\n")

    def test_aside(self):
        self.assertEqual(self.printed(programs.ASIDE),
                         "trial 3 3 1 2 8\nstep 1 7 6 7\nstep 2 7 0 7\n0042 rejected 1 1\n7 kept 2 3\n"
                         "04711 aside 0 0\nend 1\n")

    def test_shops(self):
        self.assertEqual(self.printed(programs.SHOPS),
                         "trial 6 3 1 2 20\nstep 1 19 1 0088\nstep 2 18 3 0088\n2301 rejected 1 1\n"
                         "0088 kept 2 14\n4105 aside 0 0\nend 1\n")

    def test_milk_and_saffron(self):
        data = (programs.ROOT / "samples" / "saffron.trial").read_bytes()
        self.assertEqual(self.printed(data), "trial 3 2 1 2 8\nstep 1 7 4 0907\nstep 2 6 0 4011\n"
                                             "4011 kept 2 3\n0907 rejected 1 1\nend 1\n")


class Inputs(Balanced, programs.Inputs, unittest.TestCase):
    share = 7  # more than of the report, whose text is compared elsewhere too


class FailedReads(Balanced, programs.FailedReads, unittest.TestCase):
    pass


class FailedWrites(Balanced, programs.FailedWrites, unittest.TestCase):
    pass


class Waiting(Balanced, programs.Waiting, unittest.TestCase):
    pass


class Interrupted(Balanced, programs.Interrupted, unittest.TestCase):
    pass


if __name__ == "__main__":
    unittest.main()
