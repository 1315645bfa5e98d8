"""The report program, as a process: standard input in, one report or one refusal out.

The text itself is compared for many more files by the program `vectors`; here it is what a process
adds.
"""

import unittest

import programs
from reference.report import report


def setUpModule():
    programs.prove("report")


class Report:
    name, text = "report", staticmethod(report)


class Samples(Report, programs.Samples, unittest.TestCase):
    def test_aside(self):
        self.assertEqual(self.printed(programs.ASIDE),
                         "trial 3 3 1 2 8\nstep 1 4 4 0042\nstep 2 2 0 7\n0042 rejected 1 1\n7 kept 2 3\n"
                         "04711 aside 0 0\nend 1\n")

    def test_shops(self):
        self.assertEqual(self.printed(programs.SHOPS),
                         "trial 6 3 1 2 20\nstep 1 180 2 2301\nstep 2 45 3 0088\n2301 rejected 1 1\n"
                         "0088 kept 2 14\n4105 aside 0 0\nend 1\n")


class Inputs(Report, programs.Inputs, unittest.TestCase):
    pass


class FailedReads(Report, programs.FailedReads, unittest.TestCase):
    pass


class FailedWrites(Report, programs.FailedWrites, unittest.TestCase):
    pass


class Waiting(Report, programs.Waiting, unittest.TestCase):
    pass


class Interrupted(Report, programs.Interrupted, unittest.TestCase):
    pass


if __name__ == "__main__":
    unittest.main()
