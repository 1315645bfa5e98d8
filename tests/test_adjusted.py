"""The program `adjusted`, as a process: a trial file in, its adjusted figures or one refusal out."""

import unittest

import programs
from reference.sheet import sheet


def setUpModule():
    programs.prove("adjusted")


class Adjusted:
    name, text = "adjusted", staticmethod(sheet)


class Samples(Adjusted, programs.Samples, unittest.TestCase):
    def test_w(self):
        self.assertEqual(self.printed(programs.W), "0042 1\n7 3\nend 8\n")

    def test_aside(self):
        self.assertEqual(self.printed(programs.ASIDE), "0042 1\n7 3\n04711 8\nend 8\n")

    def test_shops(self):
        self.assertEqual(self.printed(programs.SHOPS), "2301 1\n0088 14\n4105 20\nend 20\n")


class Inputs(Adjusted, programs.Inputs, unittest.TestCase):
    share = 7  # more than of the report, whose text is compared elsewhere too


class FailedReads(Adjusted, programs.FailedReads, unittest.TestCase):
    pass


class FailedWrites(Adjusted, programs.FailedWrites, unittest.TestCase):
    pass


class Waiting(Adjusted, programs.Waiting, unittest.TestCase):
    pass


class Interrupted(Adjusted, programs.Interrupted, unittest.TestCase):
    pass


if __name__ == "__main__":
    unittest.main()
