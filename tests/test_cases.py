"""The generated cases: the same each time, named apart, and reaching every refusal."""

import unittest
from collections import Counter

from cases import EVERY_FAMILY, cases_of, every_case_of
from expected import expected
from reference.refusals import Refused
from reference.trialfile import read

# By family, the refusals that its calls can answer.
REFUSALS = {
    "record": {3, 4, 5, 6, 7, 12, 15},
    "table": {3, 4, 9, 10, 11, 12},
    "step": {9, 11, 12, 13, 14},
    "walk": {3, 4, 9, 10, 11, 12, 13},
    "balanced_run": {3, 4, 9, 10, 11, 12},
}


def refusals(answer) -> set:
    """The refusal number of an answer, or of each step's, lent places left aside; 0 if accepted."""
    result = answer[0] if isinstance(answer, tuple) else answer
    results = result if isinstance(result, list) else [result]
    return {one.number if isinstance(one, Refused) else 0 for one in results}


class Cases(unittest.TestCase):
    def test_names_differ(self):
        counts = Counter(case.name for family in EVERY_FAMILY for case in every_case_of(family))
        self.assertEqual([name for name in counts if counts[name] > 1], [])

    def test_same_each_time(self):
        for family in EVERY_FAMILY:
            # Compared as text, since a value that is no number differs from itself.
            first, again = (repr(list(every_case_of(family))) for _ in range(2))
            self.assertEqual(first, again)

    def test_enough_trials(self):
        found = Counter(number for case in every_case_of("file")
                        for number in refusals(read(case.data)))
        self.assertGreaterEqual(found[0], 2000)
        self.assertEqual(set(found), {*range(9), 15})

    def test_every_refusal(self):
        for family, numbers in REFUSALS.items():
            found = {number for case in cases_of(family)
                     for answer in expected(case).values() for number in refusals(answer)}
            self.assertEqual(found, numbers | {0}, family)


if __name__ == "__main__":
    unittest.main()
