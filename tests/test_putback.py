"""The tables for the walk over put-back sets: each is what its family says, and a wrong walk is found by them.

The model of the walk counts what it does, and gives the reference's value at each step. The library is
held to the reference on these tables by `vectors` and by the tests from C.
"""

import math
import unittest
from collections import Counter
from functools import lru_cache

from cases import cases_of, every_case_of
from expected import expected
from generators.putback import families_of
from reference import method
from reference.refusals import Refused
from reference.table import Rejected
from walkmodel import Walk


def walks_of_run(case, walk) -> list:
    """(walk, the reference's value) of each later step of a table's full run."""
    ran = expected(case)["full_run"][0]
    if isinstance(ran, Refused):
        return []
    table, e = method.columns_of(case.values, case.columns), method.level_rows(case.rows, case.a, case.b)
    rejecting = [verdict.step if isinstance(verdict, Rejected) else math.inf for verdict in ran.verdicts]
    return [(walk(table, {j for j, step in enumerate(rejecting) if step < record.step}, case.k, e),
             record.critical_value) for record in ran.records[1:]]


def walks_of_step(case, walk) -> list:
    """The same of the first step of a run that is given."""
    run, (_, record) = case.run, expected(case)["steps"][0][0]
    table, e = method.columns_of(case.values, run.columns), method.level_rows(run.rows, run.a, run.b)
    return [(walk(table, {j for j in range(run.columns) if run.rejected >> j & 1}, run.k, e),
             record.critical_value)]


def stored(walk=Walk):
    """(case, its walks) of each stored case."""
    yield from ((case, walks_of_run(case, walk)) for case in cases_of("putback"))
    yield from ((case, walks_of_step(case, walk)) for case in cases_of("putback_step"))


@lru_cache(maxsize=1)
def runs() -> tuple:
    """(case, its walks) of each full run, stored or not."""
    return tuple((case, walks_of_run(case, Walk)) for case in every_case_of("putback"))


def every() -> tuple:
    """The same, and the stored steps."""
    return (*runs(), *((case, walks_of_step(case, Walk)) for case in cases_of("putback_step")))


def first_walks(family: str) -> list:
    """The walks of a family's tables over the sets that they were made for."""
    return [walks[0][0] for case, walks in every() if case.name.split("-")[1] == family]


class Values(unittest.TestCase):
    def compare(self, case, walks):
        for walk, value in walks:
            self.assertEqual(walk.value.hex(), value.hex(), case.name)

    def test_every_case(self):
        for case, walks in every():
            self.assertGreaterEqual(len(walks), 1, case.name)
            self.compare(case, walks)

    def test_other_tables(self):
        """Tables that were not made for it; some take many steps."""
        steps = Counter()
        for case in cases_of("table"):
            if case.k in (2, 3, 4) and len(case.values) < 400:
                walks = walks_of_run(case, Walk)
                self.compare(case, walks)
                steps[case.k] += len(walks)
        self.assertGreater(min(steps[k] for k in (2, 3, 4)), 15, steps)


class Families(unittest.TestCase):
    """What the walk does over the choices of k - 1 columns out of n."""

    def of(self, family: str, fewest_k: int = 2) -> list:
        walks = first_walks(family)
        self.assertEqual({walk.k for walk in walks}, set(range(fewest_k, 5)))
        return walks

    def check_at_once(self, family: str):
        """The sets that begin as the first one are looked at, and every branch after them is left."""
        for walk in self.of(family):
            self.assertEqual(walk.rises, [0])
            self.assertEqual(len(walk.looks), walk.n - walk.k + 2)
            self.assertEqual(len(walk.branches_left()), walk.k - 2)

    def test_at_once(self):
        self.check_at_once("at_once")

    def test_by_set(self):
        """Every branch by e rows in the one test, and not by the other."""
        self.check_at_once("by_set")
        self.assertTrue(all(by_set == 0 < by_rest for walk in first_walks("by_set")
                            for by_set, by_rest in walk.branches_left()))

    def test_by_rest(self):
        self.check_at_once("by_rest")
        self.assertTrue(all(by_rest == 0 < by_set for walk in first_walks("by_rest")
                            for by_set, by_rest in walk.branches_left()))

    def test_in_vain(self):
        """A branch is left only where it is one set; e rows are above the value in each."""
        for walk in self.of("in_vain"):
            self.assertEqual(walk.rises, [0])
            self.assertEqual(set(walk.looks[1:]), {0})
            self.assertEqual(len(walk.branches_left()), {2: 0, 3: 1, 4: walk.n - 2}[walk.k])
            self.assertEqual(len(walk.looks) + len(walk.branches_left()), walk.sets)

    def test_never(self):
        """A branch that is one set is not left only where that set rises: for k = 4 there are n - 2."""
        for walk in self.of("never", 3):
            self.assertEqual((len(walk.looks), walk.branches_left()), (walk.sets, []))
            self.assertEqual(len(walk.rises), {3: 2, 4: walk.n - 1}[walk.k])

    def test_every(self):
        """All sets rise, for each k, by e + 1 rows."""
        for family in ("every", "every_own"):
            for walk in self.of(family):
                self.assertEqual(walk.rises, list(range(walk.sets)))
                self.assertEqual(set(walk.looks[1:]), {1})

    def test_last(self):
        for walk in self.of("last"):
            self.assertEqual(walk.rises, [0, walk.sets - 1])

    def test_last_in_vain(self):
        """The others are looked at, by e rows, but for the branches of one set."""
        for walk in self.of("last_in_vain"):
            self.assertEqual(walk.rises, [0, walk.sets - 1])
            self.assertEqual((set(walk.looks[1:-1]), walk.looks[-1]), ({0}, 1))
            self.assertEqual(len(walk.branches_left()), {2: 0, 3: 0, 4: walk.n - 3}[walk.k])
            self.assertEqual(len(walk.looks) + len(walk.branches_left()), walk.sets)

    def test_falling(self):
        """After the second set the walk is left as soon as it can be."""
        for walk in self.of("falling"):
            self.assertEqual((walk.rises, len(walk.looks)), ([0, 1], walk.n - walk.k + 2))

    def test_exact(self):
        """By e + 1 rows, or by e, or only equal; some rise after the first."""
        walks = self.of("exact")
        found = Counter(look for walk in walks for look in walk.looks[1:])
        self.assertEqual(max(found), 1)
        self.assertGreater(min(found[0], found[1], sum(walk.ties for walk in walks)), 50)
        self.assertGreater(sum(1 < len(walk.rises) < walk.sets for walk in walks), len(walks) // 2)

    def test_ties(self):
        """Most sets that do not rise reach the best value; with many values few do."""
        for family, most in (("few_values", True), ("equal_columns", True), ("many_values", False)):
            walks = self.of(family)
            looks = sum(len(walk.looks) - len(walk.rises) for walk in walks)
            self.assertEqual(2 * sum(walk.ties for walk in walks) > looks, most, family)

    def test_counts_that_meet_e(self):
        """Each of the three tests finds e rows, and e + 1, many times."""
        walks = [walk for _, walks in every() for walk, _ in walks]
        looks = Counter(look for walk in walks for look in walk.looks)
        by_set, by_rest = (Counter(found[i] for walk in walks for found in walk.branches) for i in (0, 1))
        self.assertGreater(min(found[i] for found in (looks, by_set, by_rest) for i in (0, 1)), 100)

    def test_one_column_to_choose(self):
        """With k = 2 there is no branch to be left, and each set is looked at."""
        for _, walks in every():
            for walk, _ in walks:
                self.assertTrue(walk.k > 2 or (len(walk.looks), walk.branches) == (walk.sets, []))


class Covered(unittest.TestCase):
    def test_stored(self):
        """Each family for each k, some sixty cases; at e = 0 too."""
        cases = [case for case, _ in stored()]
        self.assertTrue(40 <= len(cases) <= 80, len(cases))
        for k in (2, 3, 4):
            self.assertEqual([case.name.split("-")[1] for case in cases_of("putback") if case.k == k],
                             [family.__name__ for family in families_of(k)])
        self.assertEqual({walk.e for case in cases_of("putback_step")
                          for walk, _ in walks_of_step(case, Walk)}, {0})

    def test_sizes(self):
        """From a few rows to the largest table for each k, and all but one column put back."""
        cases = [case for case, _ in runs()]
        self.assertLess(min(case.rows for case in cases), 6)
        self.assertEqual({case.k for case in cases if (case.rows, case.columns) == (4096, 32)}, {2, 3, 4})
        self.assertEqual({walk.k for _, walks in every() for walk, _ in walks if walk.n == 31}, {2, 3, 4})

    def test_levels_and_rows(self):
        cases = [case for case, _ in runs()]
        allowed = {method.level_rows(case.rows, case.a, case.b) for case in cases}
        self.assertLessEqual(set(range(1, 8)) | {2047}, allowed)
        places = Counter((case.observed > 0) + (case.observed == case.rows - 1) for case in cases)
        self.assertGreater(min(places[i] for i in (0, 1, 2)), 100)

    def test_observed_values(self):
        """A kept column is observed below the walk's value, at it, and above it: rejected in step 2."""
        found = Counter()
        for case, ((walk, value), *_) in runs():
            row = case.values[case.observed * case.columns:][:case.columns]
            found.update((row[j] > value) - (row[j] < value) for j in walk.kept)
        self.assertGreater(min(found[i] for i in (-1, 0, 1)), 50, found)

    def test_zeros(self):
        """Both zeros, in tables where zero is the walk's value."""
        for sign in (-1.0, 1.0):
            self.assertGreater(sum(any(value == 0.0 for _, value in walks) and
                                   any(x == 0.0 and math.copysign(1.0, x) == sign for x in case.values)
                                   for case, walks in every()), 20)


# Wrong walks: what is left too early, or worked out from marks that are not those of the best value.


class OneRowMoreForASet(Walk):
    def found(self, chosen):
        return super().found(chosen) - (len(self.looks) > 0)


class OneRowMoreBySet(Walk):
    def by_set(self, chosen, left):
        return super().by_set(chosen, left) - 1


class OneRowMoreByRest(Walk):
    def by_rest(self, chosen, rest):
        return super().by_rest(chosen, rest) - 1


class OneColumnMoreBySet(Walk):
    def by_set(self, chosen, left):
        return super().by_set(chosen, left - 1)


class ChosenAlone(Walk):
    """The columns kept are not counted."""

    def by_set(self, chosen, left):
        return self.beyond(self.marks, chosen, self.k - left)


class WithoutTheNext(Walk):
    """The first column of the rest is not counted."""

    def by_rest(self, chosen, rest):
        return super().by_rest(chosen, rest[1:])


class WithoutTheRest(Walk):
    """None of it is counted."""

    def by_rest(self, chosen, rest):
        return super().by_rest(chosen, ())


class LeftForGood(Walk):
    """Once a branch is left, so are all that follow."""

    ended = False

    def hopeless(self, chosen, rest, left):
        self.ended = self.ended or super().hopeless(chosen, rest, left)
        return self.ended


class RowsForgotten(Walk):
    """Rows with just k columns above the value are taken for such as cannot count."""

    def mark(self, value):
        super().mark(value)
        self.marks = [row if row.bit_count() > self.k else 0 for row in self.marks]


class NotMarkedAgain(Walk):
    """The rows stay marked by the first set's value: a later set that is above it may be below the best."""

    def mark(self, value):
        if len(self.rises) < 2:
            super().mark(value)
        self.value = value


WRONG = (OneRowMoreForASet, OneRowMoreBySet, OneRowMoreByRest, OneColumnMoreBySet, ChosenAlone, WithoutTheNext,
         WithoutTheRest, LeftForGood, RowsForgotten, NotMarkedAgain)


class WrongWalks(unittest.TestCase):
    def test_found_by_stored_cases(self):
        for wrong in WRONG:
            found = sum(any(walk.value != value for walk, value in walks) for _, walks in stored(wrong))
            self.assertGreaterEqual(found, 2, wrong.__name__)


if __name__ == "__main__":
    unittest.main()
