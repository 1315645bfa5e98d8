"""A plain model of the walk over put-back sets that looks at the rows, and what it does on the way.

It counts rows by masks and leaves what cannot rise; c(K) itself is the reference's. The reference
walks over all sets: test_putback.py compares the two.
"""

from itertools import compress
from math import inf

from reference import method


class Walk:
    """The walk over the sets K of the columns kept and k - 1 rejected ones, in lexicographic order.

    value     the largest c(K)
    n, sets   how many columns are rejected, and how many sets there are
    rises     which of them, counted from 0, have a c(K) above the best value so far: it is worked out
    looks     for each set that is looked at, in how many rows beyond e it has k columns above that value
    ties      how many of the sets that do not rise would if columns equal to that value counted
    branches  for each branch with two columns or more to choose: how many rows beyond e have so many
              columns of `set` above it that those to choose make k, and how many k of `set` and `rest`
    """

    def __init__(self, table, rejected, k: int, e: int):
        self.table, self.k, self.e = table, k, e
        self.kept, self.n = tuple(j for j in range(len(table)) if j not in rejected), len(rejected)
        self.numbers = {chosen: i for i, chosen in enumerate(method.put_back_sets(rejected, k))}
        self.sets, self.rises, self.looks, self.ties, self.branches = len(self.numbers), [], [], 0, []
        self.rows, self.bits = list(zip(*table)), [1 << j for j in range(len(table))]
        self.mark(-inf)
        self.walk((), tuple(sorted(rejected)), k - 1)

    def mark(self, value: float) -> None:
        """The best value so far, and a mask for each row of the columns above it."""
        self.value, self.marks, self.reached = value, self.masks(value.__lt__), None

    def masks(self, holds) -> list:
        """A mask for each row of the columns whose value holds something."""
        return [sum(compress(self.bits, map(holds, row))) for row in self.rows]

    def ties_let_through(self, offers: tuple) -> bool:
        """Whether a set would rise if columns equal to the best value counted."""
        self.reached = self.reached or self.masks(self.value.__le__)
        return self.beyond(self.reached, offers, self.k) > 0

    def beyond(self, marks, columns, needed: int) -> int:
        """How many rows more than e, or fewer, have at least so many of the columns in their mask."""
        mask = sum(1 << j for j in columns)
        return sum((row & mask).bit_count() >= needed for row in marks) - self.e

    def walk(self, chosen: tuple, rest: tuple, left: int) -> None:
        """The sets with these columns chosen and so many still to choose from the rest."""
        if left == 0:
            self.look(chosen)
        elif len(rest) >= left and not (left > 1 and self.hopeless(chosen, rest, left)):
            self.walk((*chosen, rest[0]), rest[1:], left - 1)
            self.walk(chosen, rest[1:], left)

    def look(self, chosen: tuple) -> None:
        """A set: c(K) is worked out where more than e rows have k of its columns above the best value."""
        offers, found = (*self.kept, *chosen), self.found(chosen)
        self.looks.append(found)
        if found > 0:
            self.rises.append(self.numbers[chosen])
            self.mark(method.c(self.table, offers, self.k, self.e))
        else:
            self.ties += self.ties_let_through(offers)

    def found(self, chosen: tuple) -> int:
        """Rows beyond e that have k columns of a set above the best value."""
        return self.beyond(self.marks, (*self.kept, *chosen), self.k)

    def hopeless(self, chosen: tuple, rest: tuple, left: int) -> bool:
        """Whether no set of a branch can rise, by either test."""
        found = self.by_set(chosen, left), self.by_rest(chosen, rest)
        self.branches.append(found)
        return min(found) <= 0

    def by_set(self, chosen: tuple, left: int) -> int:
        """Rows beyond e that have all of k but those to choose in the columns kept and chosen."""
        return self.beyond(self.marks, (*self.kept, *chosen), self.k - left)

    def by_rest(self, chosen: tuple, rest: tuple) -> int:
        """Rows beyond e that have k in these and the rest."""
        return self.beyond(self.marks, (*self.kept, *chosen, *rest), self.k)

    def branches_left(self) -> list:
        """Those of the branches that are left."""
        return [found for found in self.branches if min(found) <= 0]
