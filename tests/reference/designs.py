"""How a trial was laid out: in pairs of shops (document 01), or with shops without partners (document 02, §6).

All in which the two differ stands here, under the same names:

KIND, content, of_content      the shape word: its kind, and its bits 27-0 with k and offers
units, treated                 figures of an offer; how many of them are of treated shops, 0 where each is of a pair
rows, entry                    M, and the whole number in a row for an offer's figures
breaks_4, breaks_15            refusals of the counts
untested                       whether an offer's figures set it aside
listed                         demand 3: what a run's file lists as the figures of an idle offer

Rows count from 0, pairs and shops here too.
"""

from dataclasses import dataclass
from functools import lru_cache
from itertools import combinations
from typing import ClassVar

from .refusals import MAX_PAIRS, MAX_SHOPS, MIN_SHOPS


@dataclass(frozen=True)
class Paired:
    """So many pairs: a figure is the difference of a pair's shops, and a row exchanges some of them."""

    pairs: int
    KIND: ClassVar[int] = 2
    treated: ClassVar[int] = 0

    @property
    def units(self) -> int:
        return self.pairs

    @property
    def rows(self) -> int:
        """M = 2^n."""
        return 2 ** self.pairs

    def breaks_4(self) -> bool:
        return not 1 <= self.pairs <= MAX_PAIRS

    def breaks_15(self) -> bool:
        return False

    def listed(self, differences, row: int) -> list:
        """The sign of pair j is changed if bit j of the row is 1."""
        return [-d if row >> j & 1 else d for j, d in enumerate(differences)]

    def entry(self, differences, row: int) -> int:
        return sum(self.listed(differences, row))

    def untested(self, differences) -> bool:
        """Document 02, §4: difference 0 in every pair."""
        return not any(differences)

    def content(self, k: int, offers: int) -> int:
        return k << 16 | offers << 8 | self.pairs

    @classmethod
    def of_content(cls, content: int) -> tuple:
        """k, offers, the design, and the bits that have to be zero."""
        return content >> 16 & 0xFF, content >> 8 & 0xFF, cls(content & 0xFF), content >> 24


@lru_cache(maxsize=None)
def choices(shops: int, treated: int) -> tuple:
    """All choices of that many shops, in ascending order of their lists."""
    return tuple(sorted(combinations(range(shops), treated)))


@dataclass(frozen=True)
class Unpaired:
    """So many shops, the treated ones first: a figure is a shop's own, and a row calls others treated."""

    shops: int
    treated: int
    KIND: ClassVar[int] = 5

    @property
    def units(self) -> int:
        return self.shops

    def choices(self) -> tuple:
        """By row, the shops that it calls treated."""
        return choices(self.shops, self.treated)

    @property
    def rows(self) -> int:
        return len(self.choices())

    def breaks_4(self) -> bool:
        return False

    def breaks_15(self) -> bool:
        """2 to 10 shops, of which 1 to all but one are treated."""
        return not (MIN_SHOPS <= self.shops <= MAX_SHOPS and 1 <= self.treated <= self.shops - 1)

    def listed(self, figures, row: int) -> list:
        """The shops of the choice first, both groups in ascending order."""
        chosen = self.choices()[row]
        return [figures[i] for i in chosen] + [x for i, x in enumerate(figures) if i not in chosen]

    def entry(self, figures, row: int) -> int:
        """(shops - treated) times the chosen sum, less treated times the remaining sum."""
        chosen = sum(figures[i] for i in self.choices()[row])
        return (self.shops - self.treated) * chosen - self.treated * (sum(figures) - chosen)

    def untested(self, figures) -> bool:
        """Equal figures in all shops."""
        return len(set(figures)) == 1

    def content(self, k: int, offers: int) -> int:
        return k << 24 | offers << 16 | self.shops << 8 | self.treated

    @classmethod
    def of_content(cls, content: int) -> tuple:
        """As of pairs; every bit is in use."""
        return content >> 24, content >> 16 & 0xFF, cls(content >> 8 & 0xFF, content & 0xFF), 0


DESIGNS = {design.KIND: design for design in (Paired, Unpaired)}
