"""Trials and tables as values, and the runs that the coins might have given.

Run g of a trial has the figures of the offers that are called idle as fall g of the coins, or choice g of
treated shops, lists them; the other offers stay as they are. Nothing is judged here.
"""

from dataclasses import dataclass, replace
from functools import cached_property
from itertools import combinations
from math import comb

import trialtext

OWN = "own.trial"  # a trial of the teacher's own, for the facts; its file's name stands in the heading of its page
LARGEST = {1: "largest", 2: "second largest"}  # the k-max in words


@dataclass(frozen=True)
class Pairs:
    """Pairs of shops: a figure is a difference, and changes sign where the shops are exchanged."""

    units: int

    @property
    def rows(self) -> int:
        return 2 ** self.units

    def way(self, g: int) -> list:
        """The pairs that row g exchanges, from 1."""
        return [j + 1 for j in range(self.units) if g >> j & 1]

    def listed(self, figures, g: int) -> list:
        return [-x if g >> j & 1 else x for j, x in enumerate(figures)]

    def entry(self, figures, g: int) -> int:
        return sum(self.listed(figures, g))


@dataclass(frozen=True)
class Shops:
    """Shops without partners, the treated ones first: a figure stays with its shop."""

    units: int
    treated: int

    @property
    def rows(self) -> int:
        return comb(self.units, self.treated)

    @cached_property
    def choices(self) -> list:
        return list(combinations(range(self.units), self.treated))

    def way(self, g: int) -> list:
        """The shops that row g calls treated, from 1."""
        return [i + 1 for i in self.choices[g]]

    def listed(self, figures, g: int) -> list:
        chosen = self.choices[g]
        return [figures[i] for i in chosen] + [x for i, x in enumerate(figures) if i not in chosen]

    def entry(self, figures, g: int) -> int:
        chosen = sum(figures[i] for i in self.choices[g])
        return (self.units - self.treated) * chosen - self.treated * (sum(figures) - chosen)


@dataclass(frozen=True)
class Trial:
    """A trial: level (a, b), k, how it was laid out, and of each offer its printed code and its figures."""

    level: tuple
    k: int
    layout: Pairs | Shops
    offers: tuple

    @property
    def codes(self) -> list:
        return [code for code, _ in self.offers]

    def file(self) -> bytes:
        """The trial file."""
        treated = [f"treated {self.layout.treated}"] if isinstance(self.layout, Shops) else []
        lines = ["level {} {}".format(*self.level), f"k {self.k}", *treated,
                 *(" ".join(map(str, ("offer", code, *figures))) for code, figures in self.offers)]
        return trialtext.make("\n".join(lines).encode())

    def run(self, idle, g: int):
        """Run g with these offers (from 0) idle."""
        return replace(self, offers=tuple(
            (code, tuple(self.layout.listed(figures, g)) if i in idle else figures)
            for i, (code, figures) in enumerate(self.offers)))

    def is_wrong(self, idle, named) -> bool:
        """Whether a list is a wrong one: it names k or more idle offers."""
        return idle_names(idle, named) >= self.k

    def of(self, offers):
        """The trial with these offers (from 0) alone."""
        return replace(self, offers=tuple(self.offers[i] for i in offers))

    def columns(self) -> list:
        """The table, column by column."""
        return [[self.layout.entry(figures, g) for g in range(self.layout.rows)] for _, figures in self.offers]


def trial_of(data: bytes) -> Trial:
    """The trial of a file that fits the words of one."""
    lines = [line.split() for line in trialtext.show(data).splitlines()[1:]]
    found = {words[0]: list(map(int, words[1:])) for words in lines if words[0] != "offer"}
    offers = tuple((words[1], tuple(map(int, words[2:]))) for words in lines if words[0] == "offer")
    units = len(offers[0][1])
    layout = Shops(units, *found["treated"]) if "treated" in found else Pairs(units)
    return Trial(tuple(found["level"]), found["k"][0], layout, offers)


@dataclass(frozen=True)
class Table:
    """A table that is handed in: level, k, observed row, and the rows of f64 values."""

    level: tuple
    k: int
    observed: int
    rows: tuple

    @property
    def codes(self) -> list:
        """Its offers have no codes: their positions, from 1."""
        return [f"offer {j + 1}" for j in range(len(self.rows[0]))]

    @property
    def e(self) -> int:
        return len(self.rows) * self.level[0] // self.level[1]

    def columns(self) -> list:
        return [list(column) for column in zip(*self.rows)]

    def of(self, offers):
        """The table with these offers (from 0) alone."""
        return replace(self, rows=tuple(tuple(row[j] for j in offers) for row in self.rows))


def table_of(text: str) -> Table:
    """The table of a sample's text: lines `level a b`, `k n`, `observed g` and a `row` each."""
    lines = [line.partition("#")[0].split() for line in text.splitlines()]
    found = {words[0]: list(map(int, words[1:])) for words in lines if words and words[0] != "row"}
    rows = tuple(tuple(map(float, words[1:])) for words in lines if words and words[0] == "row")
    return Table(tuple(found["level"]), found["k"][0], found["observed"][0], rows)


def idle_names(idle, named) -> int:
    """How many of the offers on a list are idle."""
    return sum(i in idle for i in named)


def k_maxes(columns, offers, k: int) -> list:
    """By row, the k-th largest value of these offers (from 0)."""
    return [sorted(row)[-k] for row in zip(*(columns[j] for j in offers))]
