"""What stands on the page to teach with, by the reference alone.

Every number of the page is in an element whose `data-is` names a fact: a file, then what is said of it, as
`w.trial entry 0 1`. `Facts.text` gives the text that has to stand there. Offers count from 0 in these names, as the
rows do; sets of idle offers are positions from 1, joined by -, or a - alone.
"""

from dataclasses import replace
from functools import cached_property, lru_cache
from itertools import combinations

from reference import method, report, table, trial, trialfile
from reference.designs import Paired
from reference.refusals import Refused
from reference.slips import slip
from reference.table import Aside, Rejected


def listing(codes) -> str:
    return ", ".join(codes) or "no offer"


def number(value: float) -> str:
    """A whole value; minus zero keeps its sign."""
    return "-0" if str(value) == "-0.0" else str(int(value))


class Judged:
    """A table and its full run; with a slip, what the reference makes of it then."""

    def __init__(self, slipped=None):
        self.slipped = slipped

    @cached_property
    def run(self):
        if self.slipped is None:
            return self.full_run()
        with slip(self.slipped):
            return self.full_run()

    @property
    def rejected(self) -> list:
        return [i for i, verdict in enumerate(self.run.verdicts) if isinstance(verdict, Rejected)]

    def rows(self):
        return len(self.columns[0])

    def e(self):
        return method.level_rows(len(self.columns[0]), *self.levels)

    def bar_place(self):
        """Which of the smallest k-max values is the critical one."""
        return self.rows() - self.e()

    def k(self):
        return self.tolerance

    def level(self):
        return "{}/{}".format(*self.levels)

    def offers(self):
        return len(self.codes_of)

    def code(self, i):
        return self.codes_of[i]

    def row(self, g):
        return range(self.rows())[g]

    def entry(self, g, i):
        return number(self.columns[i][g])

    def named(self):
        return listing(self.codes_of[i] for i in self.rejected)

    def step_line(self, s):
        return f"step {s}: critical value {self.bar(s)}"

    def bar(self, s):
        return number(self.run.records[s - 1].critical_value)

    def verdict(self, i):
        verdict = self.run.verdicts[i]
        word = (f"rejected in step {verdict.step}" if isinstance(verdict, Rejected)
                else "aside" if isinstance(verdict, Aside) else "kept")
        return f"{self.codes_of[i]}: {word}, count {self.run.counts[i]}"

    def count(self, i):
        return self.run.counts[i]

    def wrong(self):
        """The offers that are listed with the slip alone."""
        right = self.without_slip().rejected
        return listing(self.codes_of[i] for i in self.rejected if i not in right)

    def lost(self):
        return listing(self.codes_of[i] for i in self.without_slip().rejected if i not in self.rejected)


class OfTable(Judged):
    """A sample's table: lines `level`, `k`, `observed`, and a `row` each."""

    def __init__(self, data: bytes, slipped=None):
        super().__init__(slipped)
        self.data, lines = data, [line.split() for line in data.decode().splitlines() if line[0] != "#"]
        found = dict((words[0], list(map(int, words[1:]))) for words in lines[:3])
        self.levels, (self.tolerance,), (self.observed,) = found["level"], found["k"], found["observed"]
        self.values = [float(word) for words in lines[3:] for word in words[1:]]
        self.columns = method.columns_of(self.values, len(lines[3]) - 1)
        self.codes_of = [f"offer {i + 1}" for i in range(len(self.columns))]

    def full_run(self):
        return table.full_run(self.values, self.rows(), self.offers(), self.tolerance, *self.levels, self.observed)

    def without_slip(self):
        return OfTable(self.data)

    def with_slip(self, name):
        return OfTable(self.data, name)

    def observed_row(self):
        return self.observed


class OfTrial(Judged):
    """A trial file."""

    observed = 0

    def __init__(self, data: bytes, slipped=None):
        super().__init__(slipped)
        self.data, self.trial = data, trialfile.read(data)
        if not isinstance(self.trial, Refused):
            self.take(self.trial)

    def take(self, accepted):
        self.levels, self.tolerance = (accepted.a, accepted.b), accepted.k
        self.columns = method.columns_of(trial.table_of(accepted), accepted.offers)
        self.codes_of = [report.printed_code(accepted, i) for i in range(accepted.offers)]

    def full_run(self):
        return trial.full_run(self.trial)

    def without_slip(self):
        return OfTrial(self.data)

    def with_slip(self, name):
        return OfTrial(self.data, name)

    def code(self, i):
        """Of a refused file by its words."""
        if not isinstance(self.trial, Refused):
            return self.codes_of[i]
        word = trialfile.words_of(self.data)[2 + i]
        return str(word % 2 ** 24).zfill(word >> 24 & 15)

    def refusal(self):
        return self.trial.number

    def report(self):
        return " ".join(report.report(self.data).split())

    def units(self):
        return self.trial.design.units

    def treated(self):
        return self.trial.design.treated

    def figure(self, i, j):
        return trial.offer_figures(self.trial, i)[j]

    def signed(self, g, i):
        listed = self.trial.design.listed(trial.offer_figures(self.trial, i), g)
        words = " ".join(f"{'+-'[x < 0]} {abs(x)}" for x in listed)
        return words[2:] if listed[0] >= 0 else "-" + words[2:]

    def way_numbers(self, g) -> list:
        design = self.trial.design
        if isinstance(design, Paired):
            return [j + 1 for j in range(design.pairs) if g // 2 ** j % 2]
        return [i + 1 for i in design.choices()[g]]

    def way(self, g):
        return ", ".join(map(str, self.way_numbers(g)))

    # ---- all the lists

    @staticmethod
    def offers_in(key: str) -> list:
        return [] if key == "-" else [int(position) - 1 for position in key.split("-")]

    def codes(self, key):
        return listing(self.codes_of[i] for i in self.offers_in(key))

    @lru_cache(maxsize=None)
    def list_of(self, key: str, g: int) -> tuple:
        """The offers on the list of run g."""
        idle, design, figures = self.offers_in(key), self.trial.design, []
        for i in range(self.trial.offers):
            own = trial.offer_figures(self.trial, i)
            figures += design.listed(own, g) if i in idle else own
        made = replace(self.trial, figures=trial.padded(figures, trial.FIGURE_PLACES))
        return tuple(OfTrial(trialfile.write(made), self.slipped).rejected)

    def wrong_names(self, key: str, g: int) -> int:
        return len(set(self.list_of(key, g)) & set(self.offers_in(key)))

    def is_marked(self, key: str, g: int) -> bool:
        return self.wrong_names(key, g) >= self.tolerance

    def marked(self, key):
        return sum(self.is_marked(key, g) for g in range(self.rows()))

    def list(self, key, g):
        """All that stands on a list: its run, its names, how many of them are idle, a cross where they are too many."""
        way = " ".join(map(str, self.way_numbers(g)))
        first = "★ printed" if g == 0 else f"⇄ {way}" if isinstance(self.trial.design, Paired) else f"treated {way}"
        wrong = self.wrong_names(key, g)
        last = (" ✗" if self.is_marked(key, g) else "") + (f" {wrong} idle" if wrong else "")
        return f"{first} {listing(self.codes_of[i] for i in self.list_of(key, g))}{last}"


class OfStep:
    """A step of a run, over one of its sets; set 0 has nothing put back."""

    def __init__(self, judged: Judged, step: int, place=None):
        self.judged, self.step = judged, step
        rejected = {i for i in judged.rejected if judged.run.verdicts[i].step < step}
        self.left = [i for i in range(judged.offers()) if i not in rejected]
        sets = list(combinations(sorted(rejected), judged.tolerance - 1)) if rejected else [()]
        self.put_back = () if place == 0 else sets[(place or 1) - 1]
        self.of_set = place is not None or len(sets) == 1
        rows = zip(*(judged.columns[i] for i in sorted([*self.left, *self.put_back])))
        self.values = [method.k_max(row, judged.tolerance) for row in rows]

    def number(self):
        return self.judged.run.records[self.step - 1].step

    def rejects(self):
        return listing(self.judged.codes_of[i] for i in self.judged.rejected
                       if self.judged.run.verdicts[i].step == self.step)

    def back(self):
        return listing(self.judged.codes_of[i] for i in self.put_back)

    def critical(self):
        """Of the set; or of the step, which has the largest."""
        if self.of_set:
            return number(method.mth_smallest(self.values, self.judged.rows() - self.judged.e()))
        return number(self.judged.run.records[self.step - 1].critical_value)

    def above(self):
        return sum(value > int(self.critical()) for value in self.values)

    def value(self, value):
        return number(self.values[self.values.index(value)])

    def k_max(self, g):
        return number(self.values[g])

    def dot(self, g):
        return f"row {g}: {number(self.values[g])}"

    def in_order(self):
        return ", ".join(map(number, sorted(self.values)))

    def place(self, n):
        return range(1, self.judged.rows() + 1)[n - 1]

    def ordered(self, n):
        return sorted((value, g) for g, value in enumerate(self.values))[n - 1][1]

    def code(self, i):
        return self.judged.code(i)

    def observed(self, i):
        return number(self.judged.columns[i][self.judged.observed])


class Facts:
    """The facts of a page, from the bytes of its files by name."""

    def __init__(self, files: dict, title: str = ""):
        self.title = title
        self.subjects = {name: OfTable(data) if name.endswith(".table") else OfTrial(data)
                         for name, data in files.items()}

    @lru_cache(maxsize=None)
    def subject(self, words: tuple):
        """What is spoken of: a file, with a slip, or a step of it."""
        first, *rest = words
        judged = self.subjects[first]
        if not rest:
            return judged
        return judged.with_slip(rest[1]) if rest[0] == "slip" else OfStep(judged, *map(int, rest[1::2]))

    def text(self, name: str) -> str:
        """What has to stand in an element of that name."""
        words = name.split(" ")
        if words[0] == "file":
            return self.title
        if words[0] in ("chapter", "pair", "shop"):
            return str(int(words[1]))
        if words[-1] == "drawing":
            return f"Dots on a line: {' '.join(words[:-1])}"
        about = 1 if words[1] not in ("slip", "step") else 5 if words[3] == "set" else 3
        subject = self.subject(tuple(words[:about]))
        given = [word if words[about] in ("list", "codes", "marked") and n == 0 else int(word)
                 for n, word in enumerate(words[about + 1:])]
        return str(getattr(subject, words[about].replace("-", "_"))(*given))
