"""An answer: what is read off a report."""

from dataclasses import dataclass
from itertools import combinations


class Trouble(Exception):
    """A program that is not there, that failed, or that prints no report."""


@dataclass(frozen=True)
class Step:
    """A step's number, and its critical value as printed."""

    number: int
    critical: str


@dataclass(frozen=True)
class Verdict:
    """An offer's printed code, the word of its verdict, the step that rejected it or the last step, its count."""

    code: str
    word: str
    step: int
    count: int


@dataclass(frozen=True)
class Answer:
    """A full run. Of a table `e` and `rows` are the table's own."""

    e: int
    rows: int
    steps: tuple
    verdicts: tuple

    def named(self) -> list:
        """The list: the offers (from 0) that are rejected."""
        return [i for i, verdict in enumerate(self.verdicts) if verdict.word == "rejected"]

    def rejected_in(self, step: int) -> list:
        return [i for i in self.named() if self.verdicts[i].step == step]

    def left(self, step: int) -> list:
        """The offers (from 0) that are left before a step."""
        return [i for i, verdict in enumerate(self.verdicts)
                if verdict.word == "kept" or verdict.word == "rejected" and verdict.step >= step]

    def sets(self, step: int, k: int) -> list:
        """The sets of a step in the order of the walk: what is put back, and the whole set."""
        gone = [i for i in self.named() if self.verdicts[i].step < step]
        return [(back, sorted([*self.left(step), *back])) for back in (combinations(gone, k - 1) if gone else [()])]


@dataclass(frozen=True)
class Refusal:
    number: int


def told(report: str):
    """A report's text as an answer, or as a refusal."""
    lines = [line.split() for line in report.splitlines()]
    if lines and lines[0][0] == "refused":
        return Refusal(int(lines[0][1]))
    if not lines or lines[0][0] != "trial" or lines[-1][0] != "end":
        raise ValueError("no report")
    steps = tuple(Step(int(words[1]), words[2]) for words in lines[1:] if words[0] == "step")
    verdicts = tuple(Verdict(code, word, int(step), int(count)) for code, word, step, count
                     in (words for words in lines[1:-1] if words[0] != "step"))
    return Answer(int(lines[0][4]), int(lines[0][5]), steps, verdicts)


def whole(value: float) -> str:
    """A whole value as text, with the sign of minus zero."""
    return f"{value:.0f}"
