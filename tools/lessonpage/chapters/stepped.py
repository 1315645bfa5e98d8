"""Chapter: a step. The k-max values as dots on a line, the critical value, what is put back; W, and the table P."""

from dataclasses import dataclass

from ..answers import Answer
from ..drawings import dot_line
from ..markup import Markup, el, fact, listing, para, say, table
from ..samples import sample
from ..tables import OBSERVED, handed_table
from ..trials import LARGEST, k_maxes, table_of, trial_of
from ..words import words_of

WORDS = words_of("stepped")


@dataclass(frozen=True)
class Subject:
    """What is gone through: its name for the facts, codes, columns, k, observed row, and what the programs answer."""

    name: str
    codes: list
    columns: list
    k: int
    observed: int
    answer: Answer

    def code(self, i: int) -> Markup:
        return fact(f"{self.name} code {i}", self.codes[i])

    def step(self, number: int) -> Markup:
        return fact(f"{self.name} step {number} number", number)


def row_signs(subject: Subject, place: int, g: int, value, critical: int) -> str:
    """What a row in order is: the one that sets the bar, one above it, the observed one."""
    at_bar = place == subject.answer.rows - subject.answer.e
    signs = ["← the bar"] * at_bar + ["◇ above"] * (value > critical) + [OBSERVED] * (g == subject.observed)
    return ", ".join(signs)


def ordered_table(subject: Subject, name: str, offers, critical: int) -> Markup:
    """The rows in the order of their k-max."""
    values, answer = k_maxes(subject.columns, offers, subject.k), subject.answer
    rows = []
    for place, g in enumerate(sorted(range(answer.rows), key=lambda g: (values[g], g)), 1):
        rows.append(el("tr", fact(f"{name} place {place}", place, "th", scope="row"),
                       fact(f"{name} ordered {place}", g, "td"),
                       [fact(f"{subject.name} entry {g} {i}", int(subject.columns[i][g]), "td") for i in offers],
                       fact(f"{name} k-max {g}", int(values[g]), "td", class_="total"),
                       el("td", row_signs(subject, place, g, values[g], critical), class_="sign"),
                       class_="at-bar" if place == answer.rows - answer.e else None))
    head = ["place", "row", *(subject.code(i) for i in offers), LARGEST[subject.k], ("what it is", "sign")]
    return table(f"The rows in the order of their {LARGEST[subject.k]} value", head, rows, class_="narrow")


def dotted(subject: Subject, name: str, offers, judged, critical: int) -> Markup:
    """A set's drawing, its words and its table: the offers of the set, those that are judged, the critical value."""
    values = list(enumerate(map(int, k_maxes(subject.columns, offers, subject.k))))
    above, e = sum(value > critical for _, value in values), subject.answer.e
    observed = [(i, subject.codes[i], int(subject.columns[i][subject.observed])) for i in judged]
    allowed = fact(f"{subject.name} e", e, "tspan")
    caption = say(WORDS["caption"], rows=fact(f"{subject.name} rows", subject.answer.rows), c=fact(f"{name} critical", critical),
                  above=fact(f"{name} above", above), e=fact(f"{subject.name} e", e))
    return el("figure", dot_line(name, say(WORDS["drawing"], which=LARGEST[subject.k]), values, critical, allowed, observed),
              el("figcaption", caption), ordered_table(subject, name, offers, critical))


def outcome(subject: Subject, step: int) -> Markup:
    """What a step does, in a sentence."""
    rejected = subject.answer.rejected_in(step)
    if not rejected:
        return para(WORDS["rejects none"], step=subject.step(step))
    return para(WORDS["rejects"], step=subject.step(step),
                codes=fact(f"{subject.name} step {step} rejects", listing(subject.codes[i] for i in rejected)))


def heading(subject: Subject, step: int, words: str) -> Markup:
    return el("h4", say("Step {step}: {words}", step=subject.step(step), words=words))


def plain_steps(subject: Subject) -> list:
    """Steps with nothing to put back, as where k is 1."""
    parts = []
    for step in subject.answer.steps:
        left, name = subject.answer.left(step.number), f"{subject.name} step {step.number}"
        words = "all offers" if len(left) == len(subject.codes) else "the offers that are left"
        parts += [heading(subject, step.number, words), dotted(subject, name, left, left, int(step.critical)),
                  outcome(subject, step.number)]
    return parts


def how_to_count(name: str, level, answer: Answer) -> list:
    """What the level has to do with the dots."""
    return [para(WORDS["dots"]),
            para(WORDS["bar"], level=fact(f"{name} level", "/".join(map(str, level))), e=fact(f"{name} e", answer.e),
                 rows=fact(f"{name} rows", answer.rows), place=fact(f"{name} bar-place", answer.rows - answer.e)),
            para(WORDS["rejected"])]


def of_w(programs) -> list:
    name, data = sample("w.trial")
    trial, answer = trial_of(data), programs.trial(data)
    subject = Subject(name, trial.codes, trial.columns(), trial.k, 0, answer)
    return [el("h3", "One step after the other"), how_to_count(name, trial.level, answer), plain_steps(subject),
            para(WORDS["why steps"], first=subject.code(0), second=subject.code(1)),
            el("pre", programs.printed("report", data), class_="printed", data_is=f"{name} report"), para(WORDS["report"])]


def put_back(subject: Subject, step, programs, handed) -> list:
    """A later step: a drawing for each set of rejected offers that is put back."""
    left = subject.answer.left(step.number)
    parts = [heading(subject, step.number, "each rejected offer is put back in turn")]
    for n, (back, offers) in enumerate(subject.answer.sets(step.number, subject.k), 1):
        name = f"{subject.name} step {step.number} set {n}"
        critical = int(programs.table(handed.of(offers)).steps[0].critical)
        parts += [el("h5", say("Put back {back}", back=fact(f"{name} back", listing(subject.codes[i] for i in back)))),
                  dotted(subject, name, offers, left, critical)]
    return parts + [para(WORDS["highest"],
                         c=fact(f"{subject.name} step {step.number} critical", int(step.critical))),
                    outcome(subject, step.number)]


def of_p(programs) -> list:
    name, data = sample("p.table")
    handed = table_of(data.decode())
    answer = programs.table(handed)
    subject = Subject(name, handed.codes, handed.columns(), handed.k, handed.observed, answer)
    first, *later = answer.steps
    everyone = range(len(subject.codes))
    return [el("h3", "With a tolerance: what is put back"),
            para(WORDS["tolerance"], one=fact("w.trial k", 1), k=fact(f"{name} k", handed.k),
                 offers=fact(f"{name} offers", len(handed.codes)), rows=fact(f"{name} rows", answer.rows),
                 observed=fact(f"{name} observed-row", handed.observed)),
            handed_table(name, handed), heading(subject, 1, "all offers"),
            dotted(subject, f"{name} step 1", everyone, everyone, int(first.critical)), outcome(subject, 1),
            para(WORDS["put back"]), [put_back(subject, step, programs, handed) for step in later]]


def stepped(programs) -> list:
    return [of_w(programs), of_p(programs)]
