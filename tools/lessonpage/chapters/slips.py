"""Chapter: the slips. The answer with the slip beside the correct one, where they part, and what it costs the shop."""

from dataclasses import dataclass
from itertools import zip_longest

from ..answers import Answer
from ..markup import Markup, el, fact, listing, para, say, table
from ..panels import key
from ..samples import sample
from ..slipped import slipped_table, slipped_trial
from ..tables import figures_table, handed_table
from ..trials import LARGEST, Table, Trial, k_maxes, table_of, trial_of
from ..words import words_of

WORDS = words_of("slips")
PARTED = "≠ they part"


@dataclass(frozen=True)
class Slip:
    """A slip: its name in the reference and in the words, and the sample that shows it.

    `step` is gone through by hand, where the chapter before has not done so. `counted` is a trial, and offers (from 0)
    of it: with these idle the slip makes more lists wrong than the level allows.
    """

    name: str
    file: str
    step: int = 0
    counted: tuple = ()


SLIPS = (Slip("as-large-as", "w.trial", counted=("w.trial", (1,))),
         Slip("minus-zero", "zeros.table"),
         Slip("drop-rejected", "putback.trial", step=2, counted=("putback.trial", (2, 3))),
         Slip("first-set", "p.table", counted=("putback.trial", (2, 3))),
         Slip("stop-at-zero", "tight.trial", step=1),
         Slip("eth-largest", "ladder.trial", step=1),
         Slip("observed-left-out", "w.trial"))


@dataclass(frozen=True)
class Case:
    """A slip on its sample: the answers of the programs, and of the reference with the slip."""

    slip: Slip
    sample: Trial | Table
    correct: Answer
    slipped: Answer

    @property
    def with_slip(self) -> str:
        """Its name for the facts."""
        return f"{self.slip.file} slip {self.slip.name}"

    def listed(self, offers) -> str:
        return listing(self.sample.codes[i] for i in offers)

    @property
    def wrong(self) -> list:
        """The offers (from 0) that the slip lists wrongly."""
        return [i for i in self.slipped.named() if i not in self.correct.named()]

    @property
    def lost(self) -> list:
        """The offers (from 0) that the slip leaves out."""
        return [i for i in self.correct.named() if i not in self.slipped.named()]


def case_of(slip: Slip, programs) -> Case:
    _, data = sample(slip.file)
    if slip.file.endswith(".trial"):
        return Case(slip, trial_of(data), programs.trial(data), slipped_trial(slip.name, data))
    handed = table_of(data.decode())
    return Case(slip, handed, programs.table(handed), slipped_table(slip.name, handed))


# ---- side by side

def step_lines(name: str, answer: Answer) -> list:
    return [fact(f"{name} step-line {step.number}", f"step {step.number}: critical value {step.critical}")
            for step in answer.steps] or ["no step"]


def verdict_lines(name: str, answer: Answer) -> list:
    return [fact(f"{name} verdict {i}", "{}: {}{}, count {}".format(
        verdict.code, verdict.word, f" in step {verdict.step}" if verdict.word == "rejected" else "", verdict.count))
        for i, verdict in enumerate(answer.verdicts)]


def bare(part) -> str:
    """A line's text without its element."""
    return part if not isinstance(part, Markup) else part.partition(">")[2]


def beside(one, other, sign: str) -> Markup:
    """A line of each answer; where they part, the last cell says so."""
    return el("tr", el("td", one), el("td", other), el("td", sign, class_="sign"),
              class_="parts" if sign == PARTED else None)


def side_by_side(case: Case) -> Markup:
    rows = []
    for lines in (step_lines, verdict_lines):
        both = lines(case.slip.file, case.correct), lines(case.with_slip, case.slipped)
        rows += [beside(one, other, PARTED if bare(one) != bare(other) else "")
                 for one, other in zip_longest(*both, fillvalue="–")]
    named = [el("strong", "the list: ", fact(f"{name} named", case.listed(answer.named())))
             for name, answer in ((case.slip.file, case.correct), (case.with_slip, case.slipped))]
    rows.append(beside(*named, PARTED if case.wrong or case.lost else "the same list"))
    title = say(WORDS[case.slip.name], **parts_of(case))
    return table(say("The correct answer, and the one with the slip: {title}", title=title),
                 ["correct: the proved program", "with the slip", "where they part"], rows, class_="sides")


# ---- by hand

def values_row(words, name: str, values, bar: Markup) -> list:
    """A set, its rows' k-max values in order, and the bar."""
    ordered = ", ".join(str(int(value)) for value in sorted(values))
    return [el("th", words, scope="row"), fact(f"{name} in-order", ordered, "td", class_="way"), bar]


def by_hand(case: Case, programs) -> Markup | None:
    """The step where they part: for each set the values in order and the bar, and the same with the slip."""
    if not case.slip.step:
        return None
    step, trial, columns = case.slip.step, case.sample, case.sample.columns()
    sets, left, rows = case.correct.sets(step, trial.k), case.correct.left(step), []
    for n, (back, offers) in enumerate(sets, 1):
        name = f"{case.slip.file} step {step} set {n}"
        bar = programs.trial(trial.of(offers).file()).steps[0].critical
        words = say("{back} put back", back=fact(f"{name} back", case.listed(back))) if back else "all offers"
        rows.append(values_row(words, name, k_maxes(columns, offers, trial.k), fact(f"{name} critical", bar, "td")))
    if len(case.slipped.steps) >= step:
        none = 0 if len(sets) > 1 else 1  # set 0 has nothing put back
        rows.append(values_row("the slip", f"{case.slip.file} step {step} set {none}", k_maxes(columns, left, trial.k),
                               fact(f"{case.with_slip} bar {step}", case.slipped.steps[step - 1].critical, "td")))
    number = fact(f"{case.slip.file} step {step} number", step)
    return table(say("By hand, step {step}: the {which} value of each row", step=number, which=LARGEST[trial.k]),
                 ["set", ("values in order", "way"), "bar"], rows)


# ---- words

def setting(case: Case) -> list:
    """What is judged: the figures, and the settings."""
    name, judged = case.slip.file, case.sample
    return [figures_table(name, judged) if isinstance(judged, Trial) else handed_table(name, judged),
            para(WORDS["setting"], **parts_of(case))]


def parts_of(case: Case) -> dict:
    """What the words of a slip speak of."""
    name, slipped, judged = case.slip.file, case.with_slip, case.sample
    told = {"level": fact(f"{name} level", "/".join(map(str, judged.level))), "k": fact(f"{name} k", judged.k),
            "e": fact(f"{name} e", case.correct.e), "rows": fact(f"{name} rows", case.correct.rows),
            "wrong": fact(f"{slipped} wrong", case.listed(case.wrong)),
            "lost": fact(f"{slipped} lost", case.listed(case.lost)), "code": fact(f"{name} code 0", judged.codes[0]),
            "slipped": fact(f"{slipped} count 0", case.slipped.verdicts[0].count), "one": fact("w.trial k", 1)}
    if len(judged.codes) > 1:
        told |= {"other": fact(f"{name} code 1", judged.codes[1]),
                 "count": fact(f"{name} count 1", case.correct.verdicts[1].count),
                 "others": fact(f"{slipped} count 1", case.slipped.verdicts[1].count)}
    return told


def broken(slip: Slip, programs) -> Markup | None:
    """How many lists are wrong with the slip, where certain offers are idle."""
    if not slip.counted:
        return None
    file, idle = slip.counted
    _, data = sample(file)
    trial, answer = trial_of(data), programs.trial(data)
    lists = [slipped_trial(slip.name, trial.run(idle, g).file()).named() for g in range(answer.rows)]
    wrong = sum(trial.is_wrong(idle, named) for named in lists)
    return say(WORDS["broken"], idle=fact(f"{file} codes {key(idle)}", listing(trial.codes[i] for i in idle)),
               wrong_lists=fact(f"{file} slip {slip.name} marked {key(idle)}", wrong),
               lists=fact(f"{file} rows", answer.rows), tolerance=fact(f"{file} k", trial.k),
               allowed=fact(f"{file} e", answer.e))


def slip_section(slip: Slip, programs) -> Markup:
    case = case_of(slip, programs)
    parts = parts_of(case) | {"broken": broken(slip, programs)}
    ident = f"slip-{slip.name}"
    return el("section", el("h3", say(WORDS[slip.name], **parts), id=ident), para(WORDS[f"{slip.name}, done"], **parts),
              setting(case), by_hand(case, programs), side_by_side(case),
              el("p", el("strong", "What it costs: "), say(WORDS[f"{slip.name}, cost"], **parts), class_="cost"),
              class_="slip", aria_labelledby=ident)


def slips(programs) -> list:
    return [para(WORDS["introduction"]), [slip_section(slip, programs) for slip in SLIPS]]
