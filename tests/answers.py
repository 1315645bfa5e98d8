"""The text that the test program, crates/vectors, has to print for a case, as the reference has it.

Each answer is a line: a name, then numbers in hexadecimal. A line has room for so many; those beyond
stand as a checksum, #SUM. A value is the number that frames.py makes of it (4.0 is 401000, minus
zero is 800000). Lent buffers are told whole. A report is printed as it is, after its line.
"""

from functools import singledispatch

from expected import expected
from frames import shape_numbers, value_number
from generators.kinds import (BalancedRunCase, FileCase, LookCase, RecordCase, StepCase, TableCase,
                              WalkCase)
from reference.ccall import verdict_byte
from reference.designs import Paired
from reference.method import Record
from reference.refusals import Refused
from reference.table import Aside, Kept
from reference.trial import CODE_PLACES, FIGURE_PLACES, Trial
from reference.view import OUTSIDE

PLACES = 32  # of the lists of a full run
BLANK_TRIAL = Trial(0, 0, 0, 0, Paired(0), (0,) * CODE_PLACES, (0,) * CODE_PLACES, (0,) * FIGURE_PLACES)
PRIME = 2 ** 31 - 1


def line(name: str, room: int, *numbers) -> str:
    """A line of the output."""
    printed = "".join(f" {number:x}" for number in numbers[:room])
    total = 0
    for number in numbers[room:]:
        total = (total * 65_599 + number % PRIME + 1) % PRIME
    return name + printed + f" #{total:x}" * (total > 0) + "\n"


def seed_text(seed: int) -> str:
    """What the first frame prints."""
    return line("seed", 1, seed)


@singledispatch
def text(case) -> str:
    """All that is printed for a case."""
    raise TypeError(type(case))


@text.register
def _(case: FileCase) -> str:
    answers = expected(case)
    trial = answers["read"]
    told = trial_numbers(BLANK_TRIAL if isinstance(trial, Refused) else trial)
    report, buffer = answers["report"]
    length = 0 if number_of(report) else len(report)
    return (line("read", 24, number_of(trial), *told)
            + line("run", 0, *run_numbers(answers["full_run"]), *told)
            + line("report", 2, number_of(report), length, *buffer) + buffer[:length].decode())


@text.register
def _(case: RecordCase) -> str:
    answers = expected(case)
    written, data = answers["write"]
    made, cells = answers["table"]
    ran, run_cells, work = answers["full_run"]
    length = 0 if number_of(written) else len(written)
    balanced, balanced_cells, balanced_work = answers["balanced_run"]
    return (line("check", 1, answers["check"])
            + line("write", 2, number_of(written), length, *data)
            + line("table", 16, number_of(made), *values_numbers(cells))
            + line("run", 24, *run_numbers(ran), *values_numbers(work), *values_numbers(run_cells))
            + line("run", 8, *run_numbers(balanced), *values_numbers(balanced_work),
                   *values_numbers(balanced_cells)))


@text.register
def _(case: TableCase) -> str:
    ran, work = expected(case)["full_run"]
    return line("run", 24, *run_numbers(ran), *values_numbers(work))


@text.register
def _(case: BalancedRunCase) -> str:
    ran, out, work = expected(case)["full_run"]
    return line("run", 24, *run_numbers(ran), *values_numbers(work), *values_numbers(out))


@text.register
def _(case: WalkCase) -> str:
    answers = expected(case)
    begun = answers["begin"]
    if isinstance(begun, Refused):
        return line("begin", 1, begun.number)
    return line("begin", 10, 0, *figures(begun)) + steps_text(answers["steps"])


@text.register
def _(case: StepCase) -> str:
    return steps_text(expected(case)["steps"])


@text.register
def _(case: LookCase) -> str:
    found = expected(case)["look"]
    return line("look", 1, 0) if found is OUTSIDE else line("look", 2, 1, value_number(found))


def number_of(answer) -> int:
    """The refusal number of an answer, and 0 where it is accepted."""
    return answer.number if isinstance(answer, Refused) else 0


def steps_text(answer) -> str:
    """A line for each step, and one for the work buffer."""
    steps, work = answer
    return "".join(map(step_text, steps)) + line("work", 16, len(work), *values_numbers(work))


def step_text(answer) -> str:
    if isinstance(answer, Refused):
        return line("step", 1, answer.number)
    run, record = answer
    return line("step", 14, 0, *record_numbers(record), *figures(run))


def figures(run) -> tuple:
    """A run: its figures, its rejected set, its steps, whether it has ended."""
    return (run.rows, run.columns, run.k, run.a, run.b, run.observed, run.rejected, run.steps,
            run.ended)


def trial_numbers(trial: Trial) -> list:
    """Level, k, offers, design; each code and its printed digits; the figures, 2^31 added."""
    return [*shape_numbers(trial), *(n for offer in zip(trial.codes, trial.digits) for n in offer),
            *(figure + 2 ** 31 for figure in trial.figures)]


def run_numbers(answer) -> list:
    """A full run: refusal, steps, how many are rejected; then each place of its lists."""
    if isinstance(answer, Refused):
        records, verdicts, counts, rejected = (), (), (), 0
    else:
        records, verdicts, counts = answer.records, answer.verdicts, answer.counts
        rejected = answer.rejected()
    places = zip(padded(records, Record(0, 0.0, 0, 0)), padded(verdicts, Kept(0.0)), padded(counts, 0))
    return [number_of(answer), len(records), rejected,
            *(number for record, verdict, count in places
              for number in (*record_numbers(record), *verdict_numbers(verdict), count))]


def padded(places, blank) -> list:
    return list(places) + [blank] * (PLACES - len(places))


def record_numbers(record) -> tuple:
    """The step, its critical value, the row and the offer."""
    return record.step, value_number(record.critical_value), record.row, record.offer


def verdict_numbers(verdict) -> tuple:
    """The verdict's byte, twice, since the program asks in two ways; the critical value, zero for one set aside."""
    byte = verdict_byte(verdict)
    return byte, byte, value_number(0.0 if isinstance(verdict, Aside) else verdict.critical_value)


def values_numbers(values) -> list:
    return list(map(value_number, values))
