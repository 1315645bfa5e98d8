"""What the reference answers to a case: the result, and each lent place afterwards."""

from functools import singledispatch

from generators.kinds import (BalancedRunCase, FileCase, LookCase, RecordCase, StepCase, TableCase,
                              WalkCase)
from reference import balanced, ccall, report, run, table, trial, trialfile, view
from reference.refusals import Refused

MARK = 7  # what each place of a lent buffer holds before the call


@singledispatch
def expected(case) -> dict:
    """The answers to a case, by the name of the call."""
    raise TypeError(type(case))


@expected.register
def _(case: FileCase) -> dict:
    buffer = bytearray([MARK]) * case.buffer_room
    text = bytearray([MARK]) * case.report_room
    answer = trialfile.read(case.data)
    return {"read": answer,
            "full_run": answer if isinstance(answer, Refused) else trial.full_run(answer),
            "report": (report.lent_report(case.data, text), bytes(text)),
            "c_call": (ccall.on_file(case.data, buffer), bytes(buffer))}


@expected.register
def _(case: RecordCase) -> dict:
    data = bytearray([MARK]) * case.file_room
    cells = [float(MARK)] * case.table_room
    run_cells, work = list(cells), [float(MARK)] * case.work_room
    balanced_cells, balanced_work = list(cells), list(work)
    return {"check": trial.trial_refusal(case.trial) or 0,
            "write": (trialfile.write(case.trial, data), bytes(data)),
            "table": (trial.table_of(case.trial, cells), cells),
            "full_run": (trial.full_run(case.trial, run_cells, work), run_cells, work),
            "balanced_run": (balanced.trial_run(case.trial, balanced_cells, balanced_work),
                             balanced_cells, balanced_work)}


@expected.register
def _(case: TableCase) -> dict:
    work = [float(MARK)] * case.work_room
    answer = table.full_run(case.values, case.rows, case.columns, case.k, case.a, case.b,
                            case.observed, work)
    return {"full_run": (answer, work)}


@expected.register
def _(case: BalancedRunCase) -> dict:
    out, work = [float(MARK)] * case.out_room, [float(MARK)] * case.work_room
    answer = balanced.full_run(case.values, case.rows, case.columns, case.k, case.a, case.b,
                               case.observed, out, work)
    return {"full_run": (answer, out, work)}


@expected.register
def _(case: WalkCase) -> dict:
    begun = run.begin(case.rows, case.columns, case.k, case.a, case.b, case.observed)
    return {"begin": begun, "steps": steps(begun, case)}


@expected.register
def _(case: StepCase) -> dict:
    return {"steps": steps(case.run, case)}


@expected.register
def _(case: LookCase) -> dict:
    return {"look": view.entry(case.values, case.rows, case.columns, case.row, case.column)}


def steps(now, case) -> tuple:
    """The answers to steps until one is refused, and the work buffer; none if nothing was begun."""
    answers, work = [], [float(MARK)] * case.work_room
    while not isinstance(now, Refused):
        answers.append(run.step(now, case.values, work))
        now = answers[-1] if isinstance(answers[-1], Refused) else answers[-1][0]
    return answers, work
