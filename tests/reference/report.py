"""The report program's text (document 01, "Report and C call"; document 02, §4 to §6)."""

from .method import level_rows
from .refusals import Refused, fill, too_short
from .table import Aside, FullRun, Rejected
from .trial import Trial, full_run, rows_of
from .trialfile import read


def report(data: bytes, run_of=full_run) -> str:
    """All that the program prints for a file on standard input, with this full run of its trial."""
    trial = read(data)
    if isinstance(trial, Refused):
        return f"refused {trial.number}\n"
    return "".join(f"{line}\n" for line in report_lines(trial, run_of(trial)))


def lent_report(data: bytes, buffer: bytearray):
    """The report as bytes, laid in the lent buffer's first places; or refusal 12."""
    text = report(data).encode()
    if too_short(buffer, len(text)):
        return Refused(12)
    fill(buffer, text)
    return text


def report_lines(trial: Trial, run: FullRun) -> list:
    """The lines of an accepted trial's report."""
    rows = rows_of(trial)
    e = level_rows(rows, trial.a, trial.b)
    lines = [f"trial {trial.design.units} {trial.offers} {trial.k} {e} {rows}"]
    for record in run.records:
        code = printed_code(trial, record.offer - 1)
        lines.append(f"step {record.step} {int(record.critical_value)} {record.row} {code}")
    for i, verdict in enumerate(run.verdicts):
        words = verdict_words(verdict, len(run.records))
        lines.append(f"{printed_code(trial, i)} {words} {run.counts[i]}")
    lines.append(f"end {run.rejected()}")
    return lines


def printed_code(trial: Trial, i: int) -> str:
    """The code of an offer (from 0) with its leading zeros."""
    return str(trial.codes[i]).zfill(trial.digits[i])


def verdict_words(verdict, steps: int) -> str:
    """A verdict and its step: the one that rejected, the last one, 0 where none was run."""
    if isinstance(verdict, Aside):
        return "aside 0"
    return f"rejected {verdict.step}" if isinstance(verdict, Rejected) else f"kept {steps}"
