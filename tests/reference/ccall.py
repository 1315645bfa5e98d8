"""The calls for C (document 01, "Report and C call"), and the same for a host that holds a table.

Those for adjusted figures (document 02, §1) and for balanced tables (§3) come last.
"""

from . import balanced
from .adjusted import figures_refusal, table_figures, trial_figures
from .refusals import Refused, fill, too_short
from .table import Aside, Rejected, full_run as run_table, table_refusal
from .trial import full_run, rows_of
from .trialfile import read

SET_ASIDE = 255  # the byte of an offer set aside (document 02, §4)


def verdict_byte(verdict) -> int:
    """The rejecting step, or 0 for an offer that is kept, or 255 for one that is set aside."""
    if isinstance(verdict, Aside):
        return SET_ASIDE
    return verdict.step if isinstance(verdict, Rejected) else 0


def verdict_bytes(run) -> bytes:
    """Per offer, the byte of its verdict."""
    return bytes(map(verdict_byte, run.verdicts))


def on_file(data: bytes, buffer: bytearray, run_of=full_run) -> int:
    """The number of rejected offers, or 100 plus the refusal number.

    The buffer's first bytes hold, per offer, the rejecting step, or 0, or 255 where it is
    set aside. A buffer too short (12) is judged after all checks of the file.
    """
    trial = read(data)
    if isinstance(trial, Refused):
        return 100 + trial.number
    if too_short(buffer, trial.offers):
        return 112
    run = run_of(trial)
    fill(buffer, verdict_bytes(run))
    return run.rejected()


def on_table(values, rows, columns, k, a, b, observed, work, buffer) -> int:
    """The number of rejected columns, or 100 plus the refusal number.

    The buffer's first bytes hold, per column, the rejecting step or 0, and the work
    buffer plus zero for each row. Either too short (12) is judged after all checks
    of the table.
    """
    number = table_refusal(values, rows, columns, k, a, b, observed)
    if number is not None:
        return 100 + number
    if too_short(work, rows) or too_short(buffer, columns):
        return 112
    run = run_table(values, rows, columns, k, a, b, observed, work)
    fill(buffer, verdict_bytes(run))
    return run.rejected()


def adjusted_on_file(data: bytes, figures: list, rows: list) -> int:
    """0, or 100 plus the refusal number.

    The first places of `figures` hold the figure of each offer, and that of `rows` holds M. A
    buffer too short (12) is judged after all checks of the file.
    """
    trial = read(data)
    if isinstance(trial, Refused):
        return 100 + trial.number
    if too_short(figures, trial.offers):
        return 112
    fill(figures, trial_figures(trial))
    fill(rows, [rows_of(trial)])
    return 0


def adjusted_on_table(values, rows, columns, k, observed, work, figures) -> int:
    """0, or 100 plus the refusal number.

    The first places of `figures` hold the figure of each column, and the work buffer plus zero
    for each row. Either too short (12) is judged after all checks of the table.
    """
    number = figures_refusal(values, rows, columns, k, observed)
    if number is not None:
        return 100 + number
    if too_short(work, rows) or too_short(figures, columns):
        return 112
    fill(figures, table_figures(values, rows, columns, k, observed, work))
    return 0


def balanced_on_file(data: bytes, buffer: bytearray) -> int:
    """As `on_file`, of the balanced full run."""
    return on_file(data, buffer, balanced.trial_run)


def balanced_on_table(values, rows, columns, out) -> int:
    """0, or 100 plus the refusal number. The first places of `out` hold the balanced table."""
    answer = balanced.table_balanced(values, rows, columns, out)
    return 100 + answer.number if isinstance(answer, Refused) else 0
