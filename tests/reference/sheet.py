"""The text of the program `adjusted`, the buyers' sheet (document 02, §1)."""

from .adjusted import trial_figures
from .refusals import Refused
from .report import printed_code
from .trial import rows_of
from .trialfile import read


def sheet(data: bytes) -> str:
    """All that the program prints for a file on standard input.

    A line for each offer in file order, printed code and figure; then `end` and M.
    """
    trial = read(data)
    if isinstance(trial, Refused):
        return f"refused {trial.number}\n"
    lines = [f"{printed_code(trial, i)} {figure}\n" for i, figure in enumerate(trial_figures(trial))]
    return "".join(lines) + f"end {rows_of(trial)}\n"
