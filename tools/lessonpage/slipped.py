"""What the reference answers with a slip switched on. It stands on the page beside the programs' answer, as a slip."""

from . import paths  # noqa: F401  the reference stands with the tests
from .answers import Answer, Step, Verdict, told, whole
from .trials import Table

from reference import report, table
from reference.slips import slip
from reference.table import Rejected


def slipped_trial(name: str, data: bytes) -> Answer:
    with slip(name):
        return told(report.report(data))


def slipped_table(name: str, handed: Table) -> Answer:
    with slip(name):
        return reference_table(handed)


def reference_table(handed: Table) -> Answer:
    """The reference's full run of a table."""
    values = [value for row in handed.rows for value in row]
    run = table.full_run(values, len(handed.rows), len(handed.codes), handed.k, *handed.level, handed.observed)
    steps = tuple(Step(record.step, whole(record.critical_value)) for record in run.records)
    verdicts = tuple(Verdict(code, "rejected", verdict.step, count) if isinstance(verdict, Rejected)
                     else Verdict(code, "kept", len(steps), count)
                     for code, verdict, count in zip(handed.codes, run.verdicts, run.counts))
    return Answer(handed.e, len(handed.rows), steps, verdicts)
