"""Test cases, generated from a fixed seed: the same cases, in the same order, each time.

Each family draws from a stream of its own, so that one can grow without moving the others. Names
are unique. `all_cases()` yields those that are stored for the test program; `every_case_of` adds
those that only the tests from C take, which store nothing.
"""

import random

from generators.adjusted import adjusted_cases
from generators.balanced import balanced_cases, balanced_run_cases
from generators.bars import (bar_balanced_cases, bar_file_cases, bar_record_cases, bar_table_cases,
                             bar_walk_cases, further_bar_files, further_bar_tables)
from generators.examples import example_cases
from generators.files import file_cases, further_file_cases
from generators.order import further_order_cases, order_cases
from generators.putback import further_putback_cases, putback_cases, putback_step_cases
from generators.records import record_cases
from generators.runs import step_cases, walk_cases
from generators.tables import further_table_cases, table_cases
from generators.views import look_cases

SEED = 20_260_101

FAMILIES = {
    "example": example_cases,
    "file": file_cases,
    "record": record_cases,
    "table": table_cases,
    "step": step_cases,
    "walk": walk_cases,
    "look": look_cases,
    "order": order_cases,
    "putback": putback_cases,
    "putback_step": putback_step_cases,
    "balanced_run": balanced_run_cases,
    "bar_file": bar_file_cases,
    "bar_record": bar_record_cases,
    "bar_table": bar_table_cases,
    "bar_walk": bar_walk_cases,
    "bar_balanced": bar_balanced_cases,
}
FURTHER = {"file": further_file_cases, "table": further_table_cases, "order": further_order_cases,
           "putback": further_putback_cases, "adjusted": adjusted_cases, "balanced": balanced_cases,
           "bar_file": further_bar_files, "bar_table": further_bar_tables}
EVERY_FAMILY = (*FAMILIES, *(family for family in FURTHER if family not in FAMILIES))


def cases_of(family: str):
    """The stored cases of one family, in order; some have none."""
    return FAMILIES[family](random.Random(f"{SEED}/{family}")) if family in FAMILIES else ()


def every_case_of(family: str):
    """The cases of one family, then those that are not stored."""
    yield from cases_of(family)
    if family in FURTHER:
        yield from FURTHER[family](random.Random(f"{SEED}/further/{family}"))


def every_table_case():
    """The cases of a lent table for a full run."""
    yield from every_case_of("table")
    yield from every_case_of("order")


def all_cases():
    """Every stored case, family by family."""
    for family in FAMILIES:
        yield from cases_of(family)


if __name__ == "__main__":
    for family in EVERY_FAMILY:
        stored = sum(1 for _ in cases_of(family))
        print(family, stored, sum(1 for _ in every_case_of(family)) - stored)
