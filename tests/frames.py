"""Cases as frames for the test program, crates/vectors.

A frame is numbers, each a byte that tells how many bytes follow and then those, the highest first:
the kind; the rooms of the byte buffer, the table and the work buffer that are lent; then

kind 1  the seed
kind 2  a file: its length, then its bytes as they are
kind 3  a record: 16 times a code and its printed digits; a, b, k, offers; the kind of its shape
        word, pairs or shops, treated, which is 0 for pairs; how many figures are told (the others
        are zero) and those, each with 2^31 added; what the table holds before the table call, and
        before the full run; what the table and the work buffer hold before the balanced run
kind 4  a full run of a table; kind 5 a beginning; kind 6 the steps of a run as it is given: the
        table; rows, columns, k, a, b, observed, rejected, steps, ended; 1 for a view, else 0
kind 7  a place: the table; rows, columns, row, column
kind 8  a balanced full run: as kind 4, with the room of the balanced table's buffer for the view

A table is how many of its values are told, the period, and those values; each later one is the one
that stands a period before. A value is its bits, the first 24 of them put last, so that small whole
values have few bytes. One that is no number reaches the engine as zero divided by zero, whatever
its bits: the program's language makes none from bits.
"""

import struct
from functools import singledispatch

from expected import MARK, expected
from generators.kinds import (BalancedRunCase, FileCase, LookCase, RecordCase, Repeated, StepCase,
                              TableCase, WalkCase)
from reference.refusals import Refused
from reference.run import Run

LONGEST_FILE, LONGEST_BUFFER, LARGEST_TABLE, LARGEST_WORK = 2048, 3072, 4096 * 33, 4104


def numbers(*values) -> bytes:
    """Numbers, each with its length."""
    return b"".join(bytes([length]) + value.to_bytes(length, "big") for value, length
                    in ((value, (int(value).bit_length() + 7) // 8) for value in map(int, values)))


def value_number(value: float) -> int:
    """A value as a number."""
    bits = int.from_bytes(struct.pack(">d", value), "big") if value == value else 0x7FF8 << 48
    return bits % 2 ** 40 << 24 | bits >> 40


def shape_numbers(trial) -> tuple:
    """Level, k, offers; the design by the kind of its shape word and its two counts."""
    design = trial.design
    return trial.a, trial.b, trial.k, trial.offers, design.KIND, design.units, design.treated


def lent(kind: int, bytes_room=0, table_room=0, work_room=0) -> bytes:
    """The start of a frame."""
    if bytes_room > LONGEST_BUFFER or table_room > LARGEST_TABLE or work_room > LARGEST_WORK:
        raise ValueError(f"rooms of {bytes_room}, {table_room}, {work_room}")
    return numbers(kind, bytes_room, table_room, work_room)


def table(values) -> bytes:
    """What a lent table holds."""
    told, period = ((values.written, values.period) if isinstance(values, Repeated)
                    else (values, 0))
    return numbers(len(told), period, *map(value_number, told))


def seed_frame(seed: int) -> bytes:
    """The first frame: the seed of the generated cases."""
    return lent(1) + numbers(seed)


@singledispatch
def frame(case) -> bytes:
    """A case as a frame."""
    raise TypeError(type(case))


@frame.register
def _(case: FileCase) -> bytes:
    if len(case.data) > LONGEST_FILE:
        raise ValueError(f"a file of {len(case.data)} bytes")
    return lent(2, case.report_room) + numbers(len(case.data)) + case.data


@frame.register
def _(case: RecordCase) -> bytes:
    t = case.trial
    told = max((i + 1 for i, figure in enumerate(t.figures) if figure), default=0)
    marks, work_marks = (table(Repeated((), (float(MARK),), room))
                         for room in (case.table_room, case.work_room))
    return (lent(3, case.file_room, case.table_room, case.work_room)
            + numbers(*(n for offer in zip(t.codes, t.digits) for n in offer))
            + numbers(*shape_numbers(t))
            + numbers(told, *(figure + 2 ** 31 for figure in t.figures[:told]))
            + 3 * marks + work_marks)


@frame.register
def _(case: TableCase) -> bytes:
    return over_table(4, case.values, case.work_room, case.viewed, case)


@frame.register
def _(case: BalancedRunCase) -> bytes:
    if case.out_room > LARGEST_WORK:
        raise ValueError(f"room for {case.out_room}")
    return over_table(8, case.values, case.work_room, case.out_room, case)


@frame.register
def _(case: WalkCase) -> bytes:
    asked = over_table(5, (), 0, case.viewed, case)
    begun = expected(case)["begin"]
    if isinstance(begun, Refused):
        return asked
    return asked + over_table(6, case.values, case.work_room, case.viewed, begun)


@frame.register
def _(case: StepCase) -> bytes:
    return over_table(6, case.values, case.work_room, case.viewed, case.run)


@frame.register
def _(case: LookCase) -> bytes:
    return (lent(7, table_room=len(case.values)) + table(case.values)
            + numbers(case.rows, case.columns, case.row, case.column))


def over_table(kind, values, work_room, last, run) -> bytes:
    """A case with a lent table, a run or what has its figures, and the last number of its kind."""
    state = (run.rejected, run.steps, run.ended) if isinstance(run, Run) else (0, 0, 0)
    return (lent(kind, table_room=len(values), work_room=work_room) + table(values)
            + numbers(run.rows, run.columns, run.k, run.a, run.b, run.observed, *state, last))
