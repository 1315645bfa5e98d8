"""The baseline in C that the benchmark compares with: every answer and lent place, against the reference.

It tells no refusal numbers: what the reference refuses, whatever the number, it has to refuse, and
leave what was lent to it alone.

gcc builds it as the benchmark does, with all warnings as errors; where gcc is missing the
tests fail.
"""

import random
import subprocess
import tempfile
import unittest
from contextlib import contextmanager, nullcontext
from ctypes import (CDLL, POINTER, Structure, byref, c_double, c_int, c_int32, c_size_t, c_uint8,
                    c_uint32)
from itertools import chain, product
from pathlib import Path

from cases import SEED, cases_of, every_case_of, every_table_case
from expected import MARK
from frames import shape_numbers
from generators.kinds import BalancedCase, TableCase
from generators.tables import neighbours, normal, rounded, signed_zeros, ties
from reference import ccall, report, table, trialfile
from reference.refusals import Refused
from reference.trial import FIGURE_PLACES, Trial, full_run, rows_of, table_of

HERE = Path(__file__).resolve().parent
FLAGS = ("-std=c11", "-Wall", "-Wextra", "-Werror", "-O3", "-shared", "-fPIC")
GUARD = 3  # places beyond each lent buffer that have to stay as they are

_folder = tempfile.TemporaryDirectory()
baseline = None


def setUpModule():
    global baseline
    library = Path(_folder.name) / "baseline.so"
    sources = sorted((HERE / "baseline").glob("*.c"))
    done = subprocess.run(["gcc", *FLAGS, *sources, "-o", library], capture_output=True, text=True)
    if done.returncode != 0:
        raise AssertionError(f"gcc failed:\n{done.stderr[-4000:]}")
    baseline = CDLL(str(library))


def tearDownModule():
    _folder.cleanup()


class CTable(Structure):
    """struct table of tests/baseline/baseline.h"""

    _fields_ = [("values", POINTER(c_double)), ("length", c_size_t), ("rows", c_size_t),
                ("columns", c_size_t), ("k", c_size_t), ("a", c_size_t), ("b", c_size_t),
                ("observed", c_size_t), ("work", POINTER(c_double)), ("places", c_size_t)]


class CFullRun(Structure):
    """struct full_run"""

    _fields_ = [("steps", c_size_t), ("critical", c_double * 32), ("row", c_size_t * 32),
                ("offer", c_size_t * 32), ("step", c_uint8 * 32), ("count", c_size_t * 32),
                ("rejected", c_size_t), ("sets", c_size_t), ("looks", c_size_t),
                ("rises", c_size_t)]


class CTrial(Structure):
    """struct trial"""

    _fields_ = [("a", c_size_t), ("b", c_size_t), ("k", c_size_t), ("offers", c_size_t),
                ("kind", c_size_t), ("units", c_size_t), ("treated", c_size_t),
                ("codes", c_uint32 * 16), ("digits", c_uint8 * 16),
                ("figures", c_int32 * FIGURE_PLACES)]

    @classmethod
    def of(cls, trial: Trial):
        return cls(*shape_numbers(trial), (c_uint32 * 16)(*trial.codes),
                   (c_uint8 * 16)(*trial.digits), (c_int32 * FIGURE_PLACES)(*trial.figures))

    def parts(self) -> tuple:
        """All that it holds."""
        return (self.a, self.b, self.k, self.offers, self.kind, self.units, self.treated,
                *self.codes, *self.digits, *self.figures)


def figures(run: CFullRun):
    """All that a full run of the baseline gives. Values go by their bits: minus zero is not zero."""
    return ([run.critical[i].hex() for i in range(run.steps)], list(run.row), list(run.offer),
            bytes(run.step), tuple(run.count), run.rejected)


def expected_figures(answer):
    """The same of the reference."""
    counts = answer.counts + (0,) * (32 - len(answer.counts))
    blank = [0] * (32 - len(answer.records))
    return ([record.critical_value.hex() for record in answer.records],
            [record.row for record in answer.records] + blank,
            [record.offer for record in answer.records] + blank,
            ccall.verdict_bytes(answer).ljust(32, b"\0"), counts, answer.rejected())


@contextmanager
def by_blocks():
    """Tables of trials are made by blocks of rows, and not entry by entry."""
    blocks = c_int.in_dll(baseline, "table_by_blocks")
    blocks.value = 1
    try:
        yield
    finally:
        blocks.value = 0


def marked(kind, room: int):
    """A lent buffer of so many places and a guard, marked."""
    return (kind * (room + GUARD))(*[MARK] * (room + GUARD))


def lent_table(case, work) -> CTable:
    """A table case as the baseline takes it."""
    values = (c_double * max(len(case.values), 1))(*case.values)
    return CTable(values, len(case.values), case.rows, case.columns, case.k, case.a, case.b,
                  case.observed, work, case.work_room)


def middling_case(rng, k: int, style, rows: int, lift: float) -> TableCase:
    """A table whose observed row is far above others in k columns or more, so that some are put back.

    With a lift every sixteenth row stands out: a sample of the rows may be a bad one.
    """
    columns = rng.randint(k + 1, k + 6)
    observed, high = rng.randrange(rows), rng.randint(k, columns)
    cells = [style(rng) for _ in range(rows * columns)]
    for g in range(0, rows if lift else 0, 16):
        cells[g * columns:(g + 1) * columns] = [lift + style(rng) for _ in range(columns)]
    cells[observed * columns:observed * columns + high] = [99.0] * high
    a, b = rng.choice(((1, 20), (1, 10), (1, 3), (1, rows)))
    return TableCase(f"middling-{style.__name__}-{rows}x{columns}-k{k}-{lift}-{a}-{b}", tuple(cells),
                     rows, columns, k, a, b, observed, rows)


def middling_cases():
    """Tables of some hundred rows, for each k: ties, zeros of both signs, values that are close, noise."""
    rng = random.Random(f"{SEED}/middling")
    for kind in product((1, 2, 3, 4), (ties, signed_zeros, neighbours, rounded, normal),
                        (80, 131, 300), (0.0, 5.0, -5.0)):
        yield middling_case(rng, *kind)


class Tables(unittest.TestCase):
    """Full runs, in both ways."""

    def check_run(self, call, case, answer, expected_work):
        """A way's answer to a table case; the reference's, and what it leaves in the work buffer."""
        run, work = CFullRun(), marked(c_double, case.work_room)
        accepted = call(byref(lent_table(case, work)), byref(run))
        if isinstance(answer, Refused):
            self.assertEqual((accepted, bytes(run)), (0, bytes(CFullRun())), case.name)
        else:
            self.assertEqual((accepted, figures(run)), (1, expected_figures(answer)), case.name)
        self.assertEqual(list(work), expected_work + [float(MARK)] * GUARD, case.name)

    def test_full_runs(self):
        refused = set()
        for case in chain(every_table_case(), every_case_of("putback"), every_case_of("bar_table"),
                          middling_cases()):
            expected_work = [float(MARK)] * case.work_room
            answer = table.full_run(case.values, case.rows, case.columns, case.k, case.a, case.b,
                                    case.observed, expected_work)
            for call in (baseline.run_table, baseline.run_by_masks):
                self.check_run(call, case, answer, expected_work)
            if isinstance(answer, Refused):
                refused.add(answer.number)
        self.assertEqual(refused, {3, 4, 9, 10, 11, 12})

    def check_verdicts(self, call, case, room: int):
        expected_work, buffer = [float(MARK)] * case.work_room, bytearray([MARK]) * room
        answer = ccall.on_table(case.values, case.rows, case.columns, case.k, case.a, case.b,
                                case.observed, expected_work, buffer)
        work, lent, rejected = (marked(c_double, case.work_room), marked(c_uint8, room),
                                c_size_t(MARK))
        accepted = call(byref(lent_table(case, work)), lent, c_size_t(room), byref(rejected))
        self.assertEqual((accepted, rejected.value), (0, MARK) if answer > 100 else (1, answer),
                         case.name)
        self.assertEqual(list(work), expected_work + [float(MARK)] * GUARD, case.name)
        self.assertEqual(bytes(lent), bytes(buffer) + bytes([MARK]) * GUARD, case.name)

    def test_verdicts(self):
        for case in every_table_case():
            for room in {0, min(case.columns, 40)} if len(case.values) <= 4096 else ():
                for call in (baseline.verdicts_of_table, baseline.verdicts_by_masks):
                    self.check_verdicts(call, case, room)


class Adjusted(unittest.TestCase):
    """Adjusted figures, in both ways."""

    def check(self, call, case, room: int) -> int:
        """A way's answer to a table case with room for so many figures; the reference's result."""
        expected_work, expected = [float(MARK)] * case.work_room, [MARK] * room
        answer = ccall.adjusted_on_table(case.values, case.rows, case.columns, case.k,
                                         case.observed, expected_work, expected)
        work, lent = marked(c_double, case.work_room), marked(c_uint32, room)
        accepted = call(byref(lent_table(case, work)), lent, c_size_t(room))
        self.assertEqual(accepted, answer == 0, case.name)
        self.assertEqual(list(lent), expected + [MARK] * GUARD, case.name)
        self.assertEqual(list(work), expected_work + [float(MARK)] * GUARD, case.name)
        return answer

    def test_tables(self):
        for call in (baseline.figures_of_table, baseline.figures_by_maxima):
            results = set()
            for case in every_case_of("adjusted"):
                needed = min(case.columns, 40)
                for room in {max(needed, 1) - 1, needed, needed + 2}:
                    results.add(self.check(call, case, room))
            self.assertEqual(results, {0, 104, 109, 110, 111, 112})

    def test_trials(self):
        """The tables of trials."""
        for case in every_case_of("file"):
            trial = trialfile.read(case.data)
            if isinstance(trial, Refused) or rows_of(trial) > 70:
                continue
            rows = rows_of(trial)
            lent = TableCase(case.name, tuple(table_of(trial)), rows, trial.offers, trial.k, 0, 0, 0,
                             rows)
            for call in (baseline.figures_of_table, baseline.figures_by_maxima):
                self.check(call, lent, trial.offers)


class Balanced(unittest.TestCase):
    """Balanced tables, in both ways."""

    def check(self, call, case, room: int) -> int:
        """A way's answer to a table with a buffer of so many places; the reference's result."""
        expected, out = [float(MARK)] * room, marked(c_double, room)
        answer = ccall.balanced_on_table(case.values, case.rows, case.columns, expected)
        values = (c_double * max(len(case.values), 1))(*case.values)
        accepted = call(values, *map(c_size_t, (len(case.values), case.rows, case.columns)), out,
                        c_size_t(room))
        self.assertEqual(accepted, answer == 0, case.name)
        self.assertEqual(list(out), expected + [float(MARK)] * GUARD, case.name)
        return answer

    def test_tables(self):
        for call in (baseline.balanced_by_codes, baseline.balanced_by_bits):
            results = {self.check(call, case, case.out_room) for case in every_case_of("balanced")}
            self.assertEqual(results, {0, 104, 109, 111, 112})

    def test_trials(self):
        """The tables of trials."""
        for case in every_case_of("file"):
            trial = trialfile.read(case.data)
            if isinstance(trial, Refused) or rows_of(trial) > 130:
                continue
            rows = rows_of(trial)
            lent = BalancedCase(case.name, tuple(table_of(trial)), rows, trial.offers, 0)
            for call in (baseline.balanced_by_codes, baseline.balanced_by_bits):
                self.check(call, lent, rows * trial.offers)


class Files(unittest.TestCase):
    def test_reading(self):
        refused = set()
        for case in every_case_of("file"):
            trial = CTrial()
            accepted = baseline.read_trial(case.data, c_size_t(len(case.data)), byref(trial))
            answer = trialfile.read(case.data)
            if isinstance(answer, Refused):
                refused.add(answer.number)
            expected = (0, CTrial()) if isinstance(answer, Refused) else (1, CTrial.of(answer))
            self.assertEqual((accepted, trial.parts()), (expected[0], expected[1].parts()), case.name)
        self.assertEqual(refused, {*range(1, 9), 15})

    def check_report(self, case, room: int, text):
        """The baseline's report into so many places is the text, or refused."""
        lent, written = marked(c_uint8, room), c_size_t(MARK)
        accepted = baseline.report(case.data, c_size_t(len(case.data)), lent, c_size_t(room),
                                   byref(written))
        expected = (0, MARK, b"") if text is None else (1, len(text), text)
        self.assertEqual((accepted, written.value, bytes(lent)),
                         (*expected[:2], expected[2].ljust(room + GUARD, bytes([MARK]))), case.name)

    def test_reports_by_blocks(self):
        """The other way to make a trial's table gives the same reports."""
        with by_blocks():
            self.test_reports()

    def test_reports(self):
        for case in chain(every_case_of("file"), every_case_of("bar_file")):
            text = report.report(case.data).encode()
            if text.startswith(b"refused"):
                self.check_report(case, len(text), None)
            else:
                self.check_report(case, len(text), text)
                self.check_report(case, len(text) - 1, None)

    def test_verdicts(self):
        for case in every_case_of("file"):
            buffer, lent = bytearray([MARK]) * case.buffer_room, marked(c_uint8, case.buffer_room)
            answer, rejected = ccall.on_file(case.data, buffer), c_size_t(MARK)
            accepted = baseline.verdicts_of_file(case.data, c_size_t(len(case.data)), lent,
                                                 c_size_t(case.buffer_room), byref(rejected))
            self.assertEqual((accepted, rejected.value), (0, MARK) if answer > 100 else (1, answer),
                             case.name)
            self.assertEqual(bytes(lent), bytes(buffer) + bytes([MARK]) * GUARD, case.name)


class Records(unittest.TestCase):
    def test_writing(self):
        refused = set()
        for case in cases_of("record"):
            buffer, lent = bytearray([MARK]) * case.file_room, marked(c_uint8, case.file_room)
            length = c_size_t(MARK)
            accepted = baseline.write_trial(byref(CTrial.of(case.trial)), lent,
                                            c_size_t(case.file_room), byref(length))
            answer = trialfile.write(case.trial, buffer)
            if isinstance(answer, Refused):
                refused.add(answer.number)
            expected = (0, MARK) if isinstance(answer, Refused) else (1, len(answer))
            self.assertEqual((accepted, length.value), expected, case.name)
            self.assertEqual(bytes(lent), bytes(buffer) + bytes([MARK]) * GUARD, case.name)
        self.assertEqual(refused, {3, 4, 5, 6, 7, 12, 15})

    def tables(self, case):
        """Whether the baseline accepts a record for its table, and the lent places: entry by entry, then by blocks."""
        for way in (nullcontext, by_blocks):
            lent = marked(c_double, case.table_room)
            with way():
                accepted = baseline.table_of_trial(byref(CTrial.of(case.trial)), lent,
                                                   c_size_t(case.table_room))
            yield accepted, [cell.hex() for cell in lent]

    def test_tables(self):
        refused = set()
        for case in chain(cases_of("record"), cases_of("bar_record")):
            cells = [float(MARK)] * case.table_room
            answer = table_of(case.trial, cells)
            expected = [cell.hex() for cell in cells + [float(MARK)] * GUARD]
            for found in self.tables(case):
                self.assertEqual(found, (not isinstance(answer, Refused), expected), case.name)
            if isinstance(answer, Refused):
                refused.add(answer.number)
        self.assertEqual(refused, {3, 4, 5, 6, 7, 12, 15})

    def test_full_runs(self):
        for case in chain(cases_of("record"), cases_of("bar_record")):
            answer, run = full_run(case.trial), CFullRun()
            if isinstance(answer, Refused):
                continue
            baseline.run_trial(byref(CTrial.of(case.trial)), byref(run))
            self.assertEqual(figures(run), expected_figures(answer), case.name)


if __name__ == "__main__":
    unittest.main()
