"""The calls that only the benchmark makes: every answer and every lent place, against the reference.

`rt` proves the crate and builds its static library, gcc makes a shared one of it; where
either is missing the tests fail. A refused call answers its number and leaves all as it was.
"""

import tempfile
import unittest
from ctypes import CDLL, c_double, c_int32, c_size_t, c_uint8, c_uint32
from itertools import chain
from pathlib import Path

from cases import cases_of, every_case_of
from commands import archive, run
from expected import MARK
from frames import shape_numbers
from reference import ccall, report, table, trial, trialfile
from reference.refusals import Refused
from reference.trial import FIGURE_PLACES

ROOT = Path(__file__).resolve().parent.parent
ARCHIVE = ROOT / "target" / "staticlib" / "libbenchcalls.a"
GUARD = 3  # places beyond each lent buffer that have to stay as they are

_folder = tempfile.TemporaryDirectory()
library = None


def setUpModule():
    global library
    shared = Path(_folder.name) / "benchcalls.so"
    archive("benchcalls")
    run("gcc", "-shared", "-Wl,--whole-archive", ARCHIVE, "-Wl,--no-whole-archive", "-o", shared)
    library = CDLL(str(shared))


def tearDownModule():
    _folder.cleanup()


def marked(kind, places: int):
    """So many places and a guard, marked."""
    return (kind * (places + GUARD))(*[MARK] * (places + GUARD))


def sizes(*numbers):
    return [c_size_t(number) for number in numbers]


def numbers_of(record):
    """A trial record as arrays."""
    return ((c_size_t * 7)(*shape_numbers(record)), (c_uint32 * 16)(*record.codes),
            (c_uint8 * 16)(*record.digits), (c_int32 * FIGURE_PLACES)(*record.figures))


def guarded(values):
    """What a lent buffer with these values in its places holds, the guard included."""
    return list(values) + [MARK] * GUARD


def number_of(answer) -> int:
    return answer.number if isinstance(answer, Refused) else 0


class Calls(unittest.TestCase):
    def check(self, name, found: int, answer, places):
        """The number is the answer's, and each lent buffer has its part, or holds what it held."""
        self.assertEqual(found, number_of(answer), name)
        for lent, values in places:
            kept = [MARK] * len(lent)
            self.assertEqual(list(lent), kept if found else guarded(values(answer)), name)

    def test_reading(self):
        refused = set()
        for case in cases_of("file"):
            shape, codes, digits = marked(c_size_t, 7), marked(c_uint32, 16), marked(c_uint8, 16)
            figures = marked(c_int32, FIGURE_PLACES)
            found = library.bench_read(case.data, *sizes(len(case.data)), shape, codes, digits,
                                       figures)
            self.check(case.name, found, trialfile.read(case.data), (
                (shape, shape_numbers), (codes, lambda t: t.codes), (digits, lambda t: t.digits),
                (figures, lambda t: t.figures)))
            refused.add(found)
        self.assertEqual(refused, {*range(9), 15})

    def test_writing(self):
        refused = set()
        for case in cases_of("record"):
            out, written = marked(c_uint8, case.file_room), marked(c_size_t, 1)
            found = library.bench_write(*numbers_of(case.trial), out, *sizes(case.file_room),
                                        written)
            buffer = bytearray([MARK]) * case.file_room
            answer = trialfile.write(case.trial, buffer)
            self.check(case.name, found, answer, ((out, lambda _: buffer),
                                                  (written, lambda file: [len(file)])))
            refused.add(found)
        self.assertEqual(refused, {0, 3, 4, 5, 6, 7, 12, 15})

    def test_tables_of_trials(self):
        refused = set()
        for case in cases_of("record"):
            out, buffer = marked(c_double, case.table_room), [float(MARK)] * case.table_room
            found = library.bench_trial_table(*numbers_of(case.trial), out, *sizes(case.table_room))
            answer = trial.table_of(case.trial, buffer)
            self.check(case.name, found, answer, ((out, lambda _: buffer),))
            refused.add(found)
        self.assertEqual(refused, {0, 3, 4, 5, 6, 7, 12, 15})

    def test_reports(self):
        for case in chain(cases_of("file"), every_case_of("bar_file")):
            text, written = marked(c_uint8, case.report_room), marked(c_size_t, 1)
            found = library.bench_report(case.data, *sizes(len(case.data)), text,
                                         *sizes(case.report_room), written)
            buffer = bytearray([MARK]) * case.report_room
            answer = report.lent_report(case.data, buffer)
            self.check(case.name, found, answer, ((text, lambda _: buffer),
                                                  (written, lambda told: [len(told)])))

    def test_tables(self):
        refused = set()
        for case in chain(cases_of("table"), every_case_of("order"), every_case_of("putback"),
                          every_case_of("bar_table")):
            values = (c_double * max(len(case.values), 1))(*case.values)
            work, expected_work = marked(c_double, case.work_room), [float(MARK)] * case.work_room
            steps, criticals = marked(c_size_t, 1), marked(c_double, 32)
            bar_rows, bar_offers = marked(c_size_t, 32), marked(c_size_t, 32)
            counts, verdicts = marked(c_size_t, 32), marked(c_size_t, 32)
            found = library.bench_table(
                values, *sizes(len(case.values), case.rows, case.columns, case.k, case.a, case.b,
                               case.observed), work, *sizes(case.work_room), steps, criticals,
                bar_rows, bar_offers, counts, verdicts)
            answer = table.full_run(case.values, case.rows, case.columns, case.k, case.a, case.b,
                                    case.observed, expected_work)
            self.check(case.name, found, answer, (
                (work, lambda _: expected_work), (steps, lambda run: [len(run.records)]),
                (criticals, lambda run: padded([r.critical_value for r in run.records])),
                (bar_rows, lambda run: padded([r.row for r in run.records])),
                (bar_offers, lambda run: padded([r.offer for r in run.records])),
                (counts, lambda run: padded(run.counts)),
                (verdicts, lambda run: padded(ccall.verdict_bytes(run)))))
            self.assertNotIn("-0.0", map(str, (*criticals, *work)), case.name)
            refused.add(found)
        self.assertEqual(refused, {0, 3, 4, 9, 10, 11, 12})


def padded(values) -> list:
    """32 places, those beyond the values zero."""
    return list(values) + [0] * (32 - len(values))


if __name__ == "__main__":
    unittest.main()
