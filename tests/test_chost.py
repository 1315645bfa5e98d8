"""The calls for C, made from C: each answer and every lent place, against the reference.

`rt` proves the crate and builds its static library, gcc compiles the driver and the
sample host; where either is missing the tests fail.
"""

import struct
import subprocess
import tempfile
import unittest
from dataclasses import dataclass
from itertools import chain, islice
from pathlib import Path

from cases import cases_of, every_case_of, every_table_case
from commands import archive, run
from expected import MARK
from generators.kinds import FileCase, TableCase
from reference import balanced, ccall
from reference.adjusted import figures_refusal
from reference.refusals import Refused
from reference.table import Aside, Rejected, table_refusal
from reference.trial import full_run
from reference.trialfile import LONGEST, read

ROOT = Path(__file__).resolve().parent.parent
LIBRARY = ROOT / "target" / "staticlib" / "libhost.a"
FLAGS = ("-Wall", "-Wextra", "-Werror", "-O2", "-I", ROOT / "include")
GUARD = 8  # places beyond each lent buffer that the driver shows too
FIGURE_MARK = int.from_bytes([MARK] * 4, "little")  # in a place for a figure, or for the rows
# Bytes of stack: what include/becardlarder.h promises.
FILE_STACK, TABLE_STACK = 120 * 1024, 56 * 1024
FILE_ADJUSTED_STACK, TABLE_ADJUSTED_STACK = 112 * 1024, 32 * 1024
FILE_BALANCED_STACK, TABLE_BALANCED_STACK = 128 * 1024, 60 * 1024

_folder = tempfile.TemporaryDirectory()


def compiled(source: str, *more) -> Path:
    """The program of a C file, linked with the library."""
    program = Path(_folder.name) / Path(source).stem
    run("gcc", *FLAGS, *more, ROOT / source, LIBRARY, "-o", program)
    return program


def setUpModule():
    archive("host")


def tearDownModule():
    _folder.cleanup()


@dataclass(frozen=True)
class Call:
    """A frame for the driver, and what it is to answer: the result, then the lent places."""

    name: str
    frame: bytes
    answer: bytes


def answers(driver: Path, calls):
    """The driver's answer to each call, and the most stack that a call has used."""
    done = subprocess.run([driver], input=b"".join(call.frame for call in calls),
                          capture_output=True, check=True)
    at, found = 0, []
    for call in calls:
        found.append(done.stdout[at:at + len(call.answer)])
        at += len(call.answer)
    if at != len(done.stdout):
        raise AssertionError(f"{len(done.stdout)} bytes of answers for {at}")
    return found, int(done.stderr.split()[-1])


def results(calls) -> set:
    """The results that are expected."""
    return {struct.unpack("<I", call.answer[:4])[0] for call in calls}


def file_call(frame: bytes, call, case, room: int) -> Call:
    """A file case with a buffer of so many bytes, for the verdicts that a call of the reference gives."""
    buffer = bytearray([MARK]) * room
    result = call(case.data, buffer)
    return Call(f"{case.name}, buffer of {room}",
                frame + struct.pack("<2Q", len(case.data), room) + case.data,
                struct.pack("<I", result) + buffer + bytes([MARK]) * GUARD)


def with_examples(family: str, kind):
    """Every case of the family, and the examples of its kind."""
    return chain(every_case_of(family), (case for case in cases_of("example") if isinstance(case, kind)))


def file_calls(frame: bytes, call):
    """Every file case, with buffers too short, exact and longer."""
    for case in with_examples("file", FileCase):
        trial = read(case.data)
        rooms = {0, 16} if isinstance(trial, Refused) else {trial.offers - 1, trial.offers}
        for room in sorted(rooms | {case.buffer_room}):
            yield file_call(frame, call, case, room)


def packed(values) -> bytes:
    """Values as the driver reads and shows them."""
    return struct.pack(f"<{len(values)}d", *values)


def value_places(values) -> bytes:
    """A buffer of values and its guard, as the driver shows them."""
    return packed([*values, *[float(MARK)] * GUARD])


def table_call(case, room: int, values=None) -> Call:
    """A table case with a verdict buffer of so many bytes; `values` are its values as bytes."""
    figures = (case.rows, case.columns, case.k, case.a, case.b, case.observed)
    work, buffer = [float(MARK)] * case.work_room, bytearray([MARK]) * room
    result = ccall.on_table(case.values, *figures, work, buffer)
    return Call(f"{case.name}, buffer of {room}",
                b"T" + struct.pack("<9Q", len(case.values), *figures, case.work_room, room)
                + (values or packed(case.values)),
                struct.pack("<I", result) + value_places(work) + buffer + bytes([MARK]) * GUARD)


def table_calls():
    """Every table case, with verdict buffers too short, exact and longer; those of `order` with exact ones."""
    for case in with_examples("table", TableCase):
        needed = min(case.columns, 40)
        for room in sorted({0, max(needed, 1) - 1, needed, needed + 3}):
            yield table_call(case, room)
    for case in every_case_of("order"):
        yield table_call(case, case.columns)


def figure_places(figures) -> bytes:
    """A buffer of figures and its guard, as the driver shows them."""
    return struct.pack(f"<{len(figures) + GUARD}I", *figures, *[FIGURE_MARK] * GUARD)


def file_adjusted_call(case, room: int) -> Call:
    """A file case with a buffer of so many figures."""
    figures, rows = [FIGURE_MARK] * room, [FIGURE_MARK]
    result = ccall.adjusted_on_file(case.data, figures, rows)
    return Call(f"{case.name}, {room} figures",
                b"G" + struct.pack("<2Q", len(case.data), room) + case.data,
                struct.pack("<I", result) + figure_places(figures) + figure_places(rows))


def file_adjusted_calls():
    """Every file case, with buffers of no place, too short, exact and longer."""
    for case in with_examples("file", FileCase):
        trial = read(case.data)
        rooms = {16} if isinstance(trial, Refused) else {trial.offers - 1, trial.offers,
                                                         trial.offers + 2}
        for room in sorted({0} | rooms):
            yield file_adjusted_call(case, room)


def table_adjusted_call(case, room: int, values=None) -> Call:
    """A table case with a buffer of so many figures; `values` are its values as bytes."""
    given = (case.rows, case.columns, case.k, case.observed)
    work, figures = [float(MARK)] * case.work_room, [FIGURE_MARK] * room
    result = ccall.adjusted_on_table(case.values, *given, work, figures)
    return Call(f"{case.name}, {room} figures",
                b"A" + struct.pack("<7Q", len(case.values), *given, case.work_room, room)
                + (values or packed(case.values)),
                struct.pack("<I", result) + value_places(work) + figure_places(figures))


def table_adjusted_calls():
    """Every table case for adjusted figures, with buffers of no place, too short, exact and longer;
    large tables with exact ones."""
    for case in every_case_of("adjusted"):
        needed = min(case.columns, 40)
        rooms = {0, max(needed, 1) - 1, needed, needed + 3} if len(case.values) < 4096 else {needed}
        for room in sorted(rooms):
            yield table_adjusted_call(case, room)


def balanced_call(case, room: int, values=None) -> Call:
    """A table to be balanced into a buffer of so many places; `values` are its values as bytes."""
    out = [float(MARK)] * room
    result = ccall.balanced_on_table(case.values, case.rows, case.columns, out)
    return Call(f"{case.name}, {room} places",
                b"B" + struct.pack("<4Q", len(case.values), case.rows, case.columns, room)
                + (values or packed(case.values)),
                struct.pack("<I", result) + value_places(out))


def balanced_calls():
    """Every case of a table to be balanced; those of full runs too, with exact buffers."""
    for case in every_case_of("balanced"):
        yield balanced_call(case, case.out_room)
    for case in every_table_case():
        yield balanced_call(case, len(case.values))


def balanced_figures_call(case) -> Call:
    """An accepted table case: the adjusted figures of its balanced table."""
    given = (case.rows, case.columns, case.k, case.observed)
    work, figures = [float(MARK)] * case.rows, [FIGURE_MARK] * case.columns
    values = balanced.table_balanced(case.values, case.rows, case.columns)
    result = ccall.adjusted_on_table(values, *given, work, figures)
    return Call(f"{case.name}, balanced figures",
                b"C" + struct.pack("<7Q", len(case.values), *given, case.rows, case.columns)
                + packed(case.values),
                struct.pack("<I", result) + value_places(work) + figure_places(figures))


def balanced_verdicts_call(case) -> Call:
    """An accepted table case: the verdicts of its balanced table."""
    given = (case.rows, case.columns, case.k, case.a, case.b, case.observed)
    work, buffer = [float(MARK)] * case.rows, bytearray([MARK]) * case.columns
    values = balanced.table_balanced(case.values, case.rows, case.columns)
    result = ccall.on_table(values, *given, work, buffer)
    return Call(f"{case.name}, balanced verdicts",
                b"D" + struct.pack("<9Q", len(case.values), *given, case.rows, case.columns)
                + packed(case.values),
                struct.pack("<I", result) + value_places(work) + buffer + bytes([MARK]) * GUARD)


def balanced_verdicts_calls():
    """One in three of the accepted tables for full runs."""
    cases = (case for case in every_case_of("table")
             if table_refusal(case.values, case.rows, case.columns, case.k, case.a, case.b,
                              case.observed) is None)
    return map(balanced_verdicts_call, islice(cases, 0, None, 3))


def balanced_figures_calls():
    """One in five of the accepted tables for adjusted figures."""
    cases = (case for case in every_case_of("adjusted")
             if figures_refusal(case.values, case.rows, case.columns, case.k, case.observed) is None)
    return map(balanced_figures_call, islice(cases, 0, None, 5))


# Bits of what is no finite number: the two infinities; signalling and quiet patterns of either sign,
# with the least and the greatest payload and some between.
INFINITE = (0x7FF0_0000_0000_0000, 0xFFF0_0000_0000_0000)
SIGNALLING = tuple(sign << 63 | 0x7FF << 52 | payload for sign in (0, 1)
                   for payload in (1, 2, 0x1234_5678_9ABC, 1 << 50, (1 << 51) - 1))
QUIET = tuple(bits | 1 << 51 for bits in (*INFINITE, *SIGNALLING))
# The largest finite value of either sign, next to these.
LARGEST = (0x7FEF_FFFF_FFFF_FFFF, 0xFFEF_FFFF_FFFF_FFFF)


def balanced_pattern_call(case, columns: int, values: bytes) -> Call:
    """A table with so many columns, given as bytes, that is to be balanced."""
    return balanced_call(case, case.rows * columns, values)


def pattern_calls(patterns, call):
    """Each pattern in each place of a small table, and in some places of the largest one."""
    for bits in patterns:
        bad = struct.pack("<Q", bits)
        value, = struct.unpack("<d", bad)
        for rows, columns, places in ((3, 2, range(6)), (4096, 32, (0, 65_537, 4096 * 32 - 1))):
            for place in places:
                cells = [float(i % 5) for i in range(rows * columns)]
                data = struct.pack(f"<{len(cells)}d", *cells)
                data = data[:8 * place] + bad + data[8 * place + 8:]
                cells[place] = value
                case = TableCase(f"{bits:x} at {place} of {rows}x{columns}", tuple(cells), rows,
                                 columns, 2, 1, 4, 0, rows)
                yield call(case, columns, data)


class Driver(unittest.TestCase):
    @classmethod
    def setUpClass(cls):
        cls.driver = compiled("tests/chost/driver.c", f"-DMARK={MARK}", f"-DGUARD={GUARD}")

    def compare(self, calls, stack: int):
        """Each answer of the driver is the reference's, within so much stack."""
        found, used = answers(self.driver, calls)
        for call, answer in zip(calls, found):
            self.assertEqual(answer, call.answer, call.name)
        self.assertLess(used, stack)

    def test_files(self):
        calls = list(file_calls(b"F", ccall.on_file))
        self.assertGreaterEqual(results(calls), set(range(17)) | set(range(101, 109)) | {112, 115})
        self.compare(calls, FILE_STACK)

    def test_tables(self):
        calls = list(table_calls())
        self.assertGreaterEqual(results(calls), {*range(13), 32, 103, 104, 109, 110, 111, 112})
        self.compare(calls, TABLE_STACK)

    def test_put_back_tables(self):
        """Those for the walk over put-back sets; the smaller ones for adjusted figures too, whose walk is another."""
        cases = list(every_case_of("putback"))
        self.compare([table_call(case, case.columns) for case in cases], TABLE_STACK)
        self.compare([table_adjusted_call(case, case.columns) for case in cases
                      if len(case.values) < 2000], TABLE_ADJUSTED_STACK)

    def test_adjusted_files(self):
        calls = list(file_adjusted_calls())
        self.assertEqual(results(calls), {0, *range(101, 109), 112, 115})
        self.compare(calls, FILE_ADJUSTED_STACK)

    def test_adjusted_tables(self):
        calls = list(table_adjusted_calls())
        self.assertEqual(results(calls), {0, 104, 109, 110, 111, 112})
        self.compare(calls, TABLE_ADJUSTED_STACK)

    def test_balanced_files(self):
        calls = list(file_calls(b"V", ccall.balanced_on_file))
        self.assertGreaterEqual(results(calls), set(range(17)) | set(range(101, 109)) | {112, 115})
        self.compare(calls, FILE_BALANCED_STACK)

    def test_balanced_tables(self):
        calls = list(balanced_calls())
        self.assertEqual(results(calls), {0, 104, 109, 111, 112})
        self.compare(calls, TABLE_BALANCED_STACK)

    def test_verdicts_of_balanced_tables(self):
        """One call hands its table to the other."""
        calls = list(balanced_verdicts_calls())
        self.assertGreaterEqual(results(calls), {0, 1, 2, 3})
        self.compare(calls, TABLE_BALANCED_STACK)

    def test_figures_of_balanced_tables(self):
        """One call hands its table to the other."""
        calls = list(balanced_figures_calls())
        self.assertEqual(results(calls), {0})
        self.compare(calls, TABLE_BALANCED_STACK)

    def test_patterns(self):
        """What is no finite number is refused by 11, whatever its bits and its place."""
        for call, stack in ((table_call, TABLE_STACK), (table_adjusted_call, TABLE_ADJUSTED_STACK),
                            (balanced_pattern_call, TABLE_BALANCED_STACK)):
            for patterns, refusal in ((INFINITE, True), (SIGNALLING, True), (QUIET, True),
                                      (LARGEST, False)):
                calls = list(pattern_calls(patterns, call))
                self.assertEqual(results(calls) == {111}, refusal)
                self.compare(calls, stack)


def told(verdict) -> str:
    """A verdict in the sample host's words."""
    if isinstance(verdict, Aside):
        return "set aside"
    return f"rejected in step {verdict.step}" if isinstance(verdict, Rejected) else "kept"


def sample_lines(data: bytes) -> str:
    """What the sample host prints for an accepted file."""
    trial = read(data)
    verdicts = full_run(trial).verdicts
    codes = [str(code).zfill(digits) for code, digits in zip(trial.codes, trial.digits)]
    lines = [f"{code} {told(verdict)}" for code, verdict in zip(codes, verdicts)]
    return "".join(f"{line}\n" for line in (*lines, f"rejected: {ccall.on_file(data, None)}"))


class SampleHost(unittest.TestCase):
    @classmethod
    def setUpClass(cls):
        cls.host = compiled("samples/host.c")

    def call(self, *words, data=b""):
        """Exit status, standard output and standard error of the sample host."""
        done = subprocess.run([self.host, *words], input=data, capture_output=True)
        return done.returncode, done.stdout.decode(), done.stderr.decode()

    def test_w(self):
        answer = (0, "0042 rejected in step 1\n7 kept\nrejected: 1\n", "")
        w = ROOT / "samples" / "w.trial"
        self.assertEqual(self.call(w), answer)
        self.assertEqual(self.call(data=w.read_bytes()), answer)

    def test_aside(self):
        self.assertEqual(self.call(ROOT / "samples" / "aside.trial"),
                         (0, "0042 rejected in step 1\n7 kept\n04711 set aside\nrejected: 1\n", ""))

    def test_shops(self):
        self.assertEqual(self.call(ROOT / "samples" / "shops.trial"),
                         (0, "2301 rejected in step 1\n0088 kept\n4105 set aside\nrejected: 1\n", ""))

    def test_samples(self):
        for path in sorted((ROOT / "samples").glob("*.trial")):
            if path.stem != "twice":
                self.assertEqual(self.call(path), (0, sample_lines(path.read_bytes()), ""), path)
        self.assertEqual(self.call(ROOT / "samples" / "twice.trial"), (1, "", "refused 6: two offers have the same number\n"))

    def test_refused(self):
        for data in (b"", bytes(LONGEST + 4)):
            status, out, message = self.call(data=data)
            self.assertEqual((status, out), (1, ""))
            self.assertTrue(message.startswith("refused 1: "), message)

    def test_unreadable(self):
        status, out, message = self.call(ROOT / "samples" / "missing.trial")
        self.assertEqual((status, out), (2, ""))
        self.assertIn("missing.trial", message)


if __name__ == "__main__":
    unittest.main()
