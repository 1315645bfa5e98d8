"""The Python tests in two processes: none is lost, and what fails in either is told."""

import subprocess
import sys
import tempfile
import unittest
from pathlib import Path

import halves

HERE = Path(__file__).resolve().parent
FIRST, OTHER = halves.FIRST[0], "test_other"
PASSES = "self.assertTrue(True)"
FAILS = "self.fail('no good')"
# Makes one file and waits for another.
MEETS = """pathlib.Path({0!r}).touch()
        end = time.monotonic() + 20
        while not pathlib.Path({1!r}).exists():
            self.assertLess(time.monotonic(), end)
            time.sleep(0.01)"""


def module(*bodies) -> str:
    """A test module with a test for each body."""
    tests = "".join(f"    def test_{number}(self):\n        {body}\n" for number, body in enumerate(bodies))
    return f"import os, pathlib, time, unittest\n\nclass Tests(unittest.TestCase):\n{tests}"


class Halves(unittest.TestCase):
    def halves(self, **modules):
        """Exit status and all lines for a folder with these modules."""
        with tempfile.TemporaryDirectory() as folder:
            for name, text in modules.items():
                (Path(folder) / f"{name}.py").write_text(text)
            done = subprocess.run([sys.executable, HERE / "halves.py", folder], stdout=subprocess.PIPE,
                                  stderr=subprocess.STDOUT, text=True, timeout=60)
        return done.returncode, done.stdout.splitlines()

    def ran(self, lines) -> list:
        """How many tests each process says that it ran."""
        return [line.split()[1] for line in lines if line.startswith("Ran ")]

    def test_all_pass(self):
        status, lines = self.halves(**{FIRST: module(PASSES), OTHER: module(PASSES, PASSES),
                                       halves.LAST[0]: module(PASSES), "test_new": module(PASSES)})
        self.assertEqual((status, self.ran(lines)), (0, ["1", "4"]))
        self.assertEqual(lines[-1], "5 of 5 Python tests were run")

    def test_one_half(self):
        for name in (FIRST, OTHER):
            status, lines = self.halves(**{name: module(PASSES)})
            self.assertEqual((status, self.ran(lines)), (0, ["1"]))

    def test_both_at_once(self):
        """Each process waits for the other."""
        status, lines = self.halves(**{FIRST: module(MEETS.format("one", "two")),
                                       OTHER: module(MEETS.format("two", "one"))})
        self.assertEqual((status, lines[-1]), (0, "2 of 2 Python tests were run"))

    def test_a_failure_in_either(self):
        for one, other in ((FAILS, PASSES), (PASSES, FAILS), (FAILS, FAILS)):
            status, lines = self.halves(**{FIRST: module(one), OTHER: module(other)})
            self.assertEqual((status, lines[-1]), (1, "2 of 2 Python tests were run"))
            self.assertEqual(lines.count("AssertionError: no good"), (one, other).count(FAILS))

    def test_a_module_that_is_none(self):
        for name in (FIRST, OTHER):
            status, lines = self.halves(**{"test_good": module(PASSES), name: "import no_such_module"})
            self.assertEqual(status, 1)
            self.assertIn("ModuleNotFoundError: No module named 'no_such_module'", lines)

    def test_a_process_that_breaks_off(self):
        """It says that nothing failed, but its tests are not run."""
        status, lines = self.halves(**{FIRST: module("os._exit(0)", PASSES), OTHER: module(PASSES)})
        self.assertEqual((status, lines[-1]), (1, "1 of 3 Python tests were run"))

    def test_nothing(self):
        self.assertEqual(self.halves(), (1, ["0 of 0 Python tests were run"]))

    def test_each_module_once(self):
        split = halves.halves(halves.discovered(HERE))
        self.assertEqual(len(split), 2)
        self.assertEqual(sorted(split[0] + split[1]), sorted(path.stem for path in HERE.glob("test_*.py")))
        self.assertEqual(split[0], list(halves.FIRST))
        self.assertEqual(split[1][-len(halves.LAST):], list(halves.LAST))


if __name__ == "__main__":
    unittest.main()
