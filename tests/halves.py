"""Runs the Python tests in two processes at once, and prints what each says, one after the other.

python3 tests/halves.py           the tests of this folder
python3 tests/halves.py FOLDER    those of another one

Fails where either process does, or where not as many tests were run as there are.
"""

import re
import subprocess
import sys
import tempfile
import unittest
from pathlib import Path

# What the first process runs: about half of the time. The second runs all others, new ones too.
FIRST = ("test_chost", "test_cases", "test_putback", "test_vectors")
# They call `rt`, of which one runs at a time (commands.py): at the end, when test_chost has long had its library.
LAST = ("test_adjusted", "test_balanced", "test_benchcalls", "test_lesson", "test_lessonform",
        "test_report")


def tests_of(suite):
    """The tests of a suite and of those in it."""
    for part in suite:
        if isinstance(part, unittest.TestSuite):
            yield from tests_of(part)
        else:
            yield part


def module_of(test) -> str:
    """A module that cannot be imported stands as a test of the loader's, under its name."""
    module = type(test).__module__
    return test.id().rpartition(".")[2] if module == "unittest.loader" else module


def discovered(folder) -> list:
    """The module of each test in a folder, in order."""
    return [module_of(test) for test in tests_of(unittest.TestLoader().discover(str(folder)))]


def halves(modules) -> list:
    """The modules of each process that has some: without a name unittest would run all."""
    names = dict.fromkeys(modules)
    first, last = ([name for name in listed if name in names] for listed in (FIRST, LAST))
    others = [name for name in names if name not in FIRST + LAST]
    return [half for half in (first, others + last) if half]


def start(folder, names):
    """A process that runs these modules, and the file that takes what it says."""
    said = tempfile.TemporaryFile()
    return subprocess.Popen([sys.executable, "-m", "unittest", *names], cwd=folder, stdout=said,
                            stderr=subprocess.STDOUT), said


def ended(process, said) -> tuple:
    """Waits for a process and prints what it said: whether all passed, and how many tests were run."""
    status = process.wait()
    said.seek(0)
    text = said.read()
    sys.stdout.buffer.write(text)
    sys.stdout.flush()
    return status == 0, int((re.findall(rb"^Ran (\d+) tests? in ", text, re.MULTILINE) or [0])[-1])


def main(folder) -> int:
    modules = discovered(folder)
    running = [start(folder, names) for names in halves(modules)]
    results = [ended(*one) for one in running]
    ran = sum(count for _, count in results)
    print(f"{ran} of {len(modules)} Python tests were run")
    return 0 if all(passed for passed, _ in results) and ran == len(modules) > 0 else 1


if __name__ == "__main__":
    sys.exit(main(sys.argv[1] if len(sys.argv) > 1 else Path(__file__).resolve().parent))
