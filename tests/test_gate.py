"""The gate (tests/run.sh) and the goals of make that run a program, with an `rt` and a `python3` that only pretend."""

import os
import shutil
import subprocess
import sys
import tempfile
import unittest
from pathlib import Path

ROOT = Path(__file__).resolve().parent.parent


def proved(crate: str) -> str:
    """What `rt` says at the end of a proved crate, as a shell command."""
    return f'echo "crate {crate}: modules loaded=0 checked=7"; echo logic=proved functions=3'


class Pretended(unittest.TestCase):
    def setUp(self):
        folder = tempfile.TemporaryDirectory()
        self.addCleanup(folder.cleanup)
        self.folder = Path(folder.name)
        (self.folder / "bin").mkdir()
        self.path = os.environ | {"PATH": f"{self.folder / 'bin'}:{os.environ['PATH']}"}

    def program(self, name: str, script: str) -> None:
        """A program of that name is a shell script."""
        path = self.folder / name
        path.parent.mkdir(parents=True, exist_ok=True)
        path.write_text(f"#!/bin/sh\n{script}\n")
        path.chmod(0o755)


class Gate(Pretended):
    def gate(self, rt: str, python: str = "echo tested"):
        """Exit status and all lines of the gate, in the order in which they come."""
        self.program("bin/rt", rt)
        self.program("bin/python3", python)
        done = subprocess.run([ROOT / ".ci" / "run"], env=self.path, stdout=subprocess.PIPE,
                              stderr=subprocess.STDOUT, text=True, cwd=self.folder)
        return done.returncode, done.stdout.splitlines()

    def test_all_passes(self):
        self.assertEqual(self.gate("echo $1; echo proved; echo '12 passed, 0 failed'", "echo $*"),
                         (0, ["ci", "proved", "tests/halves.py", "12 passed, 0 failed"]))

    def test_a_python_test_fails(self):
        self.assertEqual(self.gate("echo proved; echo '12 passed, 0 failed'",
                                   "echo FAILED >&2; exit 1"),
                         (1, ["proved", "FAILED", "12 passed, 1 failed"]))

    def test_a_crate_fails(self):
        self.assertEqual(self.gate("echo no; echo '11 passed, 2 failed'; exit 1"),
                         (1, ["no", "11 passed, 2 failed"]))

    def test_rt_says_that_nothing_failed_and_fails(self):
        self.assertEqual(self.gate("echo '12 passed, 0 failed'; exit 3"),
                         (1, ["12 passed, 1 failed"]))

    def test_rt_breaks_off(self):
        for script in ("echo begun; exit 2", "echo begun"):
            self.assertEqual(self.gate(script), (1, ["begun", "0 passed, 1 failed"]))
        self.assertEqual(self.gate("exit 2")[1][-1], "0 passed, 1 failed")

    def test_a_bad_edit(self):
        """`rt ci` passes where an edit is bad, and the gate fails."""
        for told, failed in (("9 refused", 0), ("9 refused, 1 bad", 1), ("9 refused, 2 of them only by a limit, 3 bad", 1)):
            said = f"rt: ok; handles allowed: none; must-fail edits: {told}; every proof and must-fail edit was done in this run"
            status, lines = self.gate(f"echo '{said}'; echo '12 passed, 0 failed'")
            self.assertEqual((status, lines[-1]), (failed, f"12 passed, {failed} failed"))
            self.assertEqual("tested" in lines, not failed)


class OneAtATime(Pretended):
    def test_rt(self):
        """Processes that call `rt` at once: it fails where another one is at work."""
        (self.folder / "crates.txt").touch()
        (self.folder / "tests").mkdir()
        shutil.copy(ROOT / "tests" / "commands.py", self.folder / "tests")
        self.program("bin/rt", "mkdir at-work && sleep 0.1 && rmdir at-work")
        calls = [subprocess.Popen([sys.executable, "-c", "from commands import rt; rt('check')"],
                                  env=self.path, cwd=self.folder / "tests") for _ in range(4)]
        self.assertEqual([call.wait() for call in calls], [0] * 4)


class Run(Pretended):
    def setUp(self):
        super().setUp()
        shutil.copy(ROOT / "Makefile", self.folder)
        self.program("crates/vectors/out/vectors", "")
        self.program("crates/report/out/report", "echo report of $(cat)")
        self.program("crates/adjusted/out/adjusted", "echo sheet of $(cat)")
        self.program("crates/balanced/out/balanced", "echo balanced report of $(cat)")
        (self.folder / "samples").mkdir()
        for name in ("w", "saffron"):
            (self.folder / "samples" / f"{name}.trial").write_text(name)

    def make(self, goal: str = "run"):
        return subprocess.Popen(["make", "-C", self.folder, "--no-print-directory", goal],
                                env=self.path, stdout=subprocess.PIPE, stderr=subprocess.PIPE,
                                text=True)

    def test_each_crate_is_told_as_it_is_proved(self):
        os.mkfifo(self.folder / "more")
        self.program("bin/rt", f"""echo fn order::f: proved
{proved('order')}
cat {self.folder / 'more'}
{proved('report')}""")
        with self.make() as making:
            self.assertEqual(making.stderr.readline(), "order proved\n")  # while rt goes on
            (self.folder / "more").write_text("fn report::g: proved\n")
            self.assertEqual(making.communicate(), ("report of w\n", "report proved\n"))
            self.assertEqual(making.returncode, 0)

    def test_a_crate_that_is_not_proved(self):
        self.program("bin/rt", f"{proved('order')}; echo why not >&2; exit 1")
        with self.make() as making:
            out, told = making.communicate()
        self.assertNotEqual(making.returncode, 0)
        self.assertEqual(out, "")
        self.assertEqual(told.splitlines()[:4],
                         ["order proved", "crate order: modules loaded=0 checked=7", "logic=proved functions=3", "why not"])

    def test_other_programs(self):
        self.program("bin/rt", proved("$2"))
        for goal, program, text in (("sheet", "adjusted", "sheet of w\n"),
                                    ("balanced", "balanced", "balanced report of saffron\n")):
            with self.make(goal) as making:
                self.assertEqual(making.communicate(), (text, f"{program} proved\n"))
                self.assertEqual(making.returncode, 0)

    def test_lesson(self):
        """Both programs are proved before the page is made, and the page is not made where one is not."""
        self.program("bin/rt", proved("$2"))
        self.program("bin/python3", "echo $*")
        with self.make("lesson") as making:
            self.assertEqual(making.communicate(), ("tools/lesson.py -o target/lesson/index.html\n",
                                                    "report proved\nvectors proved\n"))
            self.assertEqual(making.returncode, 0)
        self.program("bin/rt", "test $2 = report")
        with self.make("lesson") as making:
            self.assertEqual(making.communicate()[0], "")
            self.assertNotEqual(making.returncode, 0)


if __name__ == "__main__":
    unittest.main()
