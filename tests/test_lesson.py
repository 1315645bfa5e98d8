"""The page to teach with, without a browser: every number is what the reference gives; a trial of one's own; the tool.

What else stands on it, and where, is held to the reference by `test_lessonform.py`. What a person does with it in a
browser is tested by `make lesson-test` (browser/lesson.py).
"""

import os
import random
import re
import shutil
import subprocess
import sys
import tempfile
import unittest
import xml.etree.ElementTree as ET
from contextlib import redirect_stderr
from io import StringIO
from pathlib import Path
from unittest import mock

import programs
from generators.files import damaged, damaged_shops
from generators.trials import some_shop_trial, some_trial
from lessonfacts import Facts
from lessonpages import ROOT, SAMPLES, Page, mistakes, named, own_page, quietly, text_of, whole_page
from reference import report
from reference.refusals import Refused
from reference.trialfile import read, write

from lessonpage import page
from lessonpage.meanings import MEANINGS
from lessonpage.programs import Programs
from lessonpage.slipped import reference_table

TOOL = ROOT / "tools" / "lesson.py"


def setUpModule():
    for name in ("report", "vectors"):
        programs.prove(name)


class Reference(Programs):
    """The reference in the place of the proved programs."""

    def printed(self, program, data):
        assert program == "report"
        return report.report(data)

    def table(self, table):
        return reference_table(table)


class Numbers(Page):
    def test_every_number(self):
        self.assertEqual(mistakes(self.tree, self.facts), [])
        self.assertGreater(len(named(self.tree)), 1500)

    def test_the_reference_gives_the_same_page(self):
        self.assertEqual(quietly(page.whole_page, Reference()), self.text)

    def test_built_twice(self):
        self.assertEqual(quietly(page.whole_page, Programs()), self.text)

    def test_a_wrong_number_is_found(self):
        """Each kind of fact, with one of its numbers changed."""
        kinds = {}
        for element in named(self.tree):
            kinds.setdefault(re.sub("[0-9]+", "", element.get("data-is")), element)
        for kind, element in kinds.items():
            spot = next((part for part in element.iter() if part.text and re.search("[0-9]", part.text)), None)
            if kind != "readme" and spot is not None:
                right = spot.text
                spot.text = re.sub("[0-9]", lambda digit: str((int(digit[0]) + 1) % 10), right, count=1)
                self.assertEqual([name for name, _ in mistakes(self.tree, self.facts)], [element.get("data-is")])
                spot.text = right

    def test_a_number_in_the_prose_is_found(self):
        spot = self.tree.find(".//figcaption")
        right, spot.text = spot.text, f"{spot.text} 42"
        self.assertEqual([name for name, _ in mistakes(self.tree, self.facts)], [""])
        spot.text = right

    def test_the_readme_has_the_promise(self):
        """The last chapter is the README's section, whole and in its order."""
        section = (ROOT / "README.md").read_text().partition("## What the level promises\n")[2].partition("\n## ")[0]
        lines = [line.removeprefix("- ").replace("`", "") for line in section.splitlines() if line]
        told = [text_of(element) for element in named(self.tree) if element.get("data-is") == "readme"]
        self.assertEqual(told, [" ".join(line.replace("−", "-").split()) for line in lines])


class OwnTrials(unittest.TestCase):
    def check(self, data: bytes, name="a trial.trial", looked_at=lambda name: True):
        tree = ET.fromstring(own_page(data, name))
        self.assertEqual(mistakes(tree, Facts({"own.trial": data}, name), looked_at), [])
        return tree

    def small(self, draw, rng):
        """A trial that the reference runs quickly."""
        while True:
            trial = draw(rng)
            if trial.offers <= 6 and trial.design.rows <= 64:
                return write(trial)

    def test_drawn_trials(self):
        rng = random.Random("lesson")
        for draw in (some_trial, some_shop_trial):
            for _ in range(6):
                self.check(self.small(draw, rng))

    def test_samples(self):
        for name in ("w.trial", "aside.trial", "ladder.trial", "saffron.trial"):
            self.check(SAMPLES[name], name)

    def test_the_largest(self):
        """512 lists of 16 offers. A few of the lists are looked up, since the reference takes long."""
        seldom = re.compile("own.trial (marked|list .* (?!0$))")
        tree = self.check(SAMPLES["full.trial"], looked_at=lambda name: not seldom.match(name))
        for panel in tree.iterfind(".//section[@data-idle]"):
            cards = panel.findall("ol/li")
            self.assertEqual(len(cards), 512)
            marked = sum("marked" in card.get("class") for card in cards)
            self.assertEqual(text_of(panel.find(".//strong")), str(marked))
            self.assertLessEqual(marked, 25)

    def test_names(self):
        """The file's name as it is; what can't be shown is replaced."""
        for name, told in (("my-own.trial", "my-own.trial"), ("a<&\"'>.trial", "a<&\"'>.trial"),
                           ("a\tb\x01.trial", "a\N{REPLACEMENT CHARACTER}b\N{REPLACEMENT CHARACTER}.trial"),
                           (os.fsdecode(b"\xff.trial"), "\N{REPLACEMENT CHARACTER}.trial")):
            text = own_page(SAMPLES["w.trial"], name)
            tree = ET.fromstring(text.encode("utf-8"))
            self.assertEqual("".join(tree.find(".//h1/span").itertext()), told)
            self.assertTrue(tree.find("head/title").text.endswith(f": {told}"))


class Meanings(unittest.TestCase):
    def test_every_refusal_of_a_file_has_one(self):
        rng = random.Random("meanings")
        answered = [read(data) for _, data in (*damaged(rng), *damaged_shops(rng))]
        self.assertEqual(set(MEANINGS), {one.number for one in answered if isinstance(one, Refused)})

    def test_each_says_what_is_wrong(self):
        for number, word in ((1, "empty"), (2, "missing"), (3, "level"), (4, "shape"), (5, "digits"), (6, "same number"),
                             (7, "figure"), (8, "ends"), (15, "shops")):
            self.assertIn(word, MEANINGS[number])
            self.assertNotRegex(MEANINGS[number], "[0-9]")


class Tool(unittest.TestCase):
    def setUp(self):
        folder = tempfile.TemporaryDirectory()
        self.addCleanup(folder.cleanup)
        self.folder = Path(folder.name)

    def call(self, *words, tool=TOOL):
        done = subprocess.run([sys.executable, tool, *words], capture_output=True, text=True, cwd=self.folder, timeout=60)
        return done.returncode, done.stdout, done.stderr

    def test_the_page(self):
        status, out, told = self.call("-o", "some/where.html")
        self.assertEqual((status, out), (0, ""))
        self.assertEqual((self.folder / "some" / "where.html").read_text(), whole_page())
        self.assertRegex(told, r"\A([0-9.]+ s, [0-9]+ runs of the proved programs: .+\n){6,}"
                               r"some/where.html: [0-9]+ runs of the proved programs, [0-9.]+ s\n\Z")

    def test_how_long_it_has_been_at_work(self):
        """A line about once a second while a chapter takes long."""
        running, told = Programs(), StringIO()
        with redirect_stderr(told), mock.patch.object(running, "seconds", side_effect=[0.5, 1.2, 1.2, 1.2, 1.9, 1.9]):
            for data in (b"", b"1", b"22"):
                running.trial(data)
        self.assertEqual(told.getvalue(), "1.2 s, 2 runs of the proved programs: going on\n")

    def test_a_trial(self):
        status, out, _ = self.call(ROOT / "samples" / "w.trial", "-o", "my.html")
        self.assertEqual((status, out), (0, ""))
        self.assertEqual((self.folder / "my.html").read_text(), own_page(SAMPLES["w.trial"], "w.trial"))

    def test_a_refused_trial(self):
        """The report's line, and what it means; what stood in the file stays."""
        (self.folder / "my.html").write_text("as it was")
        for trial, number in ((ROOT / "samples" / "twice.trial", 6), ("/dev/null", 1), ("/dev/zero", 1)):
            self.assertEqual(self.call(trial, "-o", "my.html"), (1, f"refused {number}\n{MEANINGS[number]}\n", ""))
        self.assertEqual((self.folder / "my.html").read_text(), "as it was")

    def test_what_fails(self):
        for words in ((), ("w.trial",), ("-o",), ("one", "two", "-o", "my.html")):
            self.assertEqual(self.call(*words)[0], 2)
        self.assertEqual(self.call("none.trial", "-o", "my.html"), (1, "", "none.trial: No such file or directory\n"))
        self.assertEqual(self.call(self.folder, "-o", "my.html"), (1, "", f"{self.folder}: Is a directory\n"))
        (self.folder / "file").touch()
        for out, why in (("file/my.html", "File exists"), ("/dev/full", "No space left on device")):
            status, _, told = self.call(ROOT / "samples" / "w.trial", "-o", out)
            self.assertEqual((status, told.splitlines()[-1]), (1, f"{out}: {why}"))

    def copy(self) -> Path:
        """The tool in a copy of the repository in which nothing has been built."""
        for name in ("tools", "samples", "tests/reference", "tests/generators"):
            shutil.copytree(ROOT / name, self.folder / name, ignore=shutil.ignore_patterns("__pycache__"))
        for path in (ROOT / "tests").glob("*.py"):
            shutil.copy(path, self.folder / "tests")
        return self.folder / "tools" / "lesson.py"

    def test_without_the_programs(self):
        self.assertEqual(self.call(self.folder / "samples" / "w.trial", "-o", "my.html", tool=self.copy()),
                         (1, "", "target/bin/report is not there: make lesson proves and builds it\n"))

    def test_programs_that_are_none(self):
        tool, report_program = self.copy(), self.folder / "target" / "bin" / "report"
        report_program.parent.mkdir(parents=True)
        nothing_else = "target/bin/report printed something else than a report"
        for script, why in (("exit 3", "target/bin/report ended with status 3"), ("", nothing_else), ("echo hello", nothing_else),
                            ("echo trial; echo end", nothing_else), ("printf '\\377\\n'", nothing_else)):
            report_program.write_text(f"#!/bin/sh\n{script}\n")
            report_program.chmod(0o755)
            self.assertEqual(self.call(self.folder / "samples" / "w.trial", "-o", "my.html", tool=tool), (1, "", f"{why}\n"))
        report_program.chmod(0o644)
        self.assertEqual(self.call(self.folder / "samples" / "w.trial", "-o", "my.html", tool=tool),
                         (1, "", "target/bin/report: Permission denied\n"))


if __name__ == "__main__":
    unittest.main()
