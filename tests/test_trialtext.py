"""The text tool: packs and shows without loss, names the line of a bad text, writes whole or not.

What a file is refused for is not its business: a text of a bad trial is packed, and the
reference, like the report program, says the number.
"""

import os
import random
import resource
import signal
import stat
import subprocess
import sys
import tempfile
import unittest
from importlib.util import module_from_spec, spec_from_file_location
from pathlib import Path

from generators.files import SHOPS as EXAMPLE
from generators.files import damaged, damaged_shops, further_damaged, further_damaged_shops
from generators.trials import some_shop_trial, some_trial, valid_shop_trials, valid_trials
from reference.refusals import Refused
from reference.trialfile import read, write

ROOT = Path(__file__).resolve().parent.parent
TOOL = ROOT / "tools" / "trialtext.py"
_spec = spec_from_file_location("trialtext", TOOL)
trialtext = module_from_spec(_spec)
_spec.loader.exec_module(trialtext)

GOOD = b"level 1 4\nk 1\noffer 0042 5 3 4\noffer 7 2 -1 1\n"
SHOPS = b"level 1 6\nk 1\ntreated 2\noffer 0042 9 7 2 4\noffer 7 3 -1 5 1\n"
W = (ROOT / "samples" / "w.trial").read_bytes()


def call(*words, data=b"", stdout=subprocess.PIPE, **more):
    """Exit status, standard output and standard error of the tool."""
    done = subprocess.run([sys.executable, TOOL, *words], input=data, stdout=stdout,
                          stderr=subprocess.PIPE, **more)
    return done.returncode, done.stdout, done.stderr.decode()


def number_of(data: bytes) -> int:
    """0, or what the reference refuses a file for."""
    answer = read(data)
    return answer.number if isinstance(answer, Refused) else 0


class Samples(unittest.TestCase):
    def test_samples_are_made_from_their_texts(self):
        texts = sorted((ROOT / "samples").glob("*.txt"))
        self.assertGreaterEqual(len(texts), 10)
        for text in texts:
            data = text.with_suffix(".trial").read_bytes()
            self.assertEqual(trialtext.make(text.read_bytes()), data)
            self.assertEqual(number_of(data), 6 if text.stem == "twice" else 0)  # 0042 and 42 are one offer


class RoundTrips(unittest.TestCase):
    def check(self, data, name):
        """A file of whole words is made again from what is shown; else it is not shown."""
        if data and len(data) % 4 == 0:
            text = trialtext.show(data)
            self.assertEqual(trialtext.make(text.encode()), data, name)
            return text
        with self.assertRaises(trialtext.Bad, msg=name):
            trialtext.show(data)
        return ""

    def test_trials(self):
        for name, trial in valid_trials(random.Random("text"), each=2):
            text = self.check(write(trial), name)
            head = f"# offers: {trial.offers}, pairs: {trial.design.pairs}\nlevel "
            self.assertTrue(text.startswith(head), text)
            self.assertNotIn("word", text)

    def test_trials_of_shops(self):
        for name, trial in valid_shop_trials(random.Random("text"), each=8):
            text = self.check(write(trial), name)
            head = f"# offers: {trial.offers}, shops: {trial.design.shops}\nlevel "
            self.assertTrue(text.startswith(head), text)
            self.assertIn(f"\nk {trial.k}\ntreated {trial.design.treated}\noffer ", text)
            self.assertNotIn("word", text)

    def as_trials(self, files) -> set:
        """The numbers of the damaged files that are shown as trials: what fits the lines of one."""
        return {number_of(data) for name, data in files if "level" in self.check(data, name)}

    def test_damaged_files(self):
        rng = random.Random("text")
        self.assertEqual(self.as_trials((*damaged(rng), *further_damaged(rng))), {0, 3, 4, 5, 6, 7})
        self.assertEqual(self.as_trials((*damaged_shops(rng), *further_damaged_shops(rng))),
                         {0, 3, 4, 5, 6, 7, 15})

    def test_any_words(self):
        rng = random.Random("words")
        for number in range(2000):
            words = rng.randint(1, 12)
            kinds = [1, rng.choice((2, 5))] + [rng.choice((3, 4, 15)) for _ in range(words)]
            data = b"".join((kind << 28 | rng.getrandbits(rng.randint(0, 28))).to_bytes(4, "little")
                            for kind in (kinds if number % 2 else rng.choices(range(16), k=words)))
            self.check(data, data.hex())


class BadTrials(unittest.TestCase):
    """Texts of trials that are no good: packed as they stand, for the report program to refuse."""

    def test_each_number(self):
        lines = GOOD.decode()
        for number, text in (
                (3, lines.replace("1 4", "0 4")), (3, lines.replace("1 4", "4 4")),
                (3, lines.replace("1 4", "1 0")), (4, lines.replace("k 1", "k 0")),
                (4, lines.replace("k 1", "k 3")), (4, lines.replace("k 1", "k 255")),
                (4, "level 1 4\nk 1\n"), (4, "level 1 4\nk 1\noffer 1\n"),
                (4, "level 1 4\nk 1\noffer 1" + " 1" * 10),
                (4, "level 1 4\nk 1\n" + "".join(f"offer {i} 1\n" for i in range(17))),
                (4, "level 1 4\nk 1\n" + "".join(f"offer {i} {'1 ' * 9}\n" for i in range(17))),
                (1, "level 1 4\nk 1\n" + "".join(f"offer {i} {'1 ' * 10}\n" for i in range(17))),
                (5, lines.replace("0042", "00000042")), (5, lines.replace("0042", "16777215")),
                (6, lines.replace("offer 7", "offer 42")), (7, lines.replace(" 5", " -134217728")),
                (2, "word 1 16388\nword 2 66049\n"), (8, trialtext.show(W[:-4] + b"\0\0\0\xf0")),
                (0, lines.replace(" 5", " -134217727")), (0, lines.replace(" 5", " +134217727"))):
            self.assertEqual(number_of(trialtext.make(text.encode())), number, text)

    def test_each_number_of_shops(self):
        lines = SHOPS.decode()
        eleven = "level 1 4\nk 1\ntreated 5\noffer 1" + " 1 2" * 5
        for number, text in (
                (4, lines.replace("k 1", "k 0")), (4, lines.replace("k 1", "k 3")),
                (4, lines.replace("k 1", "k 15")), (15, lines.replace("treated 2", "treated 0")),
                (15, lines.replace("treated 2", "treated 4")), (0, lines.replace("treated 2", "treated 3")),
                (15, lines.replace("treated 2", "treated 255")), (0, eleven), (15, eleven + " 1"),
                (15, "level 1 4\nk 1\ntreated 1\noffer 1 1"), (15, "level 1 4\nk 1\ntreated 1\noffer 1"),
                (4, "level 1 4\nk 1\ntreated 1\n"), (3, lines.replace("1 6", "6 6").replace("treated 2", "treated 9")),
                (4, lines.replace("k 1", "k 0").replace("treated 2", "treated 9")),
                (6, lines.replace("offer 7", "offer 42")), (7, lines.replace(" 9", " -134217728"))):
            self.assertEqual(number_of(trialtext.make(text.encode())), number, text)

    def test_shops_or_pairs(self):
        """The line alone makes the figures those of shops."""
        for text, kind in ((SHOPS, 5), (SHOPS.replace(b"treated 2\n", b""), 2)):
            self.assertEqual(trialtext.make(text)[7] >> 4, kind)
        self.assertEqual(trialtext.make(SHOPS), write(EXAMPLE))
        self.assertEqual(trialtext.show(write(EXAMPLE)), "# offers: 2, shops: 4\n" + SHOPS.decode())


class BadTexts(unittest.TestCase):
    def check(self, line, text, says=""):
        """A text is refused at that line, in those words."""
        with self.assertRaises(trialtext.BadText, msg=text) as caught:
            trialtext.make(text)
        self.assertEqual(caught.exception.args[0], line, text)
        self.assertIn(says, caught.exception.args[1])
        self.assertTrue(str(caught.exception).isascii() and "\n" not in str(caught.exception))

    def test_what_does_not_fit(self):
        for line, old, new in (
                (1, b"1 4", b"1 16384"), (1, b"1 4", b"16384 4"), (1, b"1 4", b"-1 4"),
                (1, b"1 4", b"1"), (1, b"1 4", b"1 4 4"), (1, b"1 4", b"1/4"), (2, b"k 1", b"k 256"),
                (2, b"k 1", b"k"), (2, b"k 1", b"k one"), (3, b"0042", b"4x2"),
                (3, b"0042", b"16777216"), (3, b"0042", b"0" * 16), (3, b"0042", b"-42"),
                (3, b" 0042 5 3 4", b""), (3, b" 5", b" 134217728"), (3, b" 5", b" -134217729"),
                (4, b"-1", b"1.5"), (4, b"-1", b"1e3"), (4, b"-1", b"1_0"), (4, b"-1", b"- 1"),
                (4, b" -1", b""), (4, b"offer 7", b"offre 7"), (4, b"offer 7", b"Offer 7")):
            self.check(line, GOOD.replace(old, new))
        for line, old, new in (
                (3, b"treated 2", b"treated"), (3, b"treated 2", b"treated 2 2"),
                (3, b"treated 2", b"treated 256"), (3, b"treated 2", b"treated -1"),
                (3, b"treated 2", b"treaded 2"), (2, b"k 1", b"k 256"), (5, b" 5 1", b" 5"),
                (4, b" 9", b" 134217728")):
            self.check(line, SHOPS.replace(old, new))
        self.check(2, SHOPS.replace(b"k 1", b"k 16"), "k must be at most 15 with a 'treated' line, not 16")
        trialtext.make(GOOD.replace(b"k 1", b"k 16"))

    def test_what_is_missing_or_twice(self):
        self.check(1, b"", "no 'level' line")
        self.check(3, b"\n\n# nothing", "no 'level' line")
        self.check(4, GOOD.replace(b"level 1 4\n", b"#\n"), "no 'level' line")
        self.check(4, GOOD.replace(b"k 1", b""), "no 'k' line")
        self.check(5, GOOD + b"level 1 4", "a second 'level' line")
        self.check(6, GOOD + b"\nk 1\n", "a second 'k' line")
        self.check(6, SHOPS + b"treated 2\n", "a second 'treated' line")
        self.check(1, b"treated 2\nword 1 2\n", "a text with 'word' lines has no others")
        self.check(1, GOOD + b"word 1 2", "a text with 'word' lines has no others")
        self.check(2, b"word 1 2\nk 1\n", "a text with 'word' lines has no others")
        self.check(1, b"word 16 1", "from 0 to 15")
        self.check(1, b"word 1 268435456", "from 0 to 268435455")

    def test_too_many(self):
        self.check(258, b"level 1 4\nk 1\n" + b"offer 1 1\n" * 256, "more than 255 offers")
        self.check(3, b"level 1 4\nk 1\noffer 1" + b" 1" * 256, "more than 255 figures")
        trialtext.make(b"level 1 4\nk 1\n" + (b"offer 1" + b" 1" * 255 + b"\n") * 255)

    def test_characters_that_do_not_show(self):
        codes = (*range(9), 0x0B, 0x0C, *range(0x0E, 0x20), *range(0x7F, 0xA1), 0xAD, 0x61C, 0x1680,
                 *range(0x2000, 0x2010), *range(0x2028, 0x2030), 0x205F, 0x2060, 0x2066, 0x3000,
                 0xFEFF, 0xFFF9, 0xE0001, 0xE0020)
        rng = random.Random("hidden")
        for character in map(chr, codes):
            for place in (0, GOOD.index(b"0042") + 2, rng.randrange(1, len(GOOD)), len(GOOD)):
                if (character, place) != ("\ufeff", 0):
                    self.refuse_at(place, character.encode())
            self.check(2, b"level 1 4\n# a comment" + character.encode() + b"\n",
                       f"U+{ord(character):04X}")

    def refuse_at(self, place, inserted):
        """GOOD with bytes inserted at a place is refused at that place's line."""
        self.check(GOOD[:place].count(b"\n") + 1, GOOD[:place] + inserted + GOOD[place:])

    def test_other_characters(self):
        for inserted in ("\u0661", "\u00b2", "\uff11", "\u3164", "\u0301", "\u2212", "\u00e9"):
            for place in (GOOD.index(b"1 4"), GOOD.index(b"0042"), GOOD.index(b"-1")):
                self.refuse_at(place, inserted.encode())
        for inserted in (b"\xff", b"\xc3", b"\xed\xa0\x80", b"\xc0\x80"):
            self.refuse_at(GOOD.index(b"0042"), inserted)
            self.check(1, b"# " + inserted + b"\n" + GOOD, "UTF-8")

    def test_line_ends(self):
        self.refuse_at(GOOD.index(b"k 1"), b"\r")
        self.refuse_at(len(GOOD), b"\r")
        self.check(1, GOOD.replace(b"\n", b"\r"), "U+000D")
        self.check(1, GOOD.replace(b"\n", b"\r\r\n"), "U+000D")

    def test_damaged_texts(self):
        """One byte of a text is another: packed, or refused at some line of it."""
        rng, made = random.Random("damaged"), 0
        for _ in range(3000):
            drawn = rng.choice((some_trial, some_shop_trial))
            text = bytearray(trialtext.show(write(drawn(rng, 3, 3))).encode())
            text[rng.randrange(len(text))] = rng.choice((rng.randrange(256), *b"0123456789 -#\n"))
            try:
                made += len(trialtext.make(bytes(text))) % 4 == 0
            except trialtext.BadText as bad:
                self.assertLessEqual(1, bad.args[0])
                self.assertLessEqual(bad.args[0], text.count(b"\n") + 1)
        self.assertGreater(made, 500)

    def test_layout_is_free(self):
        for free in (b"\n# first\n  offer 0042 +5 03 4 # more\n\toffer 7 2 -1 1\nk 1\nlevel 1 4",
                     GOOD.replace(b"\n", b"\r\n"), b"\xef\xbb\xbf" + GOOD, GOOD + b"\n\n", GOOD[:-1],
                     "# Läden, 商店 ✓\t\n".encode() + GOOD):
            self.assertEqual(trialtext.make(free), W)


class Calls(unittest.TestCase):
    def setUp(self):
        folder = tempfile.TemporaryDirectory()
        self.addCleanup(folder.cleanup)
        self.folder = Path(folder.name)
        self.out = self.folder / "w.trial"

    def left(self):
        """What stands in the folder."""
        return {path.name: path.read_bytes() for path in self.folder.iterdir()}

    def test_make_and_show(self):
        self.assertEqual(call("make", self.out, data=GOOD), (0, b"", ""))
        self.assertEqual(self.left(), {"w.trial": W})
        self.assertEqual(call("show", data=W), (0, b"# offers: 2, pairs: 3\n" + GOOD, ""))
        self.assertEqual(call("make", self.out, data=SHOPS), (0, b"", ""))
        self.assertEqual(self.left(), {"w.trial": write(EXAMPLE)})
        self.assertEqual(call("show", data=write(EXAMPLE)), (0, b"# offers: 2, shops: 4\n" + SHOPS, ""))

    def test_a_file_that_is_there(self):
        self.out.write_bytes(b"old")
        self.out.chmod(0o640)
        link = self.folder / "link"
        link.symlink_to("w.trial")
        self.assertEqual(call("make", link, data=GOOD)[0], 0)
        self.assertEqual(self.left(), {"w.trial": W, "link": W})
        self.assertTrue(link.is_symlink())
        self.assertEqual(stat.S_IMODE(self.out.stat().st_mode), 0o640)

    def test_bad_text(self):
        for old in ({}, {"w.trial": b"old"}):
            for name, data in old.items():
                (self.folder / name).write_bytes(data)
            status, out, message = call("make", self.out, data=GOOD + b"offer\n")
            self.assertEqual((status, out, self.left()), (1, b"", old))
            self.assertRegex(message, r"\Aline 5: .*\n\Z")

    def test_bad_file(self):
        self.assertEqual(call("show", data=b"abcde"), (1, b"", "5 bytes are no words of 4 bytes each\n"))
        self.assertEqual(call("show", data=b""), (1, b"", "0 bytes are no words of 4 bytes each\n"))

    def test_an_endless_stream(self):
        for words in (("show",), ("make", self.out)):
            with open("/dev/zero", "rb") as zeros:
                done = subprocess.run([sys.executable, TOOL, *words], stdin=zeros,
                                      capture_output=True, timeout=20)
            self.assertEqual((done.returncode, done.stdout), (1, b""))
            self.assertEqual(done.stderr.count(b"\n"), 1)
        self.assertEqual(self.left(), {})

    def test_bad_usage(self):
        for words in ((), ("other",), ("make",), ("show", "x"), ("make", "x", "y")):
            status, out, message = call(*words, data=GOOD, cwd=self.folder)
            self.assertEqual((status, out), (2, b""))
            self.assertIn("trialtext.py make FILE", message)
        self.assertEqual(self.left(), {})

    def test_no_place(self):
        for path in ("/dev/full", self.folder, self.folder / "none" / "w.trial",
                     self.folder / ("x" * 300)):
            status, out, message = call("make", path, data=GOOD)
            self.assertEqual((status, out), (1, b""))
            self.assertRegex(message, r"\A[^\n]*: [A-Z][a-z ]+\n\Z")
        self.assertEqual(self.left(), {})
        self.assertTrue(stat.S_ISCHR(os.stat("/dev/full").st_mode))

    def test_a_full_disk(self):
        """A file may grow to 16 bytes: the write fails as on a full disk, and nothing is left."""
        def limit():
            signal.signal(signal.SIGXFSZ, signal.SIG_IGN)
            resource.setrlimit(resource.RLIMIT_FSIZE, (16, 16))

        for old in ({}, {"w.trial": b"old"}):
            for name, data in old.items():
                (self.folder / name).write_bytes(data)
            status, _, message = call("make", self.out, data=GOOD, preexec_fn=limit)
            self.assertEqual((status, self.left()), (1, old))
            self.assertRegex(message, r"\A[^\n]*w\.trial: File too large\n\Z")

    def test_standard_output(self):
        with open("/dev/full", "wb") as full:
            self.assertEqual(call("show", data=W, stdout=full)[::2],
                             (1, "standard output: No space left on device\n"))
        reader, writer = os.pipe()
        os.close(reader)
        self.assertEqual(call("show", data=W, stdout=writer)[::2],
                         (1, "standard output: Broken pipe\n"))
        os.close(writer)
        self.assertEqual(call("show", data=W, preexec_fn=lambda: os.close(1))[::2],
                         (1, "standard output: Bad file descriptor\n"))

    def test_no_standard_input(self):
        self.assertEqual(call("make", self.out, preexec_fn=lambda: os.close(0))[::2],
                         (1, "standard input: Bad file descriptor\n"))
        self.assertEqual(self.left(), {})

    def test_a_pipe(self):
        self.assertEqual(call("make", "/dev/stdout", data=GOOD), (0, W, ""))


if __name__ == "__main__":
    unittest.main()
