"""The page to teach with, in a real browser: `make lesson-test`. Not part of the gate, which has no browser.

The page is target/lesson/index.html, as `make lesson` has written it, and one of a trial of one's own. What is shown is
compared with the reference.
"""

import itertools
import sys
import tempfile
import unittest
from pathlib import Path

ROOT = Path(__file__).resolve().parent.parent.parent
sys.path.append(str(ROOT / "tests"))

from browser.driver import Browser  # noqa: E402
from lessonfacts import Facts  # noqa: E402
from lessonpages import own_page  # noqa: E402

LESSON = ROOT / "target" / "lesson" / "index.html"
PICTURE = LESSON.with_name("lesson.png")
TRIALS = ("w.trial", "market.trial", "putback.trial", "shops.trial")
FACTS = Facts({name: (ROOT / "samples" / name).read_bytes() for name in (*TRIALS, "ladder.trial")})
PHONES = (320, 360, 412)

# How wide the page is, and the elements that are drawn beyond the right edge of a screen of that width.
TOO_WIDE = """return [document.documentElement.scrollWidth, Array.from(document.body.querySelectorAll('*'))
    .filter(e => e.getClientRects().length && e.getBoundingClientRect().right > arguments[0] + 0.5)
    .map(e => e.tagName + ' ' + (e.className.baseVal ?? e.className) + ' ' + e.textContent.slice(0, 40))]"""
# The lists that are seen, of a trial: those that take place, are not hidden, and have their names on them.
SEEN = """return Array.from(document.querySelectorAll(`[data-trial='${arguments[0]}'] .card`))
    .filter(e => e.getClientRects().length && getComputedStyle(e.querySelector('.names')).visibility === 'visible')
    .map(e => e.textContent)"""
COUNT = """return Array.from(document.querySelectorAll(`[data-trial='${arguments[0]}'] .panel`))
    .filter(e => e.getClientRects().length).map(e => e.querySelector('.count').textContent)"""

BUTTONS = "return Array.from(document.querySelectorAll('button, input')).filter(e => e.getClientRects().length).length"


class Opened(unittest.TestCase):
    """A page in a window; at the end of each test nothing stands in the console."""

    path = LESSON

    @classmethod
    def setUpClass(cls):
        cls.browser = cls.enterClassContext(Browser())

    def setUp(self):
        self.browser.media("screen")
        self.browser.size(1200, 900)
        self.browser.open(self.path)
        self.addCleanup(lambda: self.assertEqual(self.browser.errors(), []))

    def lists(self, trial: str) -> str:
        return f"[data-trial='{trial}']"

    def seen(self, trial: str) -> list:
        return [" ".join(text.split()) for text in self.browser.run(SEEN, trial)]

    def counts(self, trial: str) -> list:
        return self.browser.run(COUNT, trial)

    def expected(self, trial: str, key: str) -> list:
        subject = FACTS.subject((trial,))
        return [subject.list(key, g) for g in range(subject.rows())]

    def hand(self, trial: str) -> str:
        return self.browser.run("return document.querySelector(arguments[0]).textContent", f"{self.lists(trial)} .hand")


class Ticking(Opened):
    def tick(self, trial: str, position: int):
        self.browser.click(f"{self.lists(trial)} input[value='{position}']")

    def ticked(self, trial: str) -> set:
        return set(map(int, self.browser.run("return Array.from(document.querySelectorAll(arguments[0])).map(e => e.value)",
                                             f"{self.lists(trial)} input:checked")))

    def test_begun(self):
        """At first the offers are ticked that the printed list does not name, or all where these are fewer than k."""
        self.assertEqual([self.ticked(trial) for trial in TRIALS], [{2}, {2, 3, 4}, {1, 2, 3, 4}, {2, 3}])

    def test_every_set(self):
        """Ticked in every way, one box after the other: the lists and the count of that set are seen, and no others."""
        for trial in TRIALS:
            subject, ticked = FACTS.subject((trial,)), self.ticked(trial)
            for number in range(2 ** subject.offers()):
                for position in range(1, subject.offers() + 1):
                    if (position in ticked) != bool(number >> position - 1 & 1):
                        self.tick(trial, position)
                        ticked ^= {position}
                key = "-".join(map(str, sorted(ticked))) or "-"
                self.assertEqual(self.counts(trial), [str(subject.marked(key))], (trial, key))
                self.assertEqual(self.seen(trial), self.expected(trial, key), (trial, key))

    def test_ticks_of_one_trial_leave_the_others(self):
        before = self.seen("market.trial")
        self.tick("w.trial", 1)
        self.assertEqual(self.seen("market.trial"), before)


class Drawing(Opened):
    def press(self, name: str, trial: str = "market.trial"):
        self.browser.click(f"{self.lists(trial)} .{name}")

    def test_cover(self):
        """The lists are covered, who is called idle and how many are marked; those of other trials are not."""
        told = """return Array.from(document.querySelectorAll(
            `[data-trial='${arguments[0]}'] :is(fieldset, .panel:not([hidden]) > :is(.who, p))`))
            .filter(e => getComputedStyle(e).visibility === 'visible').length"""
        self.press("cover")
        self.assertEqual((self.seen("market.trial"), self.browser.run(told, "market.trial")), ([], 0))
        self.assertEqual((len(self.seen("w.trial")), self.browser.run(told, "w.trial")), (8, 3))
        self.press("cover")
        self.assertEqual((len(self.seen("market.trial")), self.browser.run(told, "market.trial")), (32, 3))

    def test_a_short_list_tells(self):
        """With every offer idle most lists name no offer; such a list could not be marked, and that is said."""
        self.browser.click(f"{self.lists('market.trial')} input[value='1']")
        turned = set()
        for _ in range(20):
            self.press("draw")
            self.press("turn")
            turned.add(self.hand("market.trial"))
        short = [text for text in turned if text.startswith("Your list: no offer. Not marked: no idle offer is on it (")]
        self.assertTrue(short)
        self.assertTrue(all(text.endswith("With so few names it could not be marked.") for text in short))

    def test_covered_lists_look_alike(self):
        self.press("cover")
        sizes = self.browser.run("return Array.from(document.querySelectorAll(arguments[0])).map(e => e.offsetHeight)",
                                 f"{self.lists('market.trial')} .panel:not([hidden]) .card")
        self.assertEqual((len(sizes), len(set(sizes))), (32, 1))

    def test_draw(self):
        """Names alone until the list is turned over; then what it is. The others stay covered."""
        subject = FACTS.subject(("market.trial",))
        told, turned = set(), set()
        for _ in range(40):
            self.press("draw")
            self.assertEqual(self.seen("market.trial"), [])
            told.add(self.hand("market.trial"))
            self.press("turn")
            turned.add(self.hand("market.trial"))
        lists = {g: ", ".join(subject.code(i) for i in subject.list_of("2-3-4", g)) or "no offer" for g in range(32)}
        self.assertLessEqual(told, {f"Your list: {names}. Which kind is it?" for names in lists.values()})
        right = set()
        for g, text in enumerate(self.expected("market.trial", "2-3-4")):
            way, mark = text.split(f" {lists[g]}", 1)
            kind = "Marked" if subject.is_marked("2-3-4", g) else "Not marked"
            right.add(f"Your list: {lists[g]}. {kind}: {mark.strip() or 'no idle offer is on it'} ({way}). "
                      f"Called idle: {subject.codes('2-3-4')}. The list itself did not tell.")
        self.assertLessEqual(turned, right)
        self.assertGreater(len(turned), 5)

    def test_uncovering_puts_the_list_down(self):
        self.press("draw")
        self.press("cover")
        self.assertEqual(self.hand("market.trial"), "")
        self.assertEqual(len(self.seen("market.trial")), 32)


class Screens(Opened):
    def test_nothing_is_wider_than_a_phone(self):
        for width in PHONES:
            self.browser.size(width, 800, phone=True)
            self.browser.open(self.path)
            for position in (2, 3, 4, 1, 2):
                self.browser.click(f"{self.lists('market.trial')} input[value='{position}']")
                self.assertEqual(self.browser.run(TOO_WIDE, width), [width, []])

    def test_words_stay_in_their_drawings(self):
        outside = self.browser.run("""return Array.from(document.querySelectorAll('svg text')).filter(e => {
            const word = e.getBoundingClientRect(), svg = e.closest('svg').getBoundingClientRect();
            return word.left < svg.left || word.right > svg.right || word.top < svg.top || word.bottom > svg.bottom;
        }).map(e => e.textContent)""")
        self.assertEqual(outside, [])

    def test_projector(self):
        self.browser.size(1920, 1080)
        self.assertEqual(self.browser.run(TOO_WIDE, 1920)[1], [])
        self.assertGreaterEqual(self.browser.run("return parseFloat(getComputedStyle(document.body).fontSize)"), 20)


class Paper(Opened):
    def all_lists(self):
        for trial in TRIALS:
            subject = FACTS.subject((trial,))
            sizes = range(subject.offers() + 1)
            keys = ["-".join(map(str, idle)) or "-" for size in sizes
                    for idle in itertools.combinations(range(1, subject.offers() + 1), size)]
            self.assertEqual(self.seen(trial), [text for key in keys for text in self.expected(trial, key)])

    def test_print_has_all_lists(self):
        """Whatever is ticked, covered or drawn."""
        self.browser.click(f"{self.lists('w.trial')} input[value='1']")
        self.browser.click(f"{self.lists('market.trial')} .draw")
        self.browser.media("print")
        self.all_lists()
        self.assertEqual(self.browser.run(BUTTONS), 0)

    def test_no_colour_is_printed(self):
        """In print every ink is a grey."""
        self.browser.media("print")
        inks = self.browser.run("""return Array.from(new Set(Array.from(document.body.querySelectorAll('*')).flatMap(e => {
            const s = getComputedStyle(e); return [s.color, s.borderTopColor, s.fill, s.stroke, s.backgroundColor]; })))""")
        for ink in inks:
            if ink.startswith("rgb"):
                self.assertEqual(len(set(ink.strip("rgba()").split(", ")[:3])), 1, ink)

    def test_paper(self):
        """It can be printed, on a number of sheets that a class can be handed."""
        sheets = self.browser.paper()
        self.assertTrue(sheets.startswith(b"%PDF"))
        self.assertIn(sheets.count(b"/Type /Page\n"), range(10, 40))

    def test_without_the_script(self):
        """Everything is there, and nothing to press."""
        self.browser.script(False)
        self.addCleanup(self.browser.script, True)
        self.browser.open(self.path)
        self.all_lists()
        self.assertEqual(self.browser.run(BUTTONS), 0)


class OfOnesOwn(Opened):
    """The page of a sample, made as for a trial of one's own."""

    sample = ""

    @classmethod
    def setUpClass(cls):
        super().setUpClass()
        folder = tempfile.TemporaryDirectory()
        cls.addClassCleanup(folder.cleanup)
        cls.path = Path(folder.name) / "own.html"
        cls.path.write_text(own_page((ROOT / "samples" / cls.sample).read_bytes()), encoding="utf-8")


class AFewSets(OfOnesOwn):
    sample = "ladder.trial"

    def test_each_set(self):
        subject = FACTS.subject(("ladder.trial",))
        for key in ("1-2-3-4", "5", "2-4", "1-2-3-4-5"):
            self.browser.click(f"input[value='{key}']")
            self.assertEqual(self.seen("own.trial"), self.expected("ladder.trial", key))
            self.assertEqual(self.counts("own.trial"), [str(subject.marked(key))])

    def test_phone(self):
        self.browser.size(360, 800, phone=True)
        self.assertEqual(self.browser.run(TOO_WIDE, 360), [360, []])


class Largest(OfOnesOwn):
    """512 lists of 16 offers."""

    sample = "full.trial"

    def test_figures_on_paper(self):
        """The figures, which a phone scrolls, fit across a sheet of 180 mm."""
        self.browser.size(680, 960)
        self.browser.media("print")
        self.assertLessEqual(self.browser.run("return document.querySelector('.scroll table').offsetWidth"), 680)
        self.assertEqual(len(self.seen("own.trial")), 4 * 512)

    def test_phone(self):
        """The page is no wider than the screen; the figures can be scrolled by themselves."""
        self.browser.size(360, 800, phone=True)
        self.assertEqual(self.browser.run("return document.documentElement.scrollWidth"), 360)
        self.assertGreater(self.browser.run("return document.querySelector('.scroll').scrollWidth"), 360)


class Picture(Opened):
    def test_picture(self):
        """The picture of docs/: a market day, three offers called idle."""
        self.browser.size(1100, 1062)
        self.browser.run("Array.from(document.querySelectorAll('h3')).find(e => e.textContent === arguments[0]).scrollIntoView()",
                         "A market day")
        picture = self.browser.picture()
        self.assertTrue(picture.startswith(b"\x89PNG"))
        PICTURE.write_bytes(picture)


if __name__ == "__main__":
    unittest.main()
