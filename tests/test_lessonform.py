"""The form of the page to teach with: what stands where, and that it is well formed and has names for a screen reader.

`test_lesson.py` holds every number to the reference by its name. Here it is that the right number stands in the right
place, in tables, drawings, panels, slips and prose, and that every sign is where the reference would put it.
"""

import re
import unittest
import xml.etree.ElementTree as ET

import programs
from lessonfacts import Facts
from lessonpages import ROOT, SAMPLES, Page, names, own_page, text_of
from reference.slips import SLIPS
from reference.trial import make_trial
from reference.trialfile import write

from lessonpage.words import words_of

OBSERVED = "★ observed"


def setUpModule():
    for name in ("report", "vectors"):
        programs.prove(name)


def of_class(tree, name: str) -> list:
    return [element for element in tree.iter() if name in element.get("class", "").split()]


class Document(Page):
    def test_nothing_is_fetched(self):
        self.assertNotRegex(self.text, r"https?:|src=|url\(|@import|fetch|XMLHttp")
        self.assertEqual({a.get("href")[0] for a in self.tree.iter("a")}, {"#"})

    def test_the_script_computes_nothing(self):
        script = (ROOT / "tools" / "lessonpage" / "page.js").read_text()
        self.assertNotRegex(script, "[0-9]|parse|Number|eval")
        self.assertEqual(script.count("*"), 1)  # the one list of many that is drawn
        self.assertNotIn("]]>", self.text.partition("<script>")[2].partition("]]>*/</script>")[0])

    def test_links_and_names(self):
        ids = [element.get("id") for element in self.tree.iter() if "id" in element.attrib]
        self.assertEqual(len(ids), len(set(ids)))
        for element in self.tree.iter():
            for name in ("aria-labelledby", "aria-describedby"):
                self.assertIn(element.get(name, ids[0]), ids)
            self.assertIn(element.get("href", "#").removeprefix("#"), [*ids, "", "data:,"])
            self.assertNotRegex(element.get("aria-label", ""), "[0-9]")

    def test_tables_and_drawings_have_names(self):
        for table in self.tree.iter("table"):
            self.assertTrue(text_of(table.find("caption")))
            self.assertEqual({cell.get("scope") for cell in table.find("thead").iter("th")}, {"col"})
            self.assertTrue(all(text_of(cell) for cell in table.find("thead").iter("th")))
        titles = [text_of(svg.find("title")) for svg in self.tree.iter("svg")]
        self.assertEqual(len(titles), len(set(titles)))
        for svg in self.tree.iter("svg"):
            self.assertEqual(svg.get("role"), "img")
            self.assertTrue(text_of(svg.find("title")) and text_of(svg.find("desc")))
        for section in self.tree.iter("section"):
            self.assertIn("aria-labelledby", section.attrib)

    def test_headings(self):
        """One of the first rank, and none skips a rank."""
        for text in (self.text, own_page(SAMPLES["ladder.trial"])):
            ranks = [int(element.tag[1]) for element in ET.fromstring(text).iter() if re.fullmatch("h[1-6]", element.tag)]
            self.assertEqual(ranks.count(1), 1)
            self.assertTrue(all(later <= rank + 1 for rank, later in zip([0, *ranks], ranks)))

    def test_chapters(self):
        """Six, in the order of their numbers, and each is in the contents."""
        chapters = of_class(self.tree, "chapter")
        self.assertEqual([text_of(chapter.find("h2/span")) for chapter in chapters], list("123456"))
        self.assertEqual([a.get("href")[1:] for a in self.tree.iter("a")], [chapter.find("h2").get("id") for chapter in chapters])

    def test_boxes_have_labels(self):
        labelled = [box for label in self.tree.iter("label") for box in label.iter("input")]
        self.assertEqual(len(labelled), len(list(self.tree.iter("input"))))
        for fieldset in self.tree.iter("fieldset"):
            self.assertTrue(text_of(fieldset.find("legend")))


class Tables(Page):
    def tables(self) -> list:
        """Each table with the facts of its head, column by column, and its rows."""
        return [(table, [(names(cell) or [""])[0] for cell in table.findall("thead/tr/th")], table.findall("tbody/tr"))
                for table in self.tree.iter("table") if "sides" not in table.get("class", "")]

    def test_cells_stand_in_their_rows_and_columns(self):
        """An entry's row and offer, a figure's offer and pair, are those of its row and of the head of its column."""
        looked_at = 0
        for _, head, rows in self.tables():
            for row in rows:
                cells = list(row)
                for cell, above in zip(cells, head, strict=True):
                    words = cell.get("data-is", "").split(" ")
                    if words[1:2] in (["entry"], ["signed"]) and above:
                        self.assertIn(above.split(" ", 1)[1], (f"code {words[3]}",), words)
                        self.assertIn(words[2], self.row_numbers(cells))
                        looked_at += 1
                    if words[1:2] == ["figure"]:
                        self.assertIn(above, (f"pair {int(words[3]) + 1}", f"shop {int(words[3]) + 1}"))
                        self.assertEqual(cells[0].get("data-is"), f"{words[0]} code {words[2]}")
                        looked_at += 1
        self.assertGreater(looked_at, 150)

    def row_numbers(self, cells) -> list:
        """The number of the row: in its first cell, or in the second of one in order; of a table of figures that of row 0."""
        if " place " in cells[0].get("data-is"):
            return [text_of(cells[1])]
        return [text_of(cells[0])] if " row " in cells[0].get("data-is") else ["0"]

    def test_every_row_in_order(self):
        """Rows from 0 to M - 1, places from 1 to M, and an offer for each of the trial's."""
        for table, _, rows in self.tables():
            first = [row[0].get("data-is", "") for row in rows]
            kind = next((word for word in (" row ", " place ", " code ") if word in first[0]), None)
            if kind:
                subject = self.facts.subject((first[0].split(" ")[0],))
                size = subject.offers() if kind == " code " else subject.rows()
                start = 1 if kind == " place " else 0
                self.assertEqual([name.split(kind)[1] for name in first], [str(n) for n in range(start, start + size)])

    def test_the_observed_row_is_marked(self):
        for table, _, rows in self.tables():
            if " row " in rows[0][0].get("data-is", ""):
                observed = self.facts.subject((rows[0][0].get("data-is").split(" ")[0],)).observed
                for g, row in enumerate(rows):
                    self.assertEqual((OBSERVED in text_of(row), "observed" in row.get("class", "")), (g == observed,) * 2)

    def test_signs_of_rows_in_order(self):
        """The bar at place M - e, diamonds above it, a star at the observed row."""
        ordered = [rows for _, _, rows in self.tables() if " place " in rows[0][0].get("data-is", "")]
        self.assertEqual(len(ordered), 5)
        for rows in ordered:
            name = rows[0][0].get("data-is").split(" place ")[0]
            step, subject = self.facts.subject(tuple(name.split(" "))), self.facts.subject((name.split(" ")[0],))
            for place, row in enumerate(rows, 1):
                g = step.ordered(place)
                signs = (["← the bar"] * (place == subject.rows() - subject.e())
                         + ["◇ above"] * (step.values[g] > int(step.critical())) + [OBSERVED] * (g == subject.observed))
                self.assertEqual((text_of(row[-1]), row.get("class") == "at-bar"), (", ".join(signs), "← the bar" in signs))


class Drawings(Page):
    def drawings(self) -> list:
        """Each drawing of dots, with its step or set."""
        found = [svg for svg in self.tree.iter("svg") if svg.find("g/title") is not None]
        self.assertEqual(len(found), 5)
        return [(svg, self.facts.subject(tuple(names(svg)[0].removesuffix(" drawing").split(" ")))) for svg in found]

    def test_places(self):
        """What is drawn stands at its value: all marks of a drawing lie on one scale, from left to right."""
        for svg, _ in self.drawings():
            marks = [self.mark(element) for element in svg.iter() if "data-x" in element.attrib]
            (low, left), (high, right) = min(marks), max(marks)
            self.assertLess(left, right)
            for value, x in marks:
                self.assertAlmostEqual(x, left + (right - left) * (value - low) / (high - low), delta=0.11)

    def mark(self, element) -> tuple:
        """Its value, and where it is drawn."""
        x = element.get("data-x")
        drawn = element if element.tag == "text" else next(e for e in element if e.tag in ("circle", "path"))
        self.assertEqual(drawn.get("x") or drawn.get("cx") or re.match(r"M([0-9.]+) ", drawn.get("d"))[1], x)
        return int(re.findall("-?[0-9]+", text_of(element))[-1]), float(x)

    def test_the_bar(self):
        """The broken line stands where its name does."""
        for svg, _ in self.drawings():
            (line,), (name,) = of_class(svg, "bar"), of_class(svg, "bar-name")
            self.assertEqual({line.get("x1"), line.get("x2")}, {name.get("data-x")})

    def test_dots(self):
        """One for each row, none over another; diamonds for those above the bar."""
        for svg, step in self.drawings():
            dots = [g for g in svg.findall("g") if g.find("title") is not None]
            self.assertEqual(sorted(text_of(dot.find("title")) for dot in dots),
                             sorted(step.dot(g) for g in range(len(step.values))))
            places = [dot.find("circle").get("cx") + " " + dot.find("circle").get("cy") if dot.find("circle") is not None
                      else re.match("M([0-9. ]+)l", dot.find("path").get("d"))[1] for dot in dots]
            self.assertEqual(len(set(places)), len(dots))
            for dot in dots:
                above = int(text_of(dot.find("title")).split()[-1]) > int(step.critical())
                self.assertEqual((dot.find("path") is not None, dot.find("circle") is None), (above, above))

    def test_arrows(self):
        """One for each offer that is judged, with what becomes of it: larger is above, and as large is not."""
        for svg, step in self.drawings():
            told = [text_of(g.find("text")) for g in svg.findall("g") if g.find("title") is None]
            self.assertEqual(told, [f"{step.code(i)}: {step.observed(i)}, "
                                    + ("above" if int(step.observed(i)) > int(step.critical()) else "not above")
                                    for i in step.left])

    def test_coins(self):
        """Shop A takes the coupons, or shop B where the caption names the pair."""
        for ident, exchanged in (("coins", []), ("turned", [1, 3])):
            svg = next(svg for svg in self.tree.iter("svg") if svg.get("aria-labelledby") == f"{ident}-title")
            shops = of_class(svg, "shop")
            self.assertEqual(["treated" in shop.get("class") for shop in shops],
                             [turned == (letter == "B") for j in (1, 2, 3) for turned in [j in exchanged] for letter in "AB"])
            arrows = [text_of(text) for text in svg.iter("text") if text_of(text) in "←→"]
            self.assertEqual(arrows, ["→" if j in exchanged else "←" for j in (1, 2, 3)])
            self.assertEqual(len(of_class(svg, "coupon")), 3)
        caption = next(figure.find("figcaption") for figure in self.tree.iter("figure")
                       if figure.find("svg").get("aria-labelledby") == "turned-title")
        self.assertEqual(names(caption)[:2], ["pair 1", "pair 3"])


class Lists(Page):
    def lists(self) -> list:
        return [(lists, self.facts.subject((lists.get("data-trial"),))) for lists in of_class(self.tree, "lists")]

    def test_which_trials(self):
        """W, one of 4 offers and 5 pairs, one with a tolerance, and one of shops."""
        sizes = {lists.get("data-trial"): len(lists.findall("section/ol/li")) for lists, _ in self.lists()}
        self.assertEqual(sizes, {"w.trial": 4 * 8, "market.trial": 16 * 32, "putback.trial": 16 * 8,
                                 "shops.trial": 8 * 20})

    def test_every_set(self):
        """Every set of offers has a panel, with its own codes and count, and a list for each run."""
        for lists, subject in self.lists():
            panels = lists.findall("section")
            sets = {"-".join(str(i + 1) for i in range(subject.offers()) if mask >> i & 1)
                    for mask in range(2 ** subject.offers())}
            self.assertEqual((len(panels), {panel.get("data-idle") for panel in panels}), (len(sets), sets))
            for panel in panels:
                self.check_panel(lists.get("data-trial"), subject, panel)

    def check_panel(self, trial, subject, panel):
        key, cards = panel.get("data-idle") or "-", panel.findall("ol/li")
        self.assertEqual(names(panel), [f"{trial} {name}" for name in (
            f"codes {key}", "k", f"marked {key}", "rows", "e", *(f"list {key} {g}" for g in range(subject.rows())))])
        self.assertLessEqual(subject.marked(key), subject.e())
        for g, card in enumerate(cards):
            named = subject.list_of(key, g)
            self.assertEqual(card.get("class"), "card marked" if subject.is_marked(key, g)
                             else "card" if len(named) >= subject.k() else "card short")
            idle = [subject.code(i) for i in named if i in subject.offers_in(key)]
            self.assertEqual([text_of(name) for name in of_class(card, "idle")], idle)

    def test_boxes(self):
        """One for each offer, by its code and position; at first those that the printed list does not name, or all."""
        for lists, subject in self.lists():
            labels = lists.findall("fieldset/label")
            self.assertEqual([(names(label), label.find("input").get("value")) for label in labels],
                             [([f"{lists.get('data-trial')} code {i}"], str(i + 1)) for i in range(subject.offers())])
            others = [i for i in range(subject.offers()) if i not in subject.rejected]
            begun = others if len(others) >= subject.k() else list(range(subject.offers()))
            self.assertEqual([i for i, label in enumerate(labels) if label.find("input").get("checked")], begun)

    def few(self, data: bytes) -> dict:
        """The names of the sets of a larger trial, the first that is ticked, and the sets that have a panel."""
        tree = ET.fromstring(own_page(data))
        labels = tree.findall(".//fieldset/label")
        sets = {text_of(label): label.find("input").get("value") for label in labels}
        self.assertEqual({label.find("input").get("type") for label in labels}, {"radio"})
        self.assertEqual(list(sets.values()), [panel.get("data-idle") for panel in tree.iterfind(".//section[@data-idle]")])
        (ticked,) = [box.get("value") for box in tree.iter("input") if box.get("checked")]
        return sets, ticked

    def test_a_few_sets(self):
        """Of a trial above 4 offers or 32 rows; a set that has several names keeps the first."""
        self.assertEqual(self.few(SAMPLES["ladder.trial"]), (
            {"the offers that are not on the printed list": "5", "the offers on the printed list": "1-2-3-4",
             "every second offer": "2-4", "every offer": "1-2-3-4-5"}, "5"))
        alike = write(make_trial((1, 4), 1, [("1", (1, -1, 1, -1, 1, -1)), ("2", (3, -3, 2, -2, 1, -1))]))
        self.assertEqual(self.few(alike), ({"the offers that are not on the printed list": "1-2", "every second offer": "2"},
                                           "1-2"))
        one = write(make_trial((1, 4), 1, [("1", (9, 9, 9, 9, 9, 9)), ("2", (3, -3, 2, -2, 1, -1))]))
        self.assertEqual(self.few(one), ({"the offers that are not on the printed list": "2",
                                          "the offers on the printed list": "1", "every offer": "1-2"}, "2"))


class Slips(Page):
    def sections(self) -> list:
        return of_class(self.tree, "slip")

    def test_all(self):
        self.assertEqual([section.get("aria-labelledby") for section in self.sections()], [f"slip-{name}" for name in SLIPS])

    def test_side_by_side(self):
        """The correct answer on the left, whole; the slip's on the right; each line where they part is marked, no other."""
        for section, slip in zip(self.sections(), SLIPS):
            (table,) = of_class(section, "sides")
            file = names(table.find("tbody"))[0].split(" ")[0]
            self.assertEqual([text_of(cell) for cell in table.findall("thead/tr/th")],
                             ["correct: the proved program", "with the slip", "where they part"])
            for column, subject, start in ((0, (file,), file), (1, (file, "slip", slip), f"{file} slip {slip}")):
                judged = self.facts.subject(subject)
                told = [name for row in table.findall("tbody/tr") for name in names(row[column])]
                self.assertEqual(told, [f"{start} {name}" for name in (
                    *(f"step-line {s}" for s in range(1, len(judged.run.records) + 1)),
                    *(f"verdict {i}" for i in range(judged.offers())), "named")])
            for row in table.findall("tbody/tr"):
                differ = text_of(row[0]) != text_of(row[1])
                self.assertEqual((row.get("class") == "parts", text_of(row[2]) == "≠ they part"), (differ, differ))
            self.assertTrue(of_class(table, "parts"))

    def test_costs(self):
        """Who is said to be listed wrongly, or lost, is somebody; and a broken promise is one."""
        for section in self.sections():
            told = {name: self.facts.text(name) for name in names(section.find("p[@class='cost']"))}
            for name, text in told.items():
                if name.endswith((" wrong", " lost")):
                    self.assertNotEqual(text, "no offer")
                if " marked " in name:
                    self.assertGreater(int(text), int(self.facts.text(f"{name.split(' ')[0]} e")))
        self.assertEqual(sum(" marked " in name for section in self.sections() for name in names(section)), 3)

    def test_by_hand(self):
        """Each set of the step, and then the slip's, with the bar of each."""
        told = {section.get("aria-labelledby"): [
            names(row)[-2:] for table in section.iter("table") for row in table.findall("tbody/tr")
            if any(name.endswith(" in-order") for name in names(row))] for section in self.sections()}
        self.assertEqual({name: rows for name, rows in told.items() if rows}, {
            "slip-drop-rejected": [["putback.trial step 2 set 1 in-order", "putback.trial step 2 set 1 critical"],
                                   ["putback.trial step 2 set 2 in-order", "putback.trial step 2 set 2 critical"],
                                   ["putback.trial step 2 set 0 in-order", "putback.trial slip drop-rejected bar 2"]],
            "slip-stop-at-zero": [["tight.trial step 1 set 1 in-order", "tight.trial step 1 set 1 critical"]],
            "slip-eth-largest": [["ladder.trial step 1 set 1 in-order", "ladder.trial step 1 set 1 critical"],
                                 ["ladder.trial step 1 set 1 in-order", "ladder.trial slip eth-largest bar 1"]]})


class Prose(Page):
    """Each paragraph of the words stands on a page, with a fact of the right kind in each of its places."""

    PLACES = {
        "allowed": "e", "c": "critical", "code": "code 0", "codes": "rejects", "count": "count 1", "cross": None,
        "exchanged": None, "first": "code 0|way 0", "idle": "codes [0-9-]+", "lists": "rows", "low": "entry 0 1",
        "marked": "marked .+", "meaning": None, "observed": "observed-row", "one": "k|pair 1|code 0", "other": "pair 3|code 1",
        "others": "slip .+ count 1", "pairs": "units", "place": "bar-place", "row": "row 5", "second": "code 1",
        "shops": "units", "slipped": "slip .+ count 0", "step": "number", "tolerance": "k", "top": "entry 0 0", "way": "way 2",
        "which": None, "wrong": "slip .+ wrong", "lost": "slip .+ lost", "wrong_lists": "slip .+ marked .+", "zero": "row 0"}

    def pattern(self, words: str):
        return re.compile("".join(re.escape(part) if n % 2 == 0 else "(.+)" for n, part
                                  in enumerate(re.split(r"\{(\w+)\}", words.replace("−", "-")))))

    def places(self, words: str, parts) -> list:
        """The kinds of fact that stand in the places of a paragraph, those of one that it holds among them."""
        kinds = []
        for place in re.findall(r"\{(\w+)\}", words):
            kinds += self.places(parts["broken"], parts) if place == "broken" else [self.PLACES.get(place, place)]
        return [kind for kind in kinds if kind]

    def test_every_paragraph(self):
        own = ET.fromstring(own_page(SAMPLES["ladder.trial"]))
        spots = [element for tree in (self.tree, own) for element in tree.iter()
                 if element.tag in ("p", "figcaption", "h3", "desc")]
        for chapter in ("page", "tabled", "stepped", "slips", "lists", "promised"):
            parts = words_of(chapter)
            for name, words in parts.items():
                if name != "broken":
                    self.check(f"{chapter}: {name}", self.pattern(words), self.places(words, parts), spots)

    def test_letters(self):
        """Where the words give a letter its value, that value stands there."""
        given = [found for chapter in ("stepped", "slips", "lists") for words in words_of(chapter).values()
                 for found in re.findall(r"\b([ekM]) = \{(\w+)\}", words)]
        self.assertEqual(set(given), {("e", "e"), ("k", "k"), ("k", "one"), ("M", "rows")})

    def check(self, name, pattern, kinds, spots):
        found = [spot for spot in spots if pattern.fullmatch(text_of(spot).removeprefix("What it costs: "))]
        self.assertTrue(found, name)
        for spot in found:
            told = [fact.removeprefix("own.trial ") for fact in names(spot)]
            self.assertEqual(len(told), len(kinds), name)
            for fact, kind in zip(told, kinds):
                self.assertRegex(fact, f"(^| )({kind})$", name)


class OwnTerms(unittest.TestCase):
    def test_settings(self):
        """The terms that are explained on a page of one's own name the trial's own settings."""
        tree = ET.fromstring(own_page(SAMPLES["ladder.trial"]))
        self.assertEqual(names(tree.find(".//dl")), [f"own.trial {name}" for name in ("rows", "level", "e", "k")])
        self.assertEqual([text_of(term) for term in tree.iter("dt")],
                         ["the list", "M = 16", "the level, 2/32, and e = 1", "the tolerance, k = 1", "set aside"])
        self.assertNotIn("own.trial", text_of(tree.find("body")))
        self.assertEqual(Facts({"own.trial": SAMPLES["ladder.trial"]}).text("own.trial e"), "1")


if __name__ == "__main__":
    unittest.main()
