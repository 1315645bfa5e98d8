"""All the lists of a trial, as elements: boxes to tick, and a panel for each set of offers that can be called idle.

A panel has the list of every run with that set idle. page.js shows the panel of the set that is ticked; without the
script all of them stand on the page, and in print too.
"""

from dataclasses import dataclass
from itertools import chain, combinations

from .answers import Answer
from .markup import Markup, el, fact, listing, para, say, sign
from .programs import Programs
from .trials import OWN, Pairs, Trial, idle_names, trial_of
from .words import words_of

MOST_OFFERS, MOST_ROWS = 4, 32  # up to these every set can be ticked


@dataclass(frozen=True)
class Lists:
    """A trial whose lists are shown: its name for the facts, and what the programs answer to the trial itself."""

    name: str
    trial: Trial
    answer: Answer
    programs: Programs

    @property
    def rows(self) -> range:
        return range(self.answer.rows)

    @property
    def every_set(self) -> bool:
        return len(self.trial.offers) <= MOST_OFFERS and self.answer.rows <= MOST_ROWS

    def said(self, what: str, value) -> Markup:
        return fact(f"{self.name} {what}", value)

    def codes(self, offers) -> str:
        return listing(self.trial.codes[i] for i in offers)

    def named(self, idle, g: int) -> list:
        """The offers on the list of run g, as the program prints it for that run's own file."""
        return self.programs.trial(self.trial.run(idle, g).file()).named()


def key(idle) -> str:
    """A set of offers (from 0) as a word: their positions, from 1."""
    return "-".join(str(i + 1) for i in idle)


def chosen_sets(lists: Lists) -> dict:
    """The sets (from 0) that can be ticked, with their names: all of a small trial, a few of a larger one."""
    everyone, named = tuple(range(len(lists.trial.offers))), tuple(lists.answer.named())
    if lists.every_set:
        sets = chain.from_iterable(combinations(everyone, size) for size in range(len(everyone) + 1))
        return {idle: "" for idle in sets}
    sets = {}
    for idle, words in ((tuple(i for i in everyone if i not in named), "the offers that are not on the printed list"),
                        (named, "the offers on the printed list"), (everyone[1::2], "every second offer"),
                        (everyone, "every offer")):
        sets.setdefault(idle, words)  # the first name of a set
    return {idle: words for idle, words in sets.items() if idle}


def begun(lists: Lists) -> tuple:
    """What is ticked at first: the offers that are not on the printed list, or all where these are fewer than k."""
    named, everyone = lists.answer.named(), range(len(lists.trial.offers))
    others = tuple(i for i in everyone if i not in named)
    return others if len(others) >= lists.trial.k else tuple(everyone)


def box(lists: Lists, kind: str, value, words, ticked: bool) -> Markup:
    return el("label", el("input", type=kind, name=f"idle-{lists.name}", value=value, autocomplete="off",
                          checked="checked" if ticked else None), " ", words)


def choosing(lists: Lists, sets) -> Markup:
    """Boxes to tick: one for each offer where every set is there, else one for each set."""
    first = begun(lists)
    if lists.every_set:
        legend, boxes = "Tick the offers that you call idle", [
            box(lists, "checkbox", i + 1, lists.said(f"code {i}", code), i in first)
            for i, code in enumerate(lists.trial.codes)]
    else:
        legend, boxes = "Which offers do you call idle?", [
            box(lists, "radio", key(idle), words, idle == first) for idle, words in sets.items()]
    return el("fieldset", el("legend", legend), boxes, class_="needs-script")


def drawing_of_one(lists: Lists) -> Markup:
    """Cover the lists and draw one. What is drawn, and the count of what is ticked, is told to a screen reader."""
    buttons = [el("button", words, type="button", class_=name, disabled="disabled" if name == "turn" else None)
               for name, words in (("cover", "Cover the lists"), ("draw", "Draw one"), ("turn", "Turn it over"))]
    told = [el("p", class_="hand", aria_live="polite"), el("p", class_="status", role="status")]
    of_trial = "" if lists.name == OWN else f" of {lists.name}"
    return el("div", el("p", buttons), told, class_="needs-script", role="group", aria_label=f"Draw one of the lists{of_trial}")


def card(lists: Lists, idle, g: int, named) -> Markup:
    """The list of one run. It is marked where it names k idle offers or more; with fewer than k names it can't be."""
    wrong, marked = idle_names(idle, named), lists.trial.is_wrong(idle, named)
    names = [el("span", lists.trial.codes[i], class_="idle" if i in idle else None) for i in named]
    mark = el("span", [sign("✗", "marked"), " "] if marked else None, f"{wrong} idle", class_="mark")
    return el("li", el("span", way_of(lists, g), class_="way"), " ",
              el("span", joined(names) if names else listing(()), class_="names"), [" ", mark] if wrong else None,
              class_="card marked" if marked else "card" if len(named) >= lists.trial.k else "card short",
              data_is=f"{lists.name} list {key(idle) or '-'} {g}")


def joined(names) -> list:
    """Names with commas between them."""
    return [part for name in names for part in (", ", name)][1:]


def way_of(lists: Lists, g: int):
    """Which run a list is of: the pairs that are exchanged, or the shops that are called treated."""
    way = " ".join(map(str, lists.trial.layout.way(g)))
    if g == 0:
        return "★ printed"
    return [sign("⇄", "exchanged"), f" {way}"] if isinstance(lists.trial.layout, Pairs) else f"treated {way}"


def panel(lists: Lists, idle, words: str) -> Markup:
    """All the lists with these offers idle, and how many are marked, against e."""
    named = [lists.named(idle, g) for g in lists.rows]
    marked = sum(lists.trial.is_wrong(idle, one) for one in named)
    ident, of_set = f"panel-{lists.name}-{key(idle) or 'none'}", key(idle) or "-"
    title = say("Called idle: {codes}{words}", codes=lists.said(f"codes {of_set}", lists.codes(idle)),
                words=f" ({words})" if words else "")
    count = para(words_of("lists")["panel"], k=lists.said("k", lists.trial.k), cross=sign("✗", "marked"),
                 marked=fact(f"{lists.name} marked {of_set}", marked, "strong", class_="count"),
                 rows=lists.said("rows", lists.answer.rows), e=lists.said("e", lists.answer.e))
    cards = el("ol", [card(lists, idle, g, one) for g, one in enumerate(named)],
               class_="cards" if lists.every_set else "cards packed")
    return el("section", el("h4", title, id=ident, class_="who"), count, cards,
              class_="panel", data_idle=key(idle), aria_labelledby=ident)


def all_lists(lists: Lists) -> Markup:
    sets = chosen_sets(lists)
    return el("div", choosing(lists, sets), drawing_of_one(lists),
              [panel(lists, idle, words) for idle, words in sets.items()], class_="lists", data_trial=lists.name)


def lists_of(name: str, data: bytes, programs) -> Lists:
    return Lists(name, trial_of(data), programs.trial(data), programs)
