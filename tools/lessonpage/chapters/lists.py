"""Chapters: all the lists, for pairs, for shops without partners, and for a trial of the teacher's own."""

from ..markup import Markup, el, fact, para, say, sign
from ..panels import Lists, all_lists, lists_of
from ..samples import sample
from ..tables import choice_table, figures_table
from ..trials import OWN, Pairs
from ..words import words_of

WORDS = words_of("lists")
EXCHANGED = sign("⇄", "exchanged")


def settings(lists: Lists) -> dict:
    return {"level": lists.said("level", "/".join(map(str, lists.trial.level))), "k": lists.said("k", lists.trial.k),
            "rows": lists.said("rows", lists.answer.rows), "e": lists.said("e", lists.answer.e),
            "named": lists.said("named", lists.codes(lists.answer.named()))}


def introduced(lists: Lists) -> list:
    """The trial, and the list that was printed."""
    return [figures_table(lists.name, lists.trial), para(WORDS["trial"], **settings(lists))]


def shown(unit: str) -> list:
    """What is shown, for pairs or for shops."""
    return [para(WORDS[unit], exchanged=EXCHANGED), para(WORDS["others"])]


def like_the_dots(lists: Lists) -> Markup:
    """What the marked lists of W have to do with its dots."""
    return para(WORDS["dots"], exchanged=EXCHANGED, way=lists.said("way 2", " ".join(map(str, lists.trial.layout.way(2)))),
                step=fact(f"{lists.name} step 1 number", 1))


def paired_lists(programs) -> list:
    """W to follow by hand, then a market day, then a tolerance of two."""
    parts = [para(WORDS["idle"]), shown("pair")]
    for file, title in (("w.trial", "A small trial, to follow by hand"), ("market.trial", "A market day"),
                        ("putback.trial", "With a tolerance: one wrong name is tolerated")):
        lists = lists_of(*sample(file), programs)
        words = {"w.trial": like_the_dots(lists), "market.trial": para(WORDS["draw"])}.get(file)
        parts += [el("h3", title), introduced(lists), words, all_lists(lists)]
    return [parts, para(WORDS["never more"])]


def shop_lists(programs) -> list:
    lists = lists_of(*sample("shops.trial"), programs)
    layout = lists.trial.layout
    first = lists.said("way 0", ", ".join(map(str, layout.way(0))))
    return [para(WORDS["shops"], shops=lists.said("units", layout.units), treated=lists.said("treated", layout.treated)),
            el("h3", "The trial and its table"), introduced(lists), para(WORDS["choices"], first=first),
            choice_table(lists.name, lists.trial, say("Every choice of the {rows}", **settings(lists))),
            el("h3", "Its lists"), shown("shop"), all_lists(lists)]


def terms(lists: Lists) -> Markup:
    """The words that the chapters before would have explained."""
    return el("dl", [[el("dt", say(term, **settings(lists))), el("dd", words)] for term, words in words_of("terms").items()])


def own_lists(data: bytes, programs) -> list:
    """A trial of the teacher's own."""
    lists = lists_of(OWN, data, programs)
    unit = "pair" if isinstance(lists.trial.layout, Pairs) else "shop"
    return [el("h3", "The trial"), introduced(lists), terms(lists),
            el("h3", "Its lists"), para(WORDS["idle"]), shown(unit), para(WORDS["draw"]), all_lists(lists)]
