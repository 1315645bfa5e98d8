"""The page: the whole one, and the last chapters for a trial of one's own."""

from functools import partial

from .chapters.lists import own_lists, paired_lists, shop_lists
from .chapters.promised import promised
from .chapters.slips import slips
from .chapters.stepped import stepped
from .chapters.tabled import tabled
from .markup import Markup, el, fact, para
from .paths import HERE
from .words import words_of

TITLE = "The lists that the coins might have given"

# Each chapter: its name in links, its title, and what writes it.
ALL_LISTS = "All the lists"
LAST = ("promised", "What the level promises, and what not", promised)
CHAPTERS = (("tabled", "A trial and its table", tabled), ("stepped", "A step, and the next one", stepped),
            ("slips", "The slips", slips), ("lists", ALL_LISTS, paired_lists),
            ("shops", "Shops without partners", shop_lists), LAST)


def page(title: str, *parts) -> str:
    """One file: style and script are laid into it, and nothing is fetched."""
    style = (HERE / "page.css").read_text(encoding="utf-8")
    script = (HERE / "page.js").read_text(encoding="utf-8")
    head = el("head", el("meta", charset="utf-8"), el("title", title), el("link", rel="icon", href="data:,"),
              el("meta", name="viewport", content="width=device-width, initial-scale=1"), el("style", unparsed(style)))
    return "<!DOCTYPE html>\n" + el("html", head, el("body", *parts, el("script", unparsed(script))), lang="en") + "\n"


def unparsed(text: str) -> Markup:
    """Text that is no markup, in HTML and in XML."""
    return Markup(f"/*<![CDATA[*/\n{text}/*]]>*/")


def contents(chapters) -> Markup:
    return el("nav", el("ol", [el("li", el("a", title, href=f"#{ident}")) for ident, title, _ in chapters]),
              aria_label="Chapters")


def chapter(number: int, ident: str, title: str, parts) -> Markup:
    return el("section", el("h2", fact(f"chapter {number}", number, class_="number"), " ", title, id=ident), parts,
              class_="chapter", aria_labelledby=ident)


def laid_out(title: str, heading, lead, chapters, programs) -> str:
    """A page of these chapters; each is told as it is begun."""
    written = []
    for number, (ident, words, write) in enumerate(chapters, 1):
        programs.tell(words)
        written.append(chapter(number, ident, words, write(programs)))
    return page(title, el("header", el("h1", heading), lead, contents(chapters)), el("main", written),
                el("footer", para(words_of("page")["closing"])))


def whole_page(programs) -> str:
    """The page of the samples."""
    lead = el("p", words_of("page")["lead"], class_="lead")
    return laid_out(TITLE, TITLE, lead, CHAPTERS, programs)


def printable(name: str) -> str:
    """A file's name as a page can show it."""
    return "".join(character if character.isprintable() else "\N{REPLACEMENT CHARACTER}" for character in name)


def own_page(name: str, data: bytes, programs) -> str:
    """The last chapters, for an accepted trial file."""
    chapters = (("lists", ALL_LISTS, partial(own_lists, data)), LAST)
    heading = [TITLE, ": ", el("span", printable(name), data_is="file")]
    return laid_out(f"{TITLE}: {printable(name)}", heading, None, chapters, programs)
