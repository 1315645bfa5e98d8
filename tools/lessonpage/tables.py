"""The tables of a trial, as elements: its figures, its rows, and a table that is handed in."""

from .answers import whole
from .markup import Markup, el, fact, say, table
from .trials import OWN, Pairs, Table, Trial

OBSERVED = "★ observed"
MOST_ACROSS = 6  # figures that fit across a phone; more can be scrolled
SPACE = "\N{NARROW NO-BREAK SPACE}"


def figures_table(name: str, trial: Trial, sums: bool = True) -> Markup:
    """An offer a row, with its figures by pair or shop; of pairs also its observed sum."""
    unit, what = ("pair", "differences") if isinstance(trial.layout, Pairs) else ("shop", "figures")
    units, sums = range(trial.layout.units), sums and unit == "pair"
    head = ["offer", *(say("{unit} {j}", unit=unit, j=fact(f"{unit} {j + 1}", j + 1)) for j in units), *["sum"] * sums]
    rows = [[fact(f"{name} code {i}", code, "th", scope="row"),
             [fact(f"{name} figure {i} {j}", figures[j], "td") for j in units],
             fact(f"{name} entry 0 {i}", sum(figures), "td", class_="total") if sums else None]
            for i, (code, figures) in enumerate(trial.offers)]
    caption = f"The {what}, in cents" if name == OWN else f"The {what} in {name}, in cents"
    made = table(caption, head, rows)
    if len(units) <= MOST_ACROSS:
        return made
    return el("div", made, class_="scroll", tabindex="0", role="region", aria_label=caption)


def signed(figures) -> str:
    """Differences as a sum, 5 + 3 - 4, with spaces that do not break."""
    first, *others = figures
    return SPACE.join([str(first), *(f"{'-' if x < 0 else '+'}{SPACE}{abs(x)}" for x in others)])


def way_cell(name: str, trial: Trial, g: int) -> list:
    """The row's number, and which pairs it exchanges or which shops it calls treated."""
    way = ", ".join(map(str, trial.layout.way(g)))
    return [fact(f"{name} row {g}", g, "th", scope="row"),
            el("td", fact(f"{name} way {g}", way) if way else "none", f" {OBSERVED}" if g == 0 else "", class_="way")]


def exchange_table(name: str, trial: Trial, caption) -> Markup:
    """Every exchange as a row: each offer's signed differences and their sum."""
    head = ["row", ("pairs exchanged", "way")]
    for i, code in enumerate(trial.codes):
        head += [fact(f"{name} code {i}", code), say("sum of {code}", code=fact(f"{name} code {i}", code))]
    rows = []
    for g in range(trial.layout.rows):
        cells = [[fact(f"{name} signed {g} {i}", signed(trial.layout.listed(figures, g)), "td", class_="sum"),
                  fact(f"{name} entry {g} {i}", trial.layout.entry(figures, g), "td", class_="total")]
                 for i, (_, figures) in enumerate(trial.offers)]
        rows.append(el("tr", way_cell(name, trial, g), cells, class_="observed" if g == 0 else None))
    return table(caption, head, rows, class_="narrow")


def choice_table(name: str, trial: Trial, caption) -> Markup:
    """Every choice of treated shops as a row, with each offer's entry."""
    rows = [el("tr", way_cell(name, trial, g),
               [fact(f"{name} entry {g} {i}", trial.layout.entry(figures, g), "td")
                for i, (_, figures) in enumerate(trial.offers)], class_="observed" if g == 0 else None)
            for g in range(trial.layout.rows)]
    head = ["row", ("treated shops", "way"), *(fact(f"{name} code {i}", code) for i, code in enumerate(trial.codes))]
    return table(caption, head, rows, class_="narrow")


def handed_table(name: str, handed: Table) -> Markup:
    """A table as it is handed in."""
    rows = [el("tr", fact(f"{name} row {g}", g, "th", scope="row"),
               [fact(f"{name} entry {g} {i}", whole(value), "td") for i, value in enumerate(row)],
               el("td", OBSERVED if g == handed.observed else "", class_="sign"),
               class_="observed" if g == handed.observed else None) for g, row in enumerate(handed.rows)]
    head = ["row", *(fact(f"{name} code {i}", code) for i, code in enumerate(handed.codes)), ("what it is", "sign")]
    return table(f"The table {name}, as it is handed in", head, rows)
