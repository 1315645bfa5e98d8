"""Drawings, as SVG. Each has a name and a description for a screen reader, and no sign is a colour alone."""

import re
from collections import Counter

from .markup import el, fact, say

WIDTH, MARGIN = 360, 26
STACK = 13  # from a dot to the one above it


def drawing(ident: str, height: int, title, description, *parts, width: int = WIDTH):
    return el("svg", el("title", title, id=f"{ident}-title"), el("desc", description, id=f"{ident}-text"), *parts,
              viewBox=f"0 0 {width} {height}", role="img",
              aria_labelledby=f"{ident}-title", aria_describedby=f"{ident}-text", class_="drawing")


class Scale:
    """A line of numbers: where each stands across the drawing."""

    def __init__(self, values):
        self.low, self.high = min(values), max(values)

    def x(self, value) -> str:
        part = (value - self.low) / (self.high - self.low or 1)
        return f"{MARGIN + part * (WIDTH - 2 * MARGIN):.1f}"


def dot(x: str, y: int, above: bool, name):
    """A row's k-max: a full dot, or an empty diamond where it lies above the critical value."""
    if above:
        mark = el("path", d=f"M{x} {y - 6}l6 6l-6 6l-6 -6z", class_="above")
    else:
        mark = el("circle", cx=x, cy=y, r=5, class_="below")
    return el("g", name, mark, data_x=x)


def dot_line(subject: str, description, values, critical, allowed, observed):
    """The k-max values by row as dots on a line, the critical value, and below it the observed values.

    `subject` names the set for the facts, `values` are (row, value), `observed` are (offer from 0, code,
    value); the critical value is a number, and `allowed` says how many dots may lie above it.
    """
    ident, title = re.sub("[ .]", "-", subject), fact(f"{subject} drawing", f"Dots on a line: {subject}")
    scale = Scale([value for _, value in values] + [value for *_, value in observed] + [critical])
    base = 46 + STACK * max(Counter(value for _, value in values).values())
    return drawing(ident, base + 34 + 18 * len(observed), title, description,
                   bar(subject, scale, critical, allowed, base),
                   el("line", x1=8, x2=WIDTH - 8, y1=base, y2=base, class_="axis"),
                   ticks(subject, scale, values, base),
                   dots(subject, scale, values, critical, base),
                   [arrow(subject, scale, one, critical, base + 34 + 18 * n) for n, one in enumerate(observed)])


def bar(subject, scale, critical, allowed, base):
    """The critical value, as a broken line with its name on top, and beside it how many dots may lie above."""
    x = scale.x(critical)
    side = "start" if float(x) < WIDTH / 2 else "end"
    name = say("critical value {c}", c=fact(f"{subject} critical", critical, "tspan"))
    return [el("line", x1=x, x2=x, y1=18, y2=base + 6, class_="bar"),
            el("text", name, x=x, y=12, text_anchor=side, class_="bar-name", data_x=x),
            el("text", say("{e} may lie above", e=allowed), x=f"{float(x) + 6:.1f}", y=28, class_="small")]


def ticks(subject, scale, values, base):
    """Each value once, below the line."""
    return [fact(f"{subject} value {value}", value, "text", x=scale.x(value), y=base + 16, text_anchor="middle",
                 data_x=scale.x(value)) for value in sorted({value for _, value in values})]


def dots(subject, scale, values, critical, base):
    """Equal values stand on one another, the lowest row at the bottom."""
    height, drawn = Counter(), []
    for row, value in values:
        drawn.append(dot(scale.x(value), base - 9 - STACK * height[value], value > critical,
                         fact(f"{subject} dot {row}", f"row {row}: {value}", "title")))
        height[value] += 1
    return drawn


def arrow(subject, scale, one, critical, y):
    """An offer's observed value, with its code and what becomes of it beside the arrow."""
    offer, code, value = one
    x = float(scale.x(value))
    to_right = x < WIDTH / 2
    words = say("{code}: {value}, {word}", code=fact(f"{subject} code {offer}", code, "tspan"),
                value=fact(f"{subject} observed {offer}", value, "tspan"),
                word="above" if value > critical else "not above")
    side, start = ("start", x + 10) if to_right else ("end", x - 10)
    return el("g", el("path", d=f"M{x:.1f} {y - 9}l6 11h-12z", class_="arrow"),
              el("text", words, x=f"{start:.1f}", y=y, text_anchor=side), data_x=f"{x:.1f}")


def shop(x: int, y: int, letter: str, treated: bool):
    """A shop; one that takes the coupons has a thick wall and a coupon below."""
    house = el("path", d=f"M{x} {y}l16 -12l16 12v24h-32z", class_="shop treated" if treated else "shop")
    coupon = [el("rect", x=x - 5, y=y + 28, width=42, height=15, class_="coupon"),
              el("text", "coupon", x=x + 16, y=y + 39, text_anchor="middle", class_="tiny")]
    return [house, el("text", letter, x=x + 16, y=y + 18, text_anchor="middle"), coupon if treated else None]


def coin_picture(ident: str, title, description, pairs: int, exchanged):
    """Pairs of shops, and which of each takes the coupons: shop A, or shop B where they are exchanged."""
    drawn = []
    for j in range(pairs):
        x, turned = 12 + j * 116, j + 1 in exchanged
        drawn += [shop(x, 20, "A", not turned), shop(x + 62, 20, "B", turned),
                  el("circle", cx=x + 47, cy=28, r=9, class_="coin"),
                  el("text", "→" if turned else "←", x=x + 47, y=32, text_anchor="middle"),
                  el("text", say("pair {j}", j=fact(f"pair {j + 1}", j + 1, "tspan")), x=x + 47, y=82,
                     text_anchor="middle")]
    return drawing(ident, 90, title, description, drawn, width=116 * pairs)
