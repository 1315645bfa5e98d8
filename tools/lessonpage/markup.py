"""Elements as text. The page is well formed both as HTML and as XML: every element is closed."""

from html import escape

VOID = {"meta", "link", "input"}
DRAWN = {"circle", "line", "path", "rect"}  # SVG closes them in themselves
BLOCKS = {"caption", "div", "dl", "fieldset", "figcaption", "figure", "footer", "h1", "h2", "h3", "h4", "h5", "head",
          "header", "li", "main", "nav", "ol", "p", "pre", "section", "style", "svg", "table", "tbody", "thead", "tr", "ul"}


class Markup(str):
    """Text that is markup already."""


def inside(part) -> str:
    """A part of an element: markup as it is, other text escaped, lists part after part."""
    if isinstance(part, Markup):
        return part
    if isinstance(part, (list, tuple)):
        return "".join(map(inside, part))
    return "" if part is None else escape(str(part), quote=False)


def el(tag: str, *parts, **attributes) -> Markup:
    """An element. `class_` is the attribute class, `data_is` is data-is; one that is None is left out."""
    named = "".join(f' {name.rstrip("_").replace("_", "-")}="{escape(str(value))}"'
                    for name, value in attributes.items() if value is not None)
    if tag in VOID | DRAWN:
        return Markup(f"<{tag}{named}/>")
    end = "\n" if tag in BLOCKS else ""  # so that the source can be read
    return Markup(f"<{tag}{named}>{inside(parts)}</{tag}>{end}")


def shown(value) -> str:
    """A number or text, with a minus sign that is as wide as a plus."""
    return str(value).replace("-", "\N{MINUS SIGN}")


def fact(name: str, value, tag: str = "span", **attributes) -> Markup:
    """A value in an element that names what it is."""
    return el(tag, shown(value), data_is=name, **attributes)


def say(template: str, **parts) -> Markup:
    """Prose, with markup in the places of {names}."""
    return Markup(escape(template, quote=False).format(**{name: inside(part) for name, part in parts.items()}))


def para(template: str, **parts) -> Markup:
    return el("p", say(template, **parts))


def sign(character: str, name: str) -> Markup:
    """A sign, with its name for a screen reader."""
    return el("span", character, role="img", aria_label=name)


def listing(codes) -> str:
    """Printed codes as a list."""
    return ", ".join(codes) or "no offer"


def table(caption, head, rows, **attributes) -> Markup:
    """A table: its caption, its head, and rows of cells that are elements already.

    A cell of the head is what stands in it, or that and a class.
    """
    cells = [cell if isinstance(cell, tuple) else (cell, None) for cell in head]
    return el("table", el("caption", caption),
              el("thead", el("tr", [el("th", words, scope="col", class_=name) for words, name in cells])),
              el("tbody", [row if isinstance(row, Markup) else el("tr", row) for row in rows]), **attributes)
