"""The README's own words, so that they are said once: a section's paragraphs and lists."""

import re

from .markup import el
from .paths import ROOT


def section(title: str) -> list:
    """The blocks of a section of the README, as they are written: a paragraph, or a list of its items."""
    text = (ROOT / "README.md").read_text(encoding="utf-8").partition(f"\n## {title}\n")[2].partition("\n## ")[0]
    return [[line.removeprefix("- ") for line in block.splitlines()] if block.startswith("- ") else block
            for block in text.strip().split("\n\n")]


def plain(text: str) -> str:
    """Without the marks of its typesetting."""
    return re.sub("`([^`]*)`", r"\1", text)


def in_markup(blocks) -> list:
    """The blocks as elements; each says that it is the README's."""
    return [el("p", plain(block), data_is="readme") if isinstance(block, str)
            else el("ul", [el("li", plain(item), data_is="readme") for item in block]) for block in blocks]
