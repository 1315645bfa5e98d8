"""The page to teach with as a tree, and how what stands on it is held to the reference (lessonfacts.py)."""

import re
import sys
import unittest
import xml.etree.ElementTree as ET
from contextlib import redirect_stderr
from functools import lru_cache
from io import StringIO
from pathlib import Path

from lessonfacts import Facts

ROOT = Path(__file__).resolve().parent.parent
if str(ROOT / "tools") not in sys.path:
    sys.path.append(str(ROOT / "tools"))

from lessonpage import page  # noqa: E402
from lessonpage.programs import Programs  # noqa: E402

SAMPLES = {path.name: path.read_bytes() for kind in ("*.trial", "*.table") for path in (ROOT / "samples").glob(kind)}
NOT_SHOWN = ("style", "script")


def quietly(write_page, *given) -> str:
    with redirect_stderr(StringIO()):
        return write_page(*given)


@lru_cache(maxsize=None)
def whole_page() -> str:
    """The page of the samples, as the proved programs have it."""
    return quietly(page.whole_page, Programs())


@lru_cache(maxsize=None)
def own_page(data: bytes, name: str = "a trial.trial") -> str:
    return quietly(page.own_page, name, data, Programs())


@lru_cache(maxsize=None)
def facts_of_samples() -> Facts:
    return Facts(SAMPLES)


def text_of(element) -> str:
    """All text of an element, with a plain minus, and one space where there are several."""
    return " ".join("".join(element.itertext()).replace("−", "-").split())


def named(tree) -> list:
    """The elements that name what they are."""
    return [element for element in tree.iter() if "data-is" in element.attrib]


def names(tree) -> list:
    return [element.get("data-is") for element in named(tree)]


def unnamed_numbers(element) -> list:
    """Numbers that stand outside of every element that names what it is."""
    if "data-is" in element.attrib or element.tag in NOT_SHOWN:
        return []
    own = [element.text, *(child.tail for child in element)]
    return ([text for text in own if text and re.search("[0-9]", text)]
            + [text for child in element for text in unnamed_numbers(child)])


def mistakes(tree, facts: Facts, looked_at=lambda name: True) -> list:
    """What stands on the page and is not what the reference gives: names with their texts, and numbers without a name."""
    wrong = [(element.get("data-is"), text_of(element)) for element in named(tree)
             if element.get("data-is") != "readme" and looked_at(element.get("data-is"))
             and text_of(element) != facts.text(element.get("data-is"))]
    return wrong + [("", text) for text in unnamed_numbers(tree.find("body"))]


class Page(unittest.TestCase):
    @classmethod
    def setUpClass(cls):
        cls.text, cls.facts = whole_page(), facts_of_samples()
        cls.tree = ET.fromstring(cls.text)
