"""Chapter: what the level promises and what not, in the README's words."""

from ..markup import para
from ..readme import in_markup, section
from ..words import words_of


def promised(_) -> list:
    return [para(words_of("promised")["introduction"]), in_markup(section("What the level promises"))]
