"""The words of the page, apart from the code: a text for each chapter in words/, of paragraphs under [names].

A paragraph may hold {places}, which the chapter fills. Lines are joined by spaces.
"""

from functools import lru_cache

from .paths import HERE


@lru_cache(maxsize=None)
def words_of(chapter: str) -> dict:
    """By name, the paragraphs of a chapter."""
    found, name = {}, ""
    for line in (HERE / "words" / f"{chapter}.txt").read_text(encoding="utf-8").splitlines():
        if line.startswith("[") and line.endswith("]"):
            name = line[1:-1]
            found[name] = []
        elif line:
            found[name].append(line)
    return {name: " ".join(lines) for name, lines in found.items()}
