"""Writes the files of the test program: its cases, and the answers as the reference has them.

python3 tests/make_vectors.py           writes crates/vectors/stdin and crates/vectors/stdout
python3 tests/make_vectors.py LINE ..   tells which cases print those lines of stdout
"""

import sys
from pathlib import Path

from answers import seed_text, text
from cases import SEED, all_cases
from frames import frame, seed_frame

CRATE = Path(__file__).resolve().parent.parent / "crates" / "vectors"


def vectors():
    """(name, frame, text) of each case, the seed first."""
    yield "seed", seed_frame(SEED), seed_text(SEED)
    for case in all_cases():
        yield case.name, frame(case), text(case)


def files() -> dict:
    """What the files hold, by name."""
    made = list(vectors())
    return {"stdin": b"".join(body for _, body, _ in made),
            "stdout": "".join(printed for _, _, printed in made).encode()}


def names_of(lines) -> list:
    """The names of the cases that print these lines, counted from 1."""
    names = [name for name, _, printed in vectors() for _ in printed.splitlines()]
    return [names[line - 1] for line in lines]


if __name__ == "__main__":
    if len(sys.argv) > 1:
        print(*names_of(map(int, sys.argv[1:])), sep="\n")
    else:
        for file, content in files().items():
            (CRATE / file).write_bytes(content)
