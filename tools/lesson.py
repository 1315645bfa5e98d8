#!/usr/bin/env python3
"""A page to teach with: the lists that the coins might have given.

    lesson.py -o FILE           the whole page, of the trials and tables in samples/
    lesson.py TRIAL -o FILE     its last chapters, for a trial file of one's own

Every verdict on it comes from the proved programs in target/bin, which are run for each list: `make lesson` proves and
builds them. A TRIAL that is turned away is answered with the report's refusal and what it means, and FILE is then left
alone. While it works it says for how long.
"""

import argparse
import sys
from pathlib import Path

import trialtext
from lessonpage.answers import Refusal, Trouble
from lessonpage.meanings import MEANINGS
from lessonpage.page import own_page, whole_page
from lessonpage.programs import Programs


def arguments(words):
    parser = argparse.ArgumentParser(description=__doc__, formatter_class=argparse.RawDescriptionHelpFormatter,
                                     usage="lesson.py [TRIAL] -o FILE")
    parser.add_argument("trial", nargs="?", metavar="TRIAL", type=Path)
    parser.add_argument("-o", dest="out", metavar="FILE", required=True, type=Path)
    return parser.parse_args(words)


def taken(path: Path) -> bytes:
    """A file's bytes; of one that has no end, enough to be refused."""
    try:
        with path.open("rb") as given:
            return given.read(trialtext.MOST_BYTES)
    except OSError as error:
        raise Trouble(f"{path}: {error.strerror}") from None


def made(trial, programs):
    """The page, or the refusal of the trial."""
    if trial is None:
        return whole_page(programs)
    data = taken(trial)
    answer = programs.trial(data)
    return answer if isinstance(answer, Refusal) else own_page(trial.name, data, programs)


def save(page: str, path: Path) -> None:
    try:
        path.parent.mkdir(parents=True, exist_ok=True)
        trialtext.save(path, page.encode("utf-8"))
    except OSError as error:
        raise Trouble(f"{path}: {error.strerror}") from None


def main(words) -> int:
    asked, programs = arguments(words), Programs()
    try:
        page = made(asked.trial, programs)
        if isinstance(page, Refusal):
            print(f"refused {page.number}\n{MEANINGS.get(page.number, '')}")
            return 1
        save(page, asked.out)
    except Trouble as trouble:
        print(trouble, file=sys.stderr)
        return 1
    print(f"{asked.out}: {programs.runs} runs of the proved programs, {programs.seconds():.1f} s", file=sys.stderr)
    return 0


if __name__ == "__main__":
    sys.exit(main(sys.argv[1:]))
