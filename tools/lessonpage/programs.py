"""The proved programs: target/bin/report on trial files, and target/bin/vectors on tables, which have no report."""

import struct
import subprocess
import sys
import time

from . import paths
from .answers import Answer, Step, Trouble, Verdict, told, whole
from .trials import Table

from frames import frame  # of the tests, which `paths` has put within reach
from generators.kinds import StepCase, TableCase
from reference.run import begin


class Programs:
    """They are run once for each input, and say on standard error how long they have been at work."""

    def __init__(self):
        self.begun, self.said = time.monotonic(), 0
        self.runs, self.known = 0, {}

    def seconds(self) -> float:
        return time.monotonic() - self.begun

    def tell(self, words: str) -> None:
        self.said = int(self.seconds())
        print(f"{self.seconds():.1f} s, {self.runs} runs of the proved programs: {words}", file=sys.stderr, flush=True)

    def printed(self, program: str, data: bytes) -> str:
        """What a program prints for an input."""
        if (program, data) not in self.known:
            self.known[program, data] = output(program, data)
            self.runs += 1
            if int(self.seconds()) > self.said:
                self.tell("going on")
        return self.known[program, data]

    def trial(self, data: bytes):
        """The full run of a trial file, or its refusal."""
        try:
            return told(self.printed("report", data))
        except (ValueError, IndexError):
            raise Trouble("target/bin/report printed something else than a report") from None

    def table(self, table: Table) -> Answer:
        """The full run of an accepted table."""
        try:
            return table_answer(table, self.printed("vectors", step_frames(table)))
        except (ValueError, IndexError):
            raise Trouble("target/bin/vectors printed something else than the answers to its cases") from None


def output(program: str, data: bytes) -> str:
    try:
        done = subprocess.run([paths.PROGRAMS / program], input=data, capture_output=True)
    except FileNotFoundError:
        raise Trouble(f"target/bin/{program} is not there: make lesson proves and builds it") from None
    except OSError as error:
        raise Trouble(f"target/bin/{program}: {error.strerror}") from None
    if done.returncode != 0:
        raise Trouble(f"target/bin/{program} ended with status {done.returncode}")
    return done.stdout.decode("ascii", "replace")


# ---- tables

def step_frames(table: Table) -> bytes:
    """The table's run step by step, and each column by itself, which tells its count."""
    values = tuple(value for row in table.rows for value in row)
    rows, columns = len(table.rows), len(table.rows[0])
    run = begin(rows, columns, table.k, *table.level, table.observed)
    return frame(StepCase("steps", run, values, rows)) + b"".join(
        frame(TableCase("count", tuple(column), rows, 1, 1, *table.level, table.observed, rows))
        for column in table.columns())


def value_of(number: int) -> float:
    """The value of a number that `vectors` prints."""
    return struct.unpack(">d", (number % 2 ** 24 << 40 | number >> 24).to_bytes(8, "big"))[0]


def numbers(text: str, name: str) -> list:
    """The numbers of the lines of that name; after those beyond its room a line has a checksum."""
    return [[int(word, 16) for word in line.split()[1:] if word[0] != "#"] for line in text.splitlines()
            if line.startswith(f"{name} ")]


def table_answer(table: Table, text: str) -> Answer:
    """A step has its record in places 1 to 4, and the rejected set in place 11; a run's first count is in place 10."""
    taken = [words for words in numbers(text, "step") if words[0] == 0]
    steps = tuple(Step(words[1], whole(value_of(words[2]))) for words in taken)
    verdicts = []
    for j, run in enumerate(numbers(text, "run")):
        rejecting = [words[1] for words in taken if words[11] >> j & 1]
        word, at = ("rejected", rejecting[0]) if rejecting else ("kept", len(steps))
        verdicts.append(Verdict(table.codes[j], word, at, run[10]))
    return Answer(table.e, len(table.rows), steps, tuple(verdicts))
