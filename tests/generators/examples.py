"""The examples of document 01 by name, starred and not; trials with offers set aside; trials of shops."""

from dataclasses import replace
from itertools import product

from reference.designs import Paired
from reference.trial import make_trial, rows_of, table_of
from reference.trialfile import LONGEST, bytes_of, write

from .files import LONGEST_REPORT, SHOPS, W
from .kinds import BalancedRunCase, FileCase, RecordCase, TableCase, WalkCase
from .trials import W_OFFERS

W_WORDS = (0x10004004, 0x20010203, 0x3400002A, 0x31000007, 0x40000005, 0x40000003, 0x40000004,
           0x40000002, 0x4FFFFFFF, 0x40000001, 0xF000000A)
P = tuple(map(float, (9, 8, 3, 4, 1, 2, 0, 4, 5, 1, 0, 1)))
# Document 02, §4: W with an offer that never sold; none, fewer than k, and just k that sold; differences that cancel;
# offers that sold in one pair.
ASIDE = {
    "w": make_trial((1, 4), 1, [*W_OFFERS, ("04711", (0, 0, 0))]),
    "all": make_trial((1, 4), 2, [("0042", (0, 0, 0)), ("7", (0, 0, 0)), ("04711", (0, 0, 0))]),
    "few": make_trial((1, 2), 2, [("0042", (0, 0, 0)), ("7", (2, -1, 1)), ("04711", (0, 0, 0))]),
    "k-left": make_trial((1, 4), 2, [("04711", (0, 0, 0)), *W_OFFERS]),
    "cancelling": make_trial((1, 4), 2, [("5", (5, -5, 0)), ("04711", (0, 0, 0)), ("3", (3, -1, -2))]),
    "once": make_trial((1, 2), 1, [("1", (0, 0, 1)), ("04711", (0, 0, 0)), ("2", (-1, 0, 0))]),
}
# Document 02, §6: shops without partners. Equal figures in all shops, zeros or not; equal ones in all but one; figures
# that are larger in the shops that are not treated; all but one of the shops treated.
UNPAIRED = {
    "4-of-2": SHOPS,
    "4-of-2-1-3": replace(SHOPS, b=3),
    "4-of-2-k2": replace(SHOPS, a=1, b=2, k=2),
    "2-of-1": make_trial((1, 2), 1, [("0042", (3, 1)), ("7", (1, 3)), ("04711", (5, 5))], 1),
    "aside": make_trial((1, 3), 1, [("0042", (9, 7, 2, 4)), ("11", (6, 6, 6, 6)), ("12", (0, 0, 0, 0)),
                                    ("13", (6, 6, 6, 7)), ("7", (3, -1, 5, 1))], 2),
    "few": make_trial((1, 2), 2, [("0042", (-1, -1, -1)), ("7", (2, 0, 1)), ("04711", (0, 0, 0))], 1),
    "all-aside": make_trial((1, 2), 2, [("0042", (8, 8, 8)), ("7", (-3, -3, -3))], 2),
    "all-but-one": make_trial((1, 4), 1, [("0042", (9, 8, 7, 1)), ("7", (1, 2, 3, 9))], 3),
}


def example_cases(_rng):
    """All examples; nothing is drawn."""
    yield from starred()
    yield from unstarred()
    yield from aside()
    yield from unpaired()


def starred():
    """The examples that are proved too."""
    yield FileCase("example-w", bytes_of(W_WORDS), 16, LONGEST_REPORT)
    for name, change in (("as-printed", {}), ("1-8", dict(b=8)), ("1-9", dict(b=9)),
                         ("7-8", dict(a=7, b=8)), ("k2", dict(k=2)), ("k2-1-9", dict(k=2, b=9))):
        trial = replace(W, **change)
        yield FileCase(f"example-w-file-{name}", write(trial), 2, LONGEST_REPORT)
        yield RecordCase(f"example-w-record-{name}", trial, 44, 16, 8)
        yield WalkCase(f"example-w-walk-{name}", tuple(table_of(trial)), 8, 2, trial.k, trial.a,
                       trial.b, 0, 8)
    for row in range(8):
        yield TableCase(f"example-w-row-{row}", tuple(table_of(W)), 8, 2, 1, 1, 4, row, 8)
    for kind, viewed in product((TableCase, WalkCase), (False, True)):
        name = kind.__name__ + "-viewed" * viewed
        yield kind(f"example-p-{name}", P, 4, 3, 2, 1, 4, 0, 4, viewed)
        yield kind(f"example-one-{name}", (-3.5,), 1, 1, 1, 1, 2, 0, 1, viewed)
        yield kind(f"example-zeros-{name}", (0.0, -0.0), 2, 1, 1, 1, 2, 0, 2, viewed)


def unstarred():
    """The ends of the ranges: pairs, offers, codes, rows."""
    for offers, pairs in ((1, 9), (1, 10), (16, 1), (17, 1), (16, 9)):
        yield FileCase(f"example-{offers}-offers-{pairs}-pairs", shaped(offers, pairs), 16,
                       LONGEST_REPORT)
    for name, change in (("pairs-9", dict(design=Paired(9))), ("pairs-10", dict(design=Paired(10))),
                         ("offers-16", dict(offers=16)), ("offers-17", dict(offers=17))):
        codes = tuple(range(16))
        trial = replace(W, **{**change, "codes": codes, "digits": (2,) * 16})
        yield RecordCase(f"example-record-{name}", trial, LONGEST, 8192, 512)
    for code in (9_999_999, 10_000_000):
        trial = make_trial((1, 2), 1, [(str(code), (1,))])
        trial = replace(trial, digits=(7,) + trial.digits[1:])
        yield RecordCase(f"example-record-code-{code}", trial, 20, 2, 2)
        words = (1 << 28 | 1 << 14 | 2, 0x20010101, 0x37000000 | code, 0x40000001, 0xF0000004)
        yield FileCase(f"example-code-{code}", bytes_of(words), 1, LONGEST_REPORT)
    for rows in (4096, 4097):
        values = tuple(float(g) for g in range(rows))
        yield WalkCase(f"example-begin-{rows}", (), rows, 1, 1, 1, 4096, rows - 1, 0)
        yield TableCase(f"example-rows-{rows}", values, rows, 1, 1, 1, 4096, 4095, rows)


def aside():
    """Trials with offers set aside, and W's one as a table that is handed in: there the zeros are a column as any."""
    for name, trial in ASIDE.items():
        data = write(trial)
        yield FileCase(f"example-aside-{name}", data, trial.offers, LONGEST_REPORT)
        yield RecordCase(f"example-aside-record-{name}", trial, len(data), 8 * trial.offers, 8)
    for kind in (TableCase, WalkCase, BalancedRunCase):
        room = dict(out_room=24) if kind is BalancedRunCase else {}
        yield kind(f"example-aside-{kind.__name__}", tuple(table_of(ASIDE["w"])), 8, 3, 1, 1, 4, 0, 8,
                   **room)


def unpaired():
    """Trials of shops, as files and as records."""
    for name, trial in UNPAIRED.items():
        data, rows = write(trial), rows_of(trial)
        yield FileCase(f"example-shops-{name}", data, trial.offers, LONGEST_REPORT)
        yield RecordCase(f"example-shops-record-{name}", trial, len(data), rows * trial.offers, rows)


def shaped(offers, pairs):
    """A file of that shape, with its words counted truly."""
    words = [0x10004004, 2 << 28 | 1 << 16 | offers << 8 | pairs]
    words += [3 << 28 | 2 << 24 | i for i in range(offers)]
    words += [4 << 28 | i for i in range(offers * pairs)]
    return bytes_of(words + [15 << 28 | len(words)])
