"""Trial files, valid and damaged: refusals 1 to 8 and 15, alone and before one another."""

from itertools import chain, combinations

from reference.designs import Paired, Unpaired
from reference.report import report
from reference.trial import make_trial, rows_of
from reference.trialfile import LONGEST, bytes_of, words_of, write

from .aside import aside_trials, some_aside_shop_trial, some_aside_trial, sold_somewhere
from .designs import some_unpaired
from .kinds import FileCase
from .trials import (BASE, SHOPS_BASE, W_OFFERS, some_shop_trial, some_trial, valid_shop_trials,
                     valid_trials)

KINDS = range(16)
LONGEST_REPORT = 3000  # more than any report has
W = make_trial((1, 4), 1, W_OFFERS)
SHOPS = make_trial((1, 6), 1, [("0042", (9, 7, 2, 4)), ("7", (3, -1, 5, 1))], 2)
# The longest file of pairs, and the longest of all, of shops.
FULL_PAIRS = write(make_trial((1, 3), 4, [(f"{i:07}", [i - 8] * 9) for i in range(16)]))
FULL_SHOPS = write(make_trial((1, 3), 4, [(f"{i:07}", range(i, i + 10)) for i in range(16)], 5))


def file_cases(rng):
    """Each shape of a trial once, and damaged files; then the same of trials with offers set aside; then of shops."""
    yield from cases_of_files(rng, "file", valid_trials(rng, 1), damaged(rng))
    sizes = [(offers, Paired(pairs)) for offers, pairs in ((1, 1), (2, 3), (3, 1), (4, 4), (16, 2))]
    yield from cases_of_files(rng, "file-aside", aside_trials(rng, sizes),
                              random_damage(rng, 20, some_aside_trial))
    yield from cases_of_files(rng, "file-shops", valid_shop_trials(rng, 1), damaged_shops(rng))
    yield from cases_of_files(rng, "file-shops-aside", aside_trials(rng, ((3, Unpaired(3, 1)),)), ())


def further_file_cases(rng):
    """More of each, and each two defects together."""
    yield from cases_of_files(rng, "further", valid_trials(rng, 3), further_damaged(rng))
    sizes = [(offers, Paired(pairs)) for offers in range(1, 17)
             for pairs in rng.sample(range(1, 10), 2)]
    yield from cases_of_files(rng, "further-aside", chain(aside_trials(rng, sizes), sold_somewhere()),
                              random_damage(rng, 300, some_aside_trial))
    yield from cases_of_files(rng, "further-shops", valid_shop_trials(rng, 12),
                              further_damaged_shops(rng))
    sizes = [(offers, some_unpaired(rng)) for offers in range(1, 17)]
    yield from cases_of_files(rng, "further-shops-aside", aside_trials(rng, sizes),
                              random_damage(rng, 100, some_aside_shop_trial))


def cases_of_files(rng, family, trials, damaged_files):
    """Valid and damaged files as cases."""
    for name, trial in trials:
        room = rng.choice((0, trial.offers - 1, trial.offers, 16, 16, 16, 16, 20))
        data = write(trial)
        yield FileCase(f"{family}-valid-{name}", data, room, report_room(rng, data, rows_of(trial)))
    for name, data in damaged_files:
        yield FileCase(f"{family}-{name}", data, rng.choice((0, 1, 16)), report_room(rng, data))


def report_room(rng, data, rows=2):
    """Room for the report: plenty, or, where it is quickly known, as much as it takes or near that."""
    if rows > 32 or rng.random() < 0.5:
        return LONGEST_REPORT
    return max(0, len(report(data)) + rng.choice((-1, -1, 0, 0, 0, 1, 9, -1000)))


def damaged(rng):
    """(name, bytes) of files that are damaged, most of them to be refused."""
    yield from damaged_lengths(rng)
    yield from damaged_words("w", words_of(write(W)))
    yield from damaged_ends()
    yield from defects_alone(BASE)
    yield from ((f"{name}-odd", data + b"\0") for name, data in defects_alone(BASE))
    yield from defects_paired(BASE, PAIRED)
    yield from random_damage(rng, 100)


def damaged_shops(rng):
    """The same of files of shops."""
    yield from damaged_fields("shops", words_of(write(SHOPS)))
    yield from lengths_between((656, LONGEST, LONGEST + 4), (656, 672, 712))
    yield from defects_alone(SHOPS_BASE)
    yield from defects_paired(SHOPS_BASE, SHOPS_PAIRED)
    yield from random_damage(rng, 20, some_shop_trial)


def further_damaged(rng):
    """(name, bytes) of more such files."""
    yield from damaged_kinds("w", words_of(write(W)))
    yield from defects_paired(BASE, defects(BASE))
    yield from random_damage(rng, 800)


def further_damaged_shops(rng):
    """The same of files of shops."""
    yield from damaged_words("shops", words_of(write(SHOPS)))
    yield from damaged_kinds("shops", words_of(write(SHOPS)))
    yield from lengths_between(range(652, LONGEST + 8), range(652, LONGEST))
    yield from defects_paired(SHOPS_BASE, defects(SHOPS_BASE))
    yield from random_damage(rng, 400, some_shop_trial)


def damaged_lengths(rng):
    """Refusal 1, and files cut at every byte."""
    data = write(W)
    for length in range(len(data)):
        yield f"cut-{length}", data[:length]
    for extra in (1, 2, 3):
        yield f"odd-{extra}", data + bytes(extra)
    yield "longest-pairs", FULL_PAIRS
    yield "longest", FULL_SHOPS
    yield "longest-cut", FULL_SHOPS[:-4]
    yield "longest-end-in-excess", FULL_SHOPS + FULL_SHOPS[-4:]
    for length in (LONGEST + 1, LONGEST + 3, LONGEST + 4, 2 * LONGEST):
        yield f"too-long-{length}", FULL_SHOPS + rng.randbytes(length - LONGEST)
    for length in (4, 8, 44, LONGEST):
        yield f"all-zero-{length}", bytes(length)
        yield f"all-one-{length}", b"\xff" * length


def lengths_between(more, cut):
    """The longest file of pairs with so many bytes, words after its end; and that of shops cut to so many."""
    for length in more:
        yield f"pairs-to-{length}", FULL_PAIRS + bytes(length - len(FULL_PAIRS))
    for length in cut:
        yield f"shops-to-{length}", FULL_SHOPS[:length]


def damaged_kinds(name, words):
    """Each word with each other kind."""
    for place, word in enumerate(words):
        for kind in KINDS:
            if kind != word >> 28:
                yield f"{name}-kind-{place}-{kind}", bytes_of(
                    words[:place] + [kind << 28 | word & 0xFFF_FFFF] + words[place + 1:])


# The lowest bit of each field by kind of word, and the sign of a figure.
FIELDS = {1: (14, 0), 2: (24, 16, 8, 0), 3: (24, 0), 4: (27, 0), 5: (24, 16, 8, 0), 15: (0,)}


def damaged_fields(name, words):
    """Each word with each bit of its kind flipped, and with one bit of each field."""
    for place, word in enumerate(words):
        for bit in (31, 30, 29, 28, *FIELDS[word >> 28]):
            yield f"{name}-field-{place}-{bit}", bytes_of(
                words[:place] + [word ^ 1 << bit] + words[place + 1:])


def damaged_words(name, words):
    """Each word with each bit flipped, words swapped, left out, doubled."""
    for place, word in enumerate(words):
        for bit in range(32):
            yield f"{name}-bit-{place}-{bit}", bytes_of(
                words[:place] + [word ^ 1 << bit] + words[place + 1:])
        yield f"{name}-without-{place}", bytes_of(words[:place] + words[place + 1:])
        yield f"{name}-doubled-{place}", bytes_of(words[:place + 1] + words[place:])
        big_endian = int.from_bytes(word.to_bytes(4, "little"), "big")
        yield f"{name}-endian-{place}", bytes_of(words[:place] + [big_endian] + words[place + 1:])
    for one, other in combinations(range(len(words)), 2):
        swapped = list(words)
        swapped[one], swapped[other] = words[other], words[one]
        yield f"{name}-swap-{one}-{other}", bytes_of(swapped)


def damaged_ends():
    """The end's place: any other word there is 2; a wrong count or a later word is 8."""
    body = words_of(write(W))[:-1]
    n = len(body)
    for count in (0, 1, n - 1, n + 1, n + 2, 4 * n, 2 ** 28 - 1):
        yield f"end-count-{count}", bytes_of(body + [15 << 28 | count])
    for kind in KINDS:
        yield f"end-then-kind-{kind}", bytes_of(body + [15 << 28 | n, kind << 28])
        yield f"end-later-kind-{kind}", bytes_of(body + [kind << 28 | 1, 15 << 28 | n + 1])
    yield "end-wrong-then-words", bytes_of(body + [15 << 28 | 3, 0, 0])
    yield "end-wrong-then-right", bytes_of(body + [15 << 28 | n + 1, 15 << 28 | n])


def put(place, word):
    """A defect: this word in that place."""
    return lambda words: words[:place] + [word] + words[place + 1:]


def other_kind(place):
    """A defect: the word in that place has another kind, its value unchanged."""
    return lambda words: [w ^ 0x5000_0000 if i == place else w for i, w in enumerate(words)]


def shape(k, offers, pairs, high=0):
    return 2 << 28 | high << 24 | k << 16 | offers << 8 | pairs


def shops_shape(k, offers, shops, treated):
    return 5 << 28 | k << 24 | offers << 16 | shops << 8 | treated


# Other shape words, for two pairs and for three shops with two treated.
SHAPES = {
    Paired: {"4-k-" + str(k): shape(k, 3, 2) for k in (0, 4, 5, 255)}
            | {"4-offers-" + str(n): shape(1, n, 2) for n in (0, 17, 255)}
            | {"4-pairs-" + str(n): shape(2, 3, n) for n in (0, 10, 255)}
            | {"4-high-" + str(h): shape(2, 3, 2, h) for h in (1, 8, 15)}
            | {"4-as-shops": shape(2, 3, 2) ^ 7 << 28},
    Unpaired: {"4-k-" + str(k): shops_shape(k, 3, 3, 2) for k in (0, 4, 5, 15)}
              | {"4-offers-" + str(n): shops_shape(1, n, 3, 2) for n in (0, 17, 255)}
              | {"15-shops-" + str(n): shops_shape(2, 3, n, 2) for n in (0, 1, 2, 11, 255)}
              | {"15-treated-" + str(n): shops_shape(2, 3, 3, n) for n in (0, 3, 4, 255)}
              | {"15-one-shop": shops_shape(2, 3, 1, 1), "15-both": shops_shape(2, 3, 11, 0),
                 "4-and-15": shops_shape(0, 3, 11, 0), "4-k-and-15": shops_shape(4, 3, 3, 0),
                 "4-offers-and-15": shops_shape(1, 17, 3, 3),
                 "4-as-pairs": shops_shape(2, 3, 3, 2) ^ 7 << 28,
                 "2-other-treated": shops_shape(2, 3, 4, 1)},
}


def offer(digits, number):
    return 3 << 28 | digits << 24 | number


def defects(base):
    """Named defects of the file of BASE or SHOPS_BASE: words level, shape, 3 offers, figures, end."""
    end = 5 + 3 * base.design.units
    listed = {f"2-kind-{place}": other_kind(place) for place in (0, 1, 2, 4, 5, end - 1, end)}
    listed |= {f"2-missing-{place}": (lambda words, place=place: words[:place])
               for place in (1, 2, 4, 5, end - 1, end)}
    listed |= {f"3-{a}-{b}": put(0, 1 << 28 | a << 14 | b)
               for a, b in ((0, 8), (2, 0), (0, 0), (8, 8), (9, 8), (16383, 16383))}
    listed |= {name: put(1, word) for name, word in SHAPES[type(base.design)].items()}
    listed |= {f"5-digits-{d}": put(2, offer(d, 7)) for d in (0, *range(8, 16))}
    listed |= {"5-zero-digits-0": put(2, offer(0, 0)), "5-too-many": put(2, offer(2, 100)),
               "5-above-7": put(2, offer(7, 10_000_000)), "5-last": put(4, offer(2, 100)),
               "5-most": put(2, offer(7, 2 ** 24 - 1)), "5-and-6": put(3, offer(0, 7))}
    listed |= {"6-second": put(3, offer(1, 7)), "6-third": put(4, offer(4, 42)),
               "6-third-as-first": put(4, offer(3, 7))}
    listed |= {"7-first": put(5, 0x4800_0000), "7-last": put(end - 1, 0x4800_0000)}
    listed |= {"8-count": put(end, 15 << 28 | end + 1), "8-more": lambda words: words + [0]}
    listed |= {"ok-code-0": put(2, offer(1, 0)), "ok-code-max": put(2, offer(7, 9_999_999)),
               "ok-lowest": put(5, 0x4800_0001), "ok-highest": put(5, 0x47FF_FFFF)}
    return listed


# At least one defect of each number, at an early and at a late place.
PAIRED = ("2-kind-0", "2-kind-1", "2-kind-4", "2-kind-10", "2-kind-11", "2-missing-1",
          "2-missing-2", "2-missing-5", "2-missing-11", "3-0-8", "3-8-8", "4-k-0", "4-offers-17",
          "4-pairs-10", "4-high-1", "5-digits-0", "5-too-many", "5-last", "6-second", "6-third",
          "7-first", "7-last", "8-count", "8-more")
SHOPS_PAIRED = ("2-kind-0", "2-kind-1", "2-missing-2", "2-missing-14", "3-8-8", "4-k-0", "4-offers-17",
                "15-shops-11", "15-treated-3", "5-digits-0", "6-third", "7-last", "8-count")


def defects_alone(base):
    """Each defect alone."""
    words = words_of(write(base))
    for name, defect in defects(base).items():
        yield f"defect-{name}", bytes_of(defect(words))


def defects_paired(base, names):
    """Each two of the defects named.

    The one that is named first is laid on last: another kind, or a cut, over a bad value.
    """
    words, listed = words_of(write(base)), defects(base)
    for one, two in combinations(names, 2):
        yield f"defects-{one}-{two}", bytes_of(listed[one](listed[two](words)))


def random_damage(rng, how_many, trial_of=some_trial):
    """Random trials with one to three random edits."""
    for number in range(how_many):
        words = words_of(write(trial_of(rng, 6, 4)))
        for _ in range(rng.choice((1, 1, 2, 3))):
            place = rng.randrange(len(words))
            edit = rng.randrange(5)
            if edit == 0:
                words[place] ^= 1 << rng.randrange(32)
            elif edit == 1:
                words[place] = rng.getrandbits(32)
            elif edit == 2:
                words.insert(place, words[rng.randrange(len(words))])
            elif edit == 3 and len(words) > 1:
                del words[place]
            else:
                words[place] = words[place] & 0xF000_0000 | words[place - 1] & 0xFFF_FFFF
        yield f"random-{number}", bytes_of(words)
