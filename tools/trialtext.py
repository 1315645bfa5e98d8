#!/usr/bin/env python3
"""Trial files as readable text, and back.

    trialtext.py make FILE < text     packs a text into a trial file
    trialtext.py show < file.trial    prints a trial file as text

The text, in simple lines; '#' starts a comment:

    level 1 4             the level a/b, kept as written
    k 1                   the tolerance
    offer 0042 5 3 4      an offer's printed code, then its difference in cents
    offer 7 2 -1 1        for each pair

or, for shops without partners, with a line more:

    treated 2             how many of the shops are treated
    offer 0042 9 7 2 4    an offer's figure in cents for each shop, the treated
    offer 7 3 -1 5 1      ones first

or, for a file whose words do not stand like that, word by word:

    word 15 8             a word's kind and the value of its other 28 bits

What does not fit the words' bits is answered with its line. Whether the file is
a trial is not judged here: the report program says what it is refused for. A line
ends in LF or CR LF, and a byte order mark may stand first. FILE is written whole
or not at all.
"""

import codecs
import os
import re
import shutil
import struct
import sys
import unicodedata

# kinds of word: bits 31 to 28; the shape of a trial of pairs, and of one of shops
LEVEL, PAIRS, OFFER, FIGURE, SHOPS, END = 1, 2, 3, 4, 5, 15
MOST_BYTES = 2 ** 20  # of an input; no trial comes near


class Bad(Exception):
    """What is wrong with the input, in one line."""


class BadText(Bad):
    """A bad text: line number and message."""

    def __str__(self):
        return "line {}: {}".format(*self.args)


# ---- lines

def hidden(character):
    """Whether an editor would not show a character: a control character or a separator."""
    return character != "\t" and not character.isprintable()


def named(character):
    """A character in plain words."""
    other = "control character" if unicodedata.category(character) == "Cc" else "no letter"
    return f"U+{ord(character):04X} ({unicodedata.name(character, other).lower()})"


def line_text(at, raw):
    """A line's bytes as text that shows all that it holds."""
    try:
        line = raw.decode("utf-8")
    except UnicodeDecodeError as error:
        raise BadText(at, f"byte {raw[error.start]} is no UTF-8 text") from None
    for character in filter(hidden, line):
        raise BadText(at, f"an editor would not show the character {named(character)}")
    return line


def lines_of(text):
    """Each line of a text, split at spaces and tabs, without its comment."""
    text = text.removeprefix(codecs.BOM_UTF8).replace(b"\r\n", b"\n")
    return [line_text(at, raw).partition("#")[0].split()
            for at, raw in enumerate(text.rstrip(b"\n").split(b"\n"), 1)]


# ---- packing

def whole(at, text, low, high, what):
    """The whole number that the text writes, if it fits its bits."""
    if not re.fullmatch("[+-]?[0-9]{1,20}", text) or not low <= int(text) <= high:
        raise BadText(at, f"{what} must be a whole number from {low} to {high}, not {text[:40]!a}")
    return int(text)


def unsigned(at, fields, name, *bits):
    """The numbers of a line, which fit so many bits each."""
    if len(fields) != len(bits):
        raise BadText(at, f"'{name}' needs {' and '.join(['a number'] * len(bits))}")
    return [whole(at, field, 0, 2 ** n - 1, f"a number of '{name}'")
            for field, n in zip(fields, bits)]


def word(kind, value):
    return kind << 28 | value


def offer_words(at, fields):
    """An offer line as words: the offer, then its figures."""
    code = fields[0] if fields else ""
    if not re.fullmatch("[0-9]{1,15}", code) or int(code) >= 2 ** 24:
        raise BadText(at, "an offer needs a code of 1 to 15 digits, "
                          f"below {2 ** 24}, not {code[:40]!a}")
    cents = [whole(at, field, -2 ** 27, 2 ** 27 - 1, "a figure") for field in fields[1:]]
    return [word(OFFER, len(code) << 24 | int(code)),
            *(word(FIGURE, cent % 2 ** 28) for cent in cents)]


LINES = {
    "level": lambda at, fields: unsigned(at, fields, "level", 14, 14),
    "k": lambda at, fields: unsigned(at, fields, "k", 8),
    "treated": lambda at, fields: unsigned(at, fields, "treated", 8),
    "offer": offer_words,
    "word": lambda at, fields: word(*unsigned(at, fields, "word", 4, 28)),
}


def only(found, name, last):
    """What the one line of that name holds."""
    if not found[name]:
        raise BadText(last, f"the text ends with no '{name}' line")
    if len(found[name]) > 1:
        raise BadText(found[name][1][0], f"a second '{name}' line")
    return found[name][0][1]


def units_of(offers):
    """How many figures each offer has: the file has one number for all."""
    at, words = offers[0] if offers else (1, [0])
    for other, listed in offers:
        if len(listed) != len(words):
            raise BadText(other, f"{len(listed) - 1} figures, "
                                 f"where line {at} has {len(words) - 1}")
    if len(words) > 256:
        raise BadText(at, "more than 255 figures")
    return len(words) - 1


def shape_word(found, last, k, offers, units):
    """Of pairs, or of shops where a line tells how many are treated; that word has fewer bits for k."""
    if not found["treated"]:
        return word(PAIRS, k << 16 | offers << 8 | units)
    (treated,) = only(found, "treated", last)
    if k > 15:
        raise BadText(found["k"][0][0], f"k must be at most 15 with a 'treated' line, not {k}")
    return word(SHOPS, k << 24 | offers << 16 | units << 8 | treated)


def trial_words(found, last):
    """The words of a trial."""
    (a, b), (k,), offers = only(found, "level", last), only(found, "k", last), found["offer"]
    units = units_of(offers)
    if len(offers) > 255:
        raise BadText(offers[255][0], "more than 255 offers")
    words = [word(LEVEL, a << 14 | b), shape_word(found, last, k, len(offers), units)]
    words += [listed[0] for _, listed in offers]
    words += [figure for _, listed in offers for figure in listed[1:]]
    return words + [word(END, len(words))]


def plain_words(found):
    """The words that a text lists."""
    others = [at for name in LINES if name != "word" for at, _ in found[name]]
    if others:
        raise BadText(min(others), "a text with 'word' lines has no others")
    return [listed for _, listed in found["word"]]


def pack(lines):
    """The words of a text's lines."""
    found = {name: [] for name in LINES}
    for at, line in enumerate(lines, 1):
        name, *fields = line or [""]
        if name in LINES:
            found[name].append((at, LINES[name](at, fields)))
        elif name:
            raise BadText(at, f"{name[:40]!a} is none of {', '.join(LINES)}")
    return plain_words(found) if found["word"] else trial_words(found, len(lines))


def make(text):
    """The trial file of a text."""
    words = pack(lines_of(text))
    return struct.pack(f"<{len(words)}I", *words)


# ---- showing

def shape_of(shape):
    """What the figures are of, how many for each offer, the offers, and the lines of a shape word.

    One that is no shape word is taken for that of pairs.
    """
    high, third, second, last = shape >> 24 & 15, shape >> 16 & 255, shape >> 8 & 255, shape & 255
    if shape >> 28 == SHOPS:
        return "shops", second, third, [f"k {high}", f"treated {last}"]
    return "pairs", last, second, [f"k {third}"]


def trial_lines(words):
    """Words as the lines of a trial, whatever they are."""
    level, shape = (words + [0])[:2]
    name, units, offers, lines = shape_of(shape)
    yield f"# offers: {offers}, {name}: {units}"
    yield f"level {level >> 14 & 2 ** 14 - 1} {level & 2 ** 14 - 1}"
    yield from lines
    for i, offer in enumerate(words[2:2 + offers]):
        code = str(offer & 2 ** 24 - 1).zfill(offer >> 24 & 15)
        first = 2 + offers + i * units
        cents = [(w + 2 ** 27) % 2 ** 28 - 2 ** 27 for w in words[first:first + units]]
        yield " ".join(map(str, ["offer", code, *cents]))


def makes(text, data):
    """Whether a text makes this file."""
    try:
        return make(text.encode()) == data
    except BadText:
        return False


def show(data):
    """The text of a file: as a trial if that makes the file again, and else word by word."""
    if not data or len(data) % 4 != 0:
        raise Bad(f"{len(data)} bytes are no words of 4 bytes each")
    words = list(struct.unpack(f"<{len(data) // 4}I", data))
    text = "".join(line + "\n" for line in trial_lines(words))
    if makes(text, data):
        return text
    return "".join(f"word {w >> 28} {w % 2 ** 28}\n" for w in words)


# ---- files

def taken():
    """Standard input, whole."""
    try:
        with open(0, "rb", closefd=False) as given:
            data = given.read(MOST_BYTES + 1)
    except OSError as error:
        raise Bad(f"standard input: {error.strerror}") from None
    if len(data) > MOST_BYTES:
        raise Bad(f"the input is longer than {MOST_BYTES} bytes")
    return data


def put_out(text):
    """Text on standard output. It is opened here, so that nothing is left to write at exit."""
    with open(1, "w", encoding="ascii", closefd=False) as out:
        out.write(text)


def save(path, data):
    """Writes a file whole or not at all: beside its place first, then into it by a renaming."""
    if os.path.exists(path) and not os.path.isfile(path):  # a device or a pipe
        with open(path, "wb") as out:
            out.write(data)
        return
    place = os.path.realpath(path)
    other = os.path.join(os.path.dirname(place), f".trialtext-{os.getpid()}")
    out = open(other, "xb")
    try:
        with out:
            out.write(data)
        if os.path.exists(place):
            open(place, "ab").close()  # one that may not be written stays
            shutil.copymode(place, other)
        os.replace(other, place)
    except BaseException:
        os.unlink(other)
        raise


def main(arguments):
    if arguments != ["show"] and not (arguments[:1] == ["make"] and len(arguments) == 2):
        print(__doc__.strip(), file=sys.stderr)
        return 2
    out = "standard output" if arguments == ["show"] else arguments[1]
    try:
        if arguments == ["show"]:
            put_out(show(taken()))
        else:
            save(out, make(taken()))
    except Bad as bad:
        print(bad, file=sys.stderr)
        return 1
    except OSError as error:
        print(f"{out}: {error.strerror}", file=sys.stderr)
        return 1
    return 0


if __name__ == "__main__":
    sys.exit(main(sys.argv[1:]))
