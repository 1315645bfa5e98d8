"""Reader and writer of trial files (document 01, "The trial file"; document 02, §6)."""

from .designs import DESIGNS
from .refusals import Refused, breaks_3, fill, too_short, trial_breaks_4
from .trial import (CODE_PLACES, FIGURE_PLACES, Trial, padded, breaks_5, breaks_7, trial_refusal,
                    used_figures)

LEVEL, OFFER, FIGURE, END = 1, 3, 4, 15  # the kinds of word but that of the shape
LONGEST = 4 * (1 + 1 + CODE_PLACES + FIGURE_PLACES + 1)  # 716 bytes


class _TurnedAway(Exception):
    """The first bad place of a file; never leaves this module."""

    def __init__(self, number: int):
        super().__init__(number)
        self.number = number


def words_of(data: bytes) -> list:
    """The little-endian words of a file whose length is a multiple of 4."""
    return [int.from_bytes(data[i:i + 4], "little") for i in range(0, len(data), 4)]


def bytes_of(words) -> bytes:
    """The file of these words."""
    return b"".join(word.to_bytes(4, "little") for word in words)


def read(data: bytes):
    """The trial of a file, or the refusal: 1 first, then words from the start."""
    if len(data) == 0 or len(data) % 4 != 0 or len(data) > LONGEST:
        return Refused(1)
    try:
        return _read_words(words_of(data))
    except _TurnedAway as turned_away:
        return Refused(turned_away.number)


def _refuse_if(condition: bool, number: int) -> None:
    if condition:
        raise _TurnedAway(number)


def _word(words, place: int, kinds) -> tuple:
    """The kind of the word at its place and its bits 27-0; refusal 2 if it is missing or of no such kind."""
    _refuse_if(place >= len(words) or words[place] >> 28 not in kinds, 2)
    return words[place] >> 28, words[place] & 0x0FFF_FFFF


def _content(words, place: int, kind: int) -> int:
    """Bits 27-0 of the word at its place, of this kind."""
    return _word(words, place, (kind,))[1]


def _read_words(words) -> Trial:
    level = _content(words, 0, LEVEL)
    a, b = level >> 14, level & 0x3FFF
    _refuse_if(breaks_3(a, b), 3)
    k, offers, design = _read_shape(words, 1)
    codes, digits = _read_offers(words, 2, offers)
    figures = _read_figures(words, 2 + offers, offers * design.units)
    end = 2 + offers + offers * design.units
    count = _content(words, end, END)
    _refuse_if(count != end or len(words) != end + 1, 8)
    return Trial(a, b, k, offers, design, padded(codes, CODE_PLACES),
                 padded(digits, CODE_PLACES), padded(figures, FIGURE_PLACES))


def _read_shape(words, place: int) -> tuple:
    """k, offers and the design: 4 is judged before 15."""
    kind, content = _word(words, place, DESIGNS)
    k, offers, design, spare = DESIGNS[kind].of_content(content)
    _refuse_if(spare != 0 or trial_breaks_4(k, offers, design), 4)
    _refuse_if(design.breaks_15(), 15)
    return k, offers, design


def _read_offers(words, first: int, offers: int):
    codes, digits = [], []
    for place in range(first, first + offers):
        content = _content(words, place, OFFER)
        printed, code = content >> 24, content & 0xFF_FFFF
        _refuse_if(breaks_5(code, printed), 5)
        _refuse_if(code in codes, 6)
        codes.append(code)
        digits.append(printed)
    return codes, digits


def _read_figures(words, first: int, how_many: int) -> list:
    figures = []
    for place in range(first, first + how_many):
        content = _content(words, place, FIGURE)
        figure = content - 2 ** 28 if content >= 2 ** 27 else content
        _refuse_if(breaks_7(figure), 7)
        figures.append(figure)
    return figures


def write(trial: Trial, buffer=None):
    """The file of a trial, laid in the lent buffer's first places; or a refusal."""
    number = trial_refusal(trial)
    if number is not None:
        return Refused(number)
    data = bytes_of(_trial_words(trial))
    if too_short(buffer, len(data)):
        return Refused(12)
    fill(buffer, data)
    return data


def _trial_words(trial: Trial) -> list:
    words = [LEVEL << 28 | trial.a << 14 | trial.b,
             trial.design.KIND << 28 | trial.design.content(trial.k, trial.offers)]
    for i in range(trial.offers):
        words.append(OFFER << 28 | trial.digits[i] << 24 | trial.codes[i])
    for figure in used_figures(trial):
        words.append(FIGURE << 28 | figure % 2 ** 28)
    return words + [END << 28 | len(words)]
