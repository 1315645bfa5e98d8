"""Refusal numbers and shared conditions (document 01, "Turned away because of ..."; document 02, §6)."""

from dataclasses import dataclass

MAX_B = 16_383
MAX_K = 4
MAX_PAIRS = 9
MIN_SHOPS, MAX_SHOPS = 2, 10
MAX_OFFERS = 16
MAX_ROWS = 4_096
MAX_COLUMNS = 32
MAX_STEPS = 32
MAX_DIFFERENCE = 134_217_727
MAX_DIGITS = 7


@dataclass(frozen=True)
class Refused:
    """A call turned away; it answers its number alone."""

    number: int


def breaks_3(a: int, b: int) -> bool:
    """Refusal 3: a or b zero, a >= b, or b above 16,383."""
    return a == 0 or b == 0 or a >= b or b > MAX_B


def trial_breaks_4(k: int, offers: int, design) -> bool:
    """Refusal 4 for a trial: a count or k outside its range, or k above the offers."""
    return design.breaks_4() or not (1 <= offers <= MAX_OFFERS
                                     and 1 <= k <= MAX_K
                                     and k <= offers)


def table_breaks_4(rows: int, columns: int, k: int) -> bool:
    """Refusal 4 for a table: rows, columns or k outside its range, or k above the columns."""
    return not (1 <= rows <= MAX_ROWS
                and 1 <= columns <= MAX_COLUMNS
                and 1 <= k <= MAX_K
                and k <= columns)


def too_short(buffer, needed: int) -> bool:
    """Refusal 12: a lent buffer is too short. None stands for one long enough."""
    return buffer is not None and len(buffer) < needed


def fill(buffer, content) -> None:
    """Lay the content in the first places of a lent buffer; places beyond are unchanged."""
    if buffer is not None:
        buffer[:len(content)] = content
