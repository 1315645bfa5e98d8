"""Places of views: within, at the ends and beyond, of views that their values fill or not."""

import math

from .kinds import LookCase
from .tables import MOST, STYLES, values

CELLS = (5.0, 1.0, -0.0, 4.0, math.nan, -math.inf)


def look_cases(rng):
    """All look cases."""
    for rows, columns in ((3, 2), (2, 3), (6, 1), (1, 6), (4, 2), (2, 4), (2, 2), (0, 2), (3, 0),
                          (MOST, 2), (3, MOST), (MOST, MOST)):
        for row in ends(rows):
            for column in ends(columns):
                yield LookCase(f"look-{rows}x{columns}-{row}-{column}", CELLS, rows, columns, row,
                               column)
    yield LookCase("look-at-nothing", (), 1, 1, 0, 0)
    for number in range(60):
        rows, columns = rng.randint(1, 8), rng.randint(1, 8)
        cells = values(rng, rows, columns, STYLES[number % len(STYLES)], 0)
        yield LookCase(f"look-any-{number}", cells, rows, columns, rng.randint(0, rows),
                       rng.randint(0, columns))


def ends(count):
    """The first places of so many, the last one, and some beyond."""
    return sorted({0, 1, max(count, 1) - 1, min(count, MOST), MOST // max(count, 1), MOST})
