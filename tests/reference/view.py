"""A view of lent values, row after row (document 01, "From pairs to a table")."""

OUTSIDE = None  # a place that the view or its values have not


def entry(values, rows, columns, row, column):
    """The value at a row and a column, both from 0."""
    if row not in range(rows) or column not in range(columns):
        return OUTSIDE
    return dict(enumerate(values)).get(row * columns + column, OUTSIDE)
