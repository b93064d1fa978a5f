"""The rows of a book's text."""

# The header of a book's text.
COLUMNS = "row," + ",".join(f"c{n}" for n in range(1, 15))


def row(*columns):
    """A row of a book's text; the columns that are missing here are empty."""
    return ",".join([*map(str, columns), *[""] * (15 - len(columns))])
