"""What each flow statement of a source lets its jump reach, as docs/machine.md and docs/placement.md tell it."""

ROWS = 32
COLUMNS = 16
STROBE_CELL = (0, 15)

# How many outcomes, and so targets, each statement has.
OUTCOMES = {
    "goto": 1, "strobe": 1, "enable": 1,
    "iff": 2, "ifc": 2, "ifz": 2,
    "onpr": 16, "onpx": 16, "onleft": 4, "onright": 4,
}
# The tests of one flag, whose outcomes land in two columns of the half in which the instruction stands.
FLAG_TESTS = ("iff", "ifc", "ifz")
# The statements with several outcomes.
TESTS = FLAG_TESTS + ("onpr", "onpx", "onleft", "onright")

GROUP = {"enable": 8, "iff": 16, "ifc": 8, "ifz": 8, "onpr": 8, "onpx": 4, "onleft": 8, "onright": 8}
FIRST_COLUMN = {"onpr": 0, "onpx": 0, "onleft": 4, "onright": 12}


def rows_reached(statement, row):
    """The rows that `enable` or a test reaches from a row, in rising order."""
    size = GROUP[statement]
    group = range(row // size * size, row // size * size + size)
    return [reached for reached in group if statement != "onright" or reached % 8 >= 4]


def column_reached(statement, outcome, column):
    """The column in which an outcome of a test lands, for an instruction in some column."""
    if statement in FLAG_TESTS:
        return 8 * (column // 8) + 2 + outcome
    return FIRST_COLUMN[statement] + outcome


def goto_reaches(source, target):
    """Whether a `goto` goes from one cell to another: in one column, in one row, or to row 0 below column 15."""
    return source[1] == target[1] or source[0] == target[0] or (target[0] == 0 and target[1] < 15)
