"""The clauses of a source's placement, made from docs/placement.md alone and not from the program's code.

    python3 bench/clauses.py SOURCE > SOURCE.cnf

prints them in DIMACS, the form that SAT solvers read. Variables and clauses have the numbers of
docs/placement.md, so a refutation that `make` saves can be judged against this list.
"""
import itertools
import sys

from program import read_program
from statements import COLUMNS, FLAG_TESTS, ROWS, TESTS, column_reached, rows_reached


class Variables:
    """The numbers of the variables of n labels."""

    def __init__(self, labels):
        self.labels = labels
        self.differ_from = 48 * labels
        self.way_from = self.differ_from + labels * (labels - 1) // 2
        self.count = self.way_from + 3 * labels

    def row(self, label, row):
        """True where the label has the row."""
        return 48 * label + row + 1

    def col(self, label, column):
        """True where the label has the column."""
        return 48 * label + 33 + column

    def differ(self, label, other):
        """True where the rows of two labels differ."""
        low, high = sorted((label, other))
        return self.differ_from + high * (high - 1) // 2 + low + 1

    def way(self, label, way):
        """True where the label's `goto` goes within one column (0), to row 0 (1), within one row (2)."""
        return self.way_from + 3 * label + way + 1


def one_cell(variables, label):
    """Class 1: the label has one row and one column."""
    rows = [variables.row(label, row) for row in range(ROWS)]
    columns = [variables.col(label, column) for column in range(COLUMNS)]
    yield rows
    yield columns
    for numbers in (rows, columns):
        for one, other in itertools.combinations(numbers, 2):
            yield [-one, -other]


def cells_differ(variables, low, high):
    """Class 2: the cells of two labels differ in their rows or in their columns."""
    differ = variables.differ(low, high)
    for row in range(ROWS):
        yield [-differ, -variables.row(low, row), -variables.row(high, row)]
    for column in range(COLUMNS):
        yield [differ, -variables.col(low, column), -variables.col(high, column)]


def fixed(variables, program):
    """Class 3: pins, the start, and the row bound."""
    for label, row, column in program.pins + ((program.start, 0, 0),):
        yield [variables.row(label, row)]
        yield [variables.col(label, column)]
    for label in range(variables.labels):
        for row in range(program.rows, ROWS):
            yield [-variables.row(label, row)]


def goto_clauses(variables, source, target):
    """Class 4, `goto`: one of three ways leads to the target."""
    within_column, to_row_0, within_row = (variables.way(source, way) for way in range(3))
    yield [within_column, to_row_0, within_row]
    for column in range(COLUMNS):
        yield [-within_column, -variables.col(source, column), variables.col(target, column)]
    yield [-to_row_0, variables.row(target, 0)]
    yield [-to_row_0, -variables.col(target, 15)]
    for row in range(ROWS):
        yield [-within_row, -variables.row(source, row), variables.row(target, row)]


def strobe_clauses(variables, target):
    """Class 4, `strobe`: the target is in row 0, column 15."""
    yield [variables.row(target, 0)]
    yield [variables.col(target, 15)]


def rows_clauses(variables, statement, source, target):
    """For each row of the source: the target is in a row that the statement reaches from there."""
    for row in range(ROWS):
        reached = [variables.row(target, other) for other in rows_reached(statement, row)]
        yield [-variables.row(source, row)] + reached


def enable_clauses(variables, source, target):
    """Class 4, `enable`: the target is in the source's column and in its group of eight rows."""
    for column in range(COLUMNS):
        yield [-variables.col(source, column), variables.col(target, column)]
    yield from rows_clauses(variables, "enable", source, target)


def outcome_columns(variables, statement, source, outcome, target):
    """The target of an outcome is in the column in which that outcome lands."""
    if statement not in FLAG_TESTS:
        yield [variables.col(target, column_reached(statement, outcome, 0))]
        return
    for column in range(COLUMNS):
        landing = column_reached(statement, outcome, column)
        yield [-variables.col(source, column), variables.col(target, landing)]


def test_clauses(variables, source, instruction):
    """Class 4, a test: its targets are in one row that it reaches, each in its outcome's column."""
    statement = instruction.statement
    first_outcome, first_target = instruction.first()
    yield from rows_clauses(variables, statement, source, first_target)
    for outcome, target in enumerate(instruction.targets):
        if target is None:
            continue
        if outcome != first_outcome:
            for row in range(ROWS):
                yield [-variables.row(first_target, row), variables.row(target, row)]
        yield from outcome_columns(variables, statement, source, outcome, target)


def jump_clauses(variables, source, instruction):
    """Class 4: the instruction has a jump that lands on its labels."""
    if instruction.statement in TESTS:
        return test_clauses(variables, source, instruction)
    target = instruction.targets[0]
    if instruction.statement == "goto":
        return goto_clauses(variables, source, target)
    if instruction.statement == "strobe":
        return strobe_clauses(variables, target)
    return enable_clauses(variables, source, target)


def trap_clauses(variables, instruction):
    """Class 5: where a trap outcome lands no label is."""
    first_outcome, first_target = instruction.first()
    statement = instruction.statement
    for outcome in instruction.traps():
        for label in range(variables.labels):
            if label == first_target:
                continue
            differ = variables.differ(first_target, label)
            if statement not in FLAG_TESTS:
                yield [differ, -variables.col(label, column_reached(statement, outcome, 0))]
                continue
            for half in (0, 8):
                yield [differ, -variables.col(first_target, column_reached(statement, first_outcome, half)),
                       -variables.col(label, column_reached(statement, outcome, half))]


def clauses_of(program):
    """All clauses of a program, in their order; clause k is item k - 1."""
    variables = Variables(len(program.labels))
    labels = range(variables.labels)
    for label in labels:
        yield from one_cell(variables, label)
    for high in labels:
        for low in range(high):
            yield from cells_differ(variables, low, high)
    yield from fixed(variables, program)
    for source in labels:
        yield from jump_clauses(variables, source, program.instructions[source])
    for source in labels:
        yield from trap_clauses(variables, program.instructions[source])


def true_variables(program, cells):
    """The variables that are true where each label has its cell, a pair of row and column."""
    variables = Variables(len(program.labels))
    true = set()
    for label, (row, column) in enumerate(cells):
        true.update((variables.row(label, row), variables.col(label, column)))
        true.update(variables.differ(other, label) for other in range(label) if cells[other][0] != row)
        if program.instructions[label].statement == "goto":
            true.update(true_ways(variables, label, (row, column), cells[program.instructions[label].targets[0]]))
    return true


def true_ways(variables, label, cell, target):
    """The ways by which a `goto` goes from its cell to the target's."""
    ways = (cell[1] == target[1], target[0] == 0 and target[1] < 15, cell[0] == target[0])
    return [variables.way(label, way) for way, open_way in enumerate(ways) if open_way]


def broken_clause(clauses, true):
    """The number of the first clause of which no literal is true, or None."""
    for number, clause in enumerate(clauses, 1):
        if not any((literal in true) if literal > 0 else (-literal not in true) for literal in clause):
            return number
    return None


def dimacs(program):
    """The text of a program's clauses in DIMACS."""
    lines = [" ".join(map(str, clause)) + " 0" for clause in clauses_of(program)]
    header = f"p cnf {Variables(len(program.labels)).count} {len(lines)}"
    return "\n".join([header, *lines, ""])


def main(words):
    """Prints the clauses of the source in the file that is named."""
    if len(words) != 1:
        sys.exit(__doc__)
    with open(words[0], encoding="ascii", errors="replace") as source:
        sys.stdout.write(dimacs(read_program(source.read())))


if __name__ == "__main__":
    main(sys.argv[1:])
