"""Flows that are drawn over a hidden placement: each statement takes targets that its jump reaches there.

So a source of this kind has a legal placement in the rows of the hidden one, though no pin tells it.
"""
from program import TRAP
from statements import COLUMNS, OUTCOMES, STROBE_CELL, column_reached, goto_reaches, rows_reached

# How often a statement is drawn: all kinds, or `goto` and the tests of one flag alone.
ALL_KINDS = 4 * ["goto"] + 2 * ["iff", "ifc", "ifz"] + ["strobe", "enable", "onpr", "onpx", "onleft", "onright"]
FLAG_KINDS = ["goto", "iff", "ifc", "ifz"]


class Hidden:
    """Labels and the cell of each."""

    def __init__(self, cells):
        self.cells = cells
        self.labels = {cell: label for label, cell in cells.items()}

    def at(self, cell):
        """The label in a cell, or the trap."""
        return self.labels.get(cell, TRAP)


def draw_cells(draws, labels, rows):
    """A hidden placement of labels L0, L1, .. in different cells of the rows; L0 is the start."""
    free = [(row, column) for row in range(rows) for column in range(COLUMNS)]
    free.remove((0, 0))
    cells = [(0, 0)] + draws.shuffled(free)[:labels - 1]
    return Hidden({f"L{number}": cell for number, cell in enumerate(cells)})


def landings(hidden, statement, cell):
    """Each list of targets that the statement may have in a cell; at least one target is a label."""
    if statement == "goto":
        return [[label] for label, other in hidden.cells.items() if goto_reaches(cell, other)]
    if statement == "strobe":
        lists = [[hidden.at(STROBE_CELL)]]
    elif statement == "enable":
        lists = [[hidden.at((row, cell[1]))] for row in rows_reached(statement, cell[0])]
    else:
        columns = [column_reached(statement, outcome, cell[1]) for outcome in range(OUTCOMES[statement])]
        lists = [[hidden.at((row, column)) for column in columns] for row in rows_reached(statement, cell[0])]
    return [targets for targets in lists if any(target != TRAP for target in targets)]


def draw_flow(draws, hidden, kinds):
    """For each label a statement with targets that it reaches; a `goto` to oneself is always one."""
    flow = []
    for label, cell in hidden.cells.items():
        found = []
        while not found:
            statement = draws.choose(kinds)
            found = landings(hidden, statement, cell)
        flow.append((label, statement, draws.choose(found)))
    return flow
