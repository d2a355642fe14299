"""The generator of sources."""
import hashlib
import unittest

from clauses import broken_clause, clauses_of, true_variables
from draws import Draws
from families import source_text
from hidden import ALL_KINDS, Hidden, draw_cells, draw_flow, landings
from program import TRAP, read_program
from sources import FAMILIES, chosen
from statements import OUTCOMES
from tried import tried_text

# The sum of a text that another program made by the same rule.
TRIED_0 = "edabd9141d620789"
TRIED_FREE_1 = "4672ab0306be8db4"


def digest(text):
    """A short sum of a text."""
    return hashlib.sha256(text.encode("ascii")).hexdigest()[:16]


def is_legal(program, cells):
    """Whether cells by label are a legal placement: each statement has its very targets where it lands."""
    placement = Hidden(cells)
    apart = len(set(cells.values())) == len(cells)
    within = all(row < program.rows for row, _ in cells.values())
    names = [[TRAP if target is None else program.labels[target] for target in instruction.targets]
             for instruction in program.instructions]
    lands = all(targets in landings(placement, instruction.statement, cells[label])
                for label, instruction, targets in zip(program.labels, program.instructions, names))
    return apart and within and lands and cells[program.labels[program.start]] == (0, 0)


class HiddenPlacements(unittest.TestCase):
    """A source that is drawn over a placement has that placement."""

    def test_hidden_placement_makes_each_clause_true(self):
        statements = set()
        for rows, labels in ((2, 31), (4, 40), (32, 24)):
            draws = Draws.named(f"hidden {rows}")
            hidden = draw_cells(draws, labels, rows)
            program = read_program(source_text(rows, draw_flow(draws, hidden, ALL_KINDS)))
            statements.update(instruction.statement for instruction in program.instructions)
            cells = [hidden.cells[label] for label in program.labels]
            self.assertIsNone(broken_clause(clauses_of(program), true_variables(program, cells)))
        self.assertEqual(statements, set(OUTCOMES))

    def test_clauses_are_true_just_where_a_placement_is_legal(self):
        answers = []
        draws = Draws.named("moved")
        hidden = draw_cells(draws, 10, 2)
        program = read_program(source_text(2, draw_flow(draws, hidden, ALL_KINDS)))
        clauses = list(clauses_of(program))
        for _ in range(60):
            moved = dict(hidden.cells)
            moved[f"L{draws.below(10)}"] = (draws.below(3), draws.below(16))
            cells = [moved[label] for label in program.labels]
            answers.append(broken_clause(clauses, true_variables(program, cells)) is None)
            self.assertEqual(answers[-1], is_legal(program, moved), moved)
        self.assertEqual(set(answers), {False, True})


class Families(unittest.TestCase):
    """What each family makes."""

    def test_same_number_same_source(self):
        for name, family in FAMILIES.items():
            self.assertEqual(family(3), family(3), name)
            self.assertNotEqual(family(3)[1], family(4)[1], name)

    def test_each_can_be_read(self):
        for name, number in chosen("all:0-9"):
            program = read_program(FAMILIES[name](number)[1])
            self.assertLessEqual(len(program.labels), 128)
            self.assertEqual(program.start, 0)
            self.assertEqual(len(set(program.labels)), len(program.labels))

    def test_easy_sources_of_128_labels(self):
        self.assertEqual(digest(tried_text(0, True)), TRIED_0)
        self.assertEqual(digest(tried_text(1, False)), TRIED_FREE_1)

    def test_easy_sources_have_their_placement(self):
        program = read_program(tried_text(7, True))
        cells = [(label // 16, label % 16) for label in range(128)]
        self.assertIsNone(broken_clause(clauses_of(program), true_variables(program, cells)))


if __name__ == "__main__":
    unittest.main()
