"""The list of clauses against what docs/placement.md says of it."""
import unittest

from clauses import Variables, broken_clause, clauses_of, dimacs, true_variables
from program import read_program
from statements import OUTCOMES

WORKED = "slices 1\nstart A\nA: NOP R0 | iff B B\nB: NOP R0 | goto B\n"
# The numbers of this statement's own clauses, and of one with a trap for each target but the last.
CLASS_4 = {"goto": 51, "strobe": 2, "enable": 48, "iff": 32 + 16 + 48, "ifc": 32 + 16 + 48, "ifz": 32 + 16 + 48,
           "onpr": 32 + 1 + 15 * 33, "onpx": 32 + 1 + 15 * 33, "onleft": 32 + 1 + 3 * 33, "onright": 32 + 1 + 3 * 33}
ONE_TARGET = {"iff": 32 + 16, "ifc": 32 + 16, "ifz": 32 + 16, "onpr": 33, "onpx": 33, "onleft": 33, "onright": 33}


def listed(text):
    """The clauses of a source's text."""
    return list(clauses_of(read_program(text)))


class WorkedSource(unittest.TestCase):
    """The source of two labels, whose clauses docs/placement.md names."""

    def test_variables(self):
        self.assertEqual(Variables(2).count, 103)

    def test_count(self):
        self.assertEqual(len(listed(WORKED)), 1433)
        self.assertEqual(dimacs(read_program(WORKED)).split("\n")[0], "p cnf 103 1433")

    def test_clauses_that_refute(self):
        clauses = listed(WORKED)
        expected = {1286: [33], 1319: [-33, 83], 1367: [-33, 84], 1146: [-83, -84]}
        self.assertEqual({number: clauses[number - 1] for number in expected}, expected)

    def test_parts(self):
        clauses = listed(WORKED)
        expected = {
            1: list(range(1, 33)),  # A has a row
            2: list(range(33, 49)),  # A has a column
            3: [-1, -2], 498: [-31, -32], 499: [-33, -34], 618: [-47, -48],  # and no two
            1237: [-97, -1, -49], 1269: [97, -33, -81],  # the cells of A and B differ
            1285: [1],  # A is in row 0
            1287: [-1] + list(range(49, 65)), 1318: [-32] + list(range(65, 81)),  # iff reaches sixteen rows
            1334: [-48, 91],  # from column 15 to column 10
            1335: [-49, 49],  # B is in the row of B
            1383: [101, 102, 103], 1384: [-101, -81, 81], 1400: [-102, 49], 1401: [-102, -96], 1433: [-103, -80, 80],
        }
        self.assertEqual({number: clauses[number - 1] for number in expected}, expected)

    def test_no_placement(self):
        program = read_program(WORKED)
        self.assertEqual(broken_clause(clauses_of(program), true_variables(program, [(0, 0), (0, 2)])), 1367)

    def test_two_labels_in_place_of_one(self):
        text = WORKED.replace("iff B B", "iff B C") + "C: NOP R0 | goto C\n"
        program = read_program(text)
        placed = true_variables(program, [(0, 0), (0, 2), (0, 3)])
        self.assertIsNone(broken_clause(clauses_of(program), placed))


class Counts(unittest.TestCase):
    """How many clauses there are."""

    def test_each_statement(self):
        for statement, count in CLASS_4.items():
            targets = " ".join(["A"] * OUTCOMES[statement])
            clauses = listed(f"slices 1\nstart A\nA: NOP R0 | {statement} {targets}\n")
            self.assertEqual(len(clauses), 618 + 2 + count, statement)

    def test_traps(self):
        for statement, count in ONE_TARGET.items():
            traps = OUTCOMES[statement] - 1
            flow = f"A: NOP R0 | {statement} {'- ' * traps}A\nB: NOP R0 | strobe B\n"
            apiece = 2 if statement in ("iff", "ifc", "ifz") else 1
            expected = 2 * 618 + 48 + 2 + count + 2 + traps * apiece
            self.assertEqual(len(listed("slices 1\nstart A\n" + flow)), expected, statement)

    def test_pins_and_bound(self):
        text = "slices 1\nrows 30\nstart A\npin A 0 0x0\nA: NOP R0 | strobe A # - |\n"
        clauses = listed(text)
        self.assertEqual(clauses[618:], [[1], [33], [1], [33], [-31], [-32], [1], [48]])


if __name__ == "__main__":
    unittest.main()
