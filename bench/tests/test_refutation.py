"""The plain checker of refutations, on lists that docs/refutations.md and docs/formats.md work out."""
import os
import unittest

from check_refutation import judge
from clauses import Variables, clauses_of
from program import read_program

EXAMPLES = os.path.join(os.path.dirname(__file__), "..", "..", "examples")
FOUR = [[33], [-33, 83], [-33, 84], [-83, -84]]
SQUARE = [[1, 2], [-1, 2], [1, -2], [-1, -2]]
JUDGED = (
    ("5 0 1 2 3 4 0\n", "refutes 1"),
    ("5 84 0 1 3 0\n6 0 1 2 5 0\n", "rejected line 2 NotFalse"),
    ("5 84 0 1 3 0\n6 -83 0 5 4 0\n7 0 1 2 6 0\n", "refutes 3"),
    ("5 84 0 1 3 0\n", "derived 1"),
    ("", "derived 0"),
    ("5 0 2 1 3 4 0\n", "rejected line 1 NotUnit"),
    ("5 0 1 1 2 3 4 0\n", "rejected line 1 NotUnit"),
    ("5 0 1 2 3 0\n", "rejected line 1 NotFalse"),
    ("5 0 0\n", "rejected line 1 Hint"),
    ("5 0 1 5 0\n", "rejected line 1 Hint"),
    ("5 104 0 1 3 0\n", "rejected line 1 Literal"),
    ("5 84 -84 0 1 3 0\n", "rejected line 1 Literal"),
    ("6 0 1 2 3 4 0\n", "rejected line 1 Number"),
    ("0 0 1 0\n", "rejected line 1 Number"),
    ("05 0 1 2 3 4 0\n", "rejected line 1 Text"),
    ("5 0 1 2 3 4 0", "rejected line 1 Text"),
    ("5  0 1 2 3 4 0\n", "rejected line 1 Text"),
    ("5 -0 1 2 3 4 0\n", "rejected line 1 Text"),
    ("5 4294967296 0 1 0\n", "rejected line 1 Text"),
    ("5 0 1 2 3 4 0\n6 0 1 2 3 4 0\n", "rejected line 2 After"),
    ("5 0 1 2 3 4 0\n6 0 1 2 3 4 0", "rejected line 2 Text"),
)


class Judged(unittest.TestCase):
    """Answers for whole texts."""

    def test_each_answer(self):
        for text, answer in JUDGED:
            self.assertEqual(judge(FOUR, 103, text), answer, text)

    def test_square(self):
        self.assertEqual(judge(SQUARE, 2, "5 1 0 1 3 0\n6 0 5 2 4 0\n"), "refutes 2")

    def test_refutation_written_by_hand(self):
        with open(os.path.join(EXAMPLES, "two_strobes.src"), encoding="ascii") as source:
            program = read_program(source.read())
        with open(os.path.join(EXAMPLES, "two_strobes.ref"), encoding="ascii") as text:
            line = text.read()
        clauses, variables = list(clauses_of(program)), Variables(len(program.labels)).count
        self.assertEqual(len(clauses), 4751)
        self.assertEqual(judge(clauses, variables, line), "refutes 1")
        self.assertEqual(judge(clauses, variables, line.replace("4581 ", "")), "rejected line 1 NotUnit")


if __name__ == "__main__":
    unittest.main()
