"""The runner, with small commands in place of solvers."""
import os
import sys
import tempfile
import unittest

from measured import measure
from solvers import Answer, Buravelo, Peer
from tables import Row, disagreements, markdown, plain, source_table, sum_table

MAKES = """#!/bin/sh
case "$1" in
make) echo "{answer}";;
check) echo "refutes 8";;
esac
"""


def script(folder, name, text):
    """Writes a command into a folder."""
    path = os.path.join(folder, name)
    with open(path, "w", encoding="ascii") as file:
        file.write(text)
    os.chmod(path, 0o755)
    return path


class Measuring(unittest.TestCase):
    """What is told of a command."""

    def test_output_and_status(self):
        run = measure(["sh", "-c", "echo yes; exit 7"], ".", 5)
        self.assertEqual((run.output, run.status, run.timed_out()), ("yes\n", 7, False))

    def test_time_is_up(self):
        run = measure([sys.executable, "-c", "while True: pass"], ".", 1)
        self.assertTrue(run.timed_out())
        self.assertGreater(run.seconds, 0.5)


class Solving(unittest.TestCase):
    """How answers are read."""

    def test_program(self):
        for said, verdict, conflicts in (("placed", "placed", None), ("refuted 8", "refuted", 7),
                                         ("undecided 9", "undecided", 9), ("no memory", "no memory", None)):
            with tempfile.TemporaryDirectory() as folder:
                program = Buravelo(script(folder, "program", MAKES.format(answer=said)))
                answer = program.solve(folder, 5, 9)
            self.assertEqual((answer.verdict, answer.conflicts), (verdict, conflicts))
            self.assertEqual(answer.check_seconds is not None, verdict == "refuted")

    def test_peers(self):
        for said, status, verdict, conflicts in (("conflicts             : 12   (3 /sec)", 10, "placed", 12),
                                                 ("c conflicts:   1234     9.5 per second", 20, "refuted", 1234),
                                                 ("c parsed 9 clauses in 0.50 seconds process time", 20, "refuted", 0),
                                                 ("|  Parse time:           0.50 s         |", 0, "undecided", None)):
            with tempfile.TemporaryDirectory() as folder:
                peer = Peer(script(folder, "peer", f"#!/bin/sh\necho '{said}'\nexit {status}\n"), [])
                answer = peer.solve(folder, 5, 9)
            self.assertEqual((answer.verdict, answer.conflicts), (verdict, conflicts))
            self.assertEqual(answer.reading, 0.5 if "arse" in said else 0.0)


class Tables(unittest.TestCase):
    """What the tables say."""

    ROWS = [
        Row("tests", "one", 2, {"own": Answer("placed", 1.0, 10), "peer": Answer("placed", 2.0, 10, 5, reading=0.25)}),
        Row("wild", "two", 3, {"own": Answer("refuted", 3.0, 20, 7, 0.5), "peer": Answer("refuted", 2.0, 10, 5)}),
        Row("wild", "three", 4, {"own": Answer("time", 9.0, 20), "peer": Answer("refuted", 2.0, 10, 5)}),
    ]

    def test_sources(self):
        table = source_table(self.ROWS, ["own", "peer"])
        self.assertEqual(table[2], ["two", "3", "refuted", "7", "3.00", "20", "0.50", "refuted", "5", "2.00", "10", "1.50"])
        self.assertEqual(table[3][-1], "")

    def test_sums(self):
        table = sum_table(self.ROWS, ["own", "peer"])
        self.assertEqual([line[0] for line in table[1:]], ["tests", "wild", "realistic", "all"])
        self.assertEqual(table[-1], ["all", "3", "2", "7", "20", "3", "2", "4.00", "4.00", "1.00", "0.25"])

    def test_texts(self):
        self.assertEqual(plain([["a", "b"], ["ccc", "d"]]), "a    b\nccc  d\n")
        self.assertEqual(markdown([["a", "b"], ["c", "d"]]), "| a | b |\n| --- | --- |\n| c | d |\n")

    def test_disagreement_is_told(self):
        self.assertEqual(disagreements(self.ROWS), [])
        row = Row("wild", "four", 2, {"own": Answer("placed", 1, 1), "peer": Answer("refuted", 1, 1)})
        self.assertEqual(disagreements([row]), ["four"])


if __name__ == "__main__":
    unittest.main()
