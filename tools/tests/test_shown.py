"""Tests of tools/shown.py: how a document's commands are found, and what counts as shown."""

import unittest

import samples  # noqa: F401 (puts the scripts on the path)
import shown


class ShownTest(unittest.TestCase):
    """The parts of the script that need no program."""

    def test_commands_end_at_the_next_command_and_at_the_end_of_the_block(self):
        lines = ["text", "    $ a", "    x", "    $ b", "", "    $ c", "    y", "    z", "text"]
        found = [(command, end - place - 1) for place, command, end in shown.commands_of(lines)]
        self.assertEqual(found, [("a", 1), ("b", 0), ("c", 2)])

    def test_lines_to_end_are_read_by_the_command(self):
        lines = ["    $ a <<END", "    x", "    $ y", "    END", "    z", "    $ b"]
        self.assertEqual(list(shown.commands_of(lines)), [(3, "a <<END\nx\n$ y\nEND", 5), (5, "b", 6)])

    def test_all_lines_count_but_those_left_out(self):
        rows = [([], [], True), (["x"], ["x"], True), (["x"], ["x", "y"], False), (["x", ".."], ["x", "y"], True),
                (["..", "y"], ["x", "y"], True), (["..", "z"], ["x", "y"], False), ([], ["x"], False)]
        for told, came, answer in rows:
            self.assertEqual(shown.is_shown(told, came), answer, (told, came))

    def test_the_program_takes_the_place_of_its_script_alone(self):
        self.assertEqual(shown.printed("echo ./buravelo", "echo", "."), ["./buravelo"])
        self.assertEqual(shown.printed("./buravelo x | cat", "echo", "."), ["x"])


if __name__ == "__main__":
    unittest.main()
