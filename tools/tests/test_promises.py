"""Tests of tools/promises.py and of what it reads, on a repository of three crates."""

import contextlib
import io

import samples
import promises
import repository

MARKED = "Before.\n\n<!-- made by tools/promises.py: {} -->\nold\n<!-- end -->\n\nBehind.\n"


class PromisesTest(samples.SampleTest):
    def setUp(self):
        super().setUp()
        for part, (page, _) in promises.PARTS.items():
            self.write(page, MARKED.format(part))

    def run_script(self, *words):
        """The exit status of the script, and what it prints."""
        with contextlib.redirect_stdout(io.StringIO()) as printed:
            status = promises.main(list(words), self.root)
        return status, printed.getvalue()

    def test_parts_are_filled_and_the_rest_stays(self):
        self.assertEqual(self.run_script(), (0, ""))
        table = self.read("docs/architecture.md")
        self.assertTrue(table.startswith("Before.\n\n<!-- made by tools/promises.py: crates -->\n\n| Layer |"))
        self.assertTrue(table.endswith("\n\n<!-- end -->\n\nBehind.\n"))
        self.assertIn("| outside | [`low`](proofs.md#low) |  | What is below. |\n| meaning | [`middle`](proofs.md#middle) | `low` | What is between. |", table)
        self.assertIn("| tests | `high` | `middle` | What tries it. |\n", table)
        section = "### `low`\n\nWhat is below.\n\nIt adds numbers.\n\nBy the contracts of: `add`.\n\n### `middle`"
        self.assertIn(section, self.read("docs/proofs.md"))
        self.assertTrue(self.read("docs/proofs.md").endswith("\n\nIt stands.\n\n<!-- end -->\n\nBehind.\n"))
        self.assertEqual(self.run_script("--check"), (0, ""))

    def test_check_tells_a_head_that_was_changed(self):
        self.run_script()
        self.write("crates/low/src/lib.rt", samples.HEADS["low"].replace("below", "beneath"))
        status, printed = self.run_script("--check")
        self.assertEqual((status, printed.count("run tools/promises.py")), (1, 2))

    def test_page_without_marks_is_refused(self):
        self.write("docs/proofs.md", "no marks\n")
        with self.assertRaises(SystemExit):
            self.run_script()

    def test_head_without_layer_is_refused(self):
        self.write("crates/low/src/lib.rt", "//! What is below.\n")
        with self.assertRaises(SystemExit):
            self.run_script()


class RepositoryTest(samples.SampleTest):
    def test_crates_stand_on_those_of_the_repository(self):
        crates = repository.crates_listed(self.root)
        self.assertEqual(crates, {"low": [], "middle": ["low"], "high": ["middle", "low"]})
        self.assertEqual(repository.all_below(crates, "high"), ["low", "middle"])
        self.assertEqual(repository.directly_below(crates, "high"), ["middle"])


if __name__ == "__main__":
    samples.unittest.main()
