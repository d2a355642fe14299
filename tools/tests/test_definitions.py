"""Tests of tools/definitions.py on a repository of three crates."""

import contextlib
import io

import samples
import definitions

SUMS = """\
-- Sums of numbers.
-- They are exact.
use Rattle.std.specs.Prelude.{ℕ}

-- ---- a part

-- the sum | of two
abbrev pub sum : ℕ → ℕ → ℕ
sum a b = a + b

-- both
-- parts
pub record Both (a : ℕ) : Type 0 where
  -- not a definition of its own
  pub first : ℕ

-- for this file alone
abbrev inside : ℕ
"""


class DefinitionsTest(samples.SampleTest):
    def setUp(self):
        super().setUp()
        self.write("crates/low/specs/Lib.antt", "pub mod Sums\n")
        self.write("crates/low/specs/Sums.antt", SUMS)
        self.write(definitions.PAGE, "")

    def run_script(self, *words):
        """The exit status of the script, and what it prints."""
        with contextlib.redirect_stdout(io.StringIO()) as printed:
            status = definitions.main(list(words), self.root)
        return status, printed.getvalue()

    def test_page_has_modules_and_public_definitions(self):
        self.assertEqual(self.run_script(), (0, ""))
        text = self.read(definitions.PAGE)
        self.assertIn("By crate: [`low`](#low).", text)
        self.assertIn("## `low`\n\nWhat is below.\n\n### Sums\n\nSums of numbers. They are exact.\n", text)
        self.assertTrue(text.endswith("|---|---|\n| `sum` | The sum \\| of two |\n| `Both` | Both parts |\n"))

    def test_check_takes_what_was_written_and_refuses_a_changed_comment(self):
        self.run_script()
        self.assertEqual(self.run_script("--check"), (0, ""))
        self.write("crates/low/specs/Sums.antt", SUMS.replace("both", "each"))
        status, printed = self.run_script("--check")
        self.assertEqual(status, 1)
        self.assertIn("run tools/definitions.py", printed)

    def test_definition_without_comment_is_told(self):
        self.write("crates/low/specs/Sums.antt", SUMS.replace("-- both\n-- parts\n", ""))
        status, printed = self.run_script()
        self.assertEqual(status, 1)
        self.assertIn("Sums.antt: Both has no comment", printed)

    def test_other_words_are_refused(self):
        self.assertEqual(self.run_script("--chekc")[0], 2)


if __name__ == "__main__":
    samples.unittest.main()
