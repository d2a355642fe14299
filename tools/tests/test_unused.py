"""Tests of tools/unused.py on a repository of three crates."""

import contextlib
import io

import samples
import unused

SPECS = """\
-- Numbers.
use Rattle.std.specs.Prelude.{ℕ}

-- cited by a contract
abbrev pub sum : ℕ → ℕ
sum a = halves a

-- cited by a definition that is cited
unfoldable pub halves : ℕ → ℕ
halves a = a

-- cited by nothing; dead_end is a word of a comment
pub record Lost (a : ℕ) : Type 0 where
  pub at : dead_end a
"""
PROOFS = """\
use Rattle.low.specs.Numbers.{Lost}

pub used_lemma : ℕ → ℕ
unfolding sum
used_lemma zero = by_steps zero
used_lemma (suc a) = used_lemma a

by_steps : ℕ → ℕ
by_steps a = a

-- names only itself
dead_end : ℕ → ℕ
dead_end a = dead_end a
"""
MODULE = """\
pub InHead : ℕ → Type 0
InHead a = Unit {0}

module _ (a : ℕ)
    (h : InHead a) where

  pub inside : ℕ
  inside = from_inside
    where
      from_inside : ℕ
      from_inside = behind

  never : ℕ
  never = by_never

behind : ℕ
behind = zero

by_rule : ℕ
by_rule = zero

pub ruleset rules = (by_rule)

by_never : ℕ
by_never = zero
"""
CODE = """\
//! What is below. Layer: outside.
//!
//! Contracts: `law`.
ghost use Rattle.low.specs.Numbers.{sum};

/// Not called_here.
pub fn add()
    ensures { sum ≡ sum }
{}

pub fn law() {}

pub fn called_here() { add() }
"""


class UnusedTest(samples.SampleTest):
    def setUp(self):
        super().setUp()
        self.write("crates/low/src/lib.rt", CODE)
        self.write("crates/low/specs/Numbers.antt", SPECS)
        self.write("crates/low/proofs/Steps.antt", PROOFS)
        self.write("crates/low/proofs/add/Answers.antt", "use Rattle.low.proofs.Steps.{used_lemma}\n\npub returns : goal.returns\nreturns c = used_lemma\n")

    def rows(self):
        """The exit status of the script, and the lines that it prints."""
        with contextlib.redirect_stdout(io.StringIO()) as printed:
            status = unused.main(self.root)
        return status, printed.getvalue().splitlines()

    def test_lists_what_neither_code_nor_proofs_lead_to(self):
        names = ["called_here", "Lost", "dead_end"]
        self.assertEqual(self.rows(), (1, [f"low {name}: nothing uses it" for name in names]))

    def test_looks_into_modules(self):
        self.write("crates/low/proofs/Inner.antt", MODULE)
        self.write("crates/low/proofs/law/Answers.antt", "pub returns : goal.returns\nreturns c = inside rules\n")
        names = ["called_here", "Lost", "never", "by_never", "dead_end"]
        self.assertEqual(self.rows(), (1, [f"low {name}: nothing uses it" for name in names]))

    def test_allowed_names_and_modules_are_left_out(self):
        self.write(unused.ALLOWED, "# why\nlow called_here: for readers\nlow Numbers: whole\nlow dead_end: kept\n")
        self.assertEqual(self.rows(), (0, ["all is used"]))

    def test_allowed_row_for_nothing_is_told(self):
        self.write(unused.ALLOWED, "low called_here: for readers\nlow Numbers: whole\nlow dead_end: kept\nlow sum: used\n")
        self.assertEqual(self.rows(), (1, [f"low sum: all of it is used, or it is not there: leave it out of {unused.ALLOWED}"]))


if __name__ == "__main__":
    samples.unittest.main()
