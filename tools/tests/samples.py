"""Repositories of a few files for the tests, and the scripts that they try."""

import pathlib
import sys
import tempfile
import unittest

TOOLS = pathlib.Path(__file__).resolve().parent.parent
sys.path.insert(0, str(TOOLS))

CRATES = """\
# lowest first
low: itoa
middle: low
high: middle low
"""
HEADS = {
    "low": "//! What is below. Layer: outside.\n//!\n//! It adds\n//! numbers.\n//!\n//! Contracts: `add`.\n",
    "middle": "//! What is between. Layer: meaning.\n//!\n//! It stands.\n",
    "high": "//! What tries it. Layer: tests.\n",
}


class SampleTest(unittest.TestCase):
    """A test in a folder with three crates: `high` stands on `middle`, and that on `low`."""

    def setUp(self):
        folder = tempfile.TemporaryDirectory()
        self.addCleanup(folder.cleanup)
        self.root = pathlib.Path(folder.name)
        self.write("crates.txt", CRATES)
        for crate, head in HEADS.items():
            self.write(f"crates/{crate}/src/lib.rt", f"{head}#![tactic(auto)]\n")

    def write(self, path, text):
        """Writes a file of the folder."""
        file = self.root / path
        file.parent.mkdir(parents=True, exist_ok=True)
        file.write_text(text, encoding="utf-8")

    def read(self, path):
        """The text of a file of the folder."""
        return (self.root / path).read_text(encoding="utf-8")
