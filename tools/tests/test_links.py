"""Tests of tools/links.py on pages of a few lines."""

import contextlib
import io

import samples
import links

GUIDE = "# The `guide`, in short\n\n## Words\n\n## Words\n\n    ## no heading\n"


class LinksTest(samples.SampleTest):
    def faults(self, readme):
        """The exit status and the lines for a README with this text beside a guide."""
        self.write("README.md", readme)
        self.write("docs/guide.md", GUIDE)
        with contextlib.redirect_stdout(io.StringIO()) as printed:
            status = links.main(self.root)
        return status, printed.getvalue().splitlines()

    def test_links_that_lead_somewhere(self):
        targets = ["docs/guide.md", "docs/guide.md#the-guide-in-short", "docs/guide.md#words-1", "#here", "https://example.org/none"]
        text = "# Here\n\n" + " ".join(f"[text]({target})" for target in targets)
        self.assertEqual(self.faults(text), (0, []))

    def test_links_that_lead_nowhere(self):
        text = "[a](docs/none.md) [b](docs/guide.md#words-2) [c](docs/guide.md#no-heading)\n\n    [d](in/code.md)\n"
        lines = ["README.md: docs/none.md: no such file"]
        lines += [f"README.md: docs/guide.md#{anchor}: no such heading" for anchor in ("words-2", "no-heading")]
        self.assertEqual(self.faults(text), (1, lines))


if __name__ == "__main__":
    samples.unittest.main()
