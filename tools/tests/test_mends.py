"""Tests of tools/mends.py: which rows a page has, and what counts as shown and as mended."""

import samples
import mends

PAGE = """\
    $ look a.src

| Line of `a.src` | Wrong | Prints | Mend |
|---|---|---|---|
| 2 | `two \\| bad` | `line 2 Bad` | `two \\| good` |
| 3 | `bad` | `line 3 Bad` | leave it out |

| Other | Table |
|---|---|
| 1 | 2 |

| Words | Prints | Mend |
|---|---|---|
| `look` | `refused words` | `look a.src` |
""".splitlines()


def look(command, folder):
    """Stands for the program: refuses the first line with `bad` in it, and no words."""
    if command == "./buravelo look":
        return ["refused words"]
    lines = (folder / "a.src").read_text(encoding="utf-8").splitlines()
    bad = [number for number, line in enumerate(lines, 1) if "bad" in line]
    return [f"refused a.src line {bad[0]} Bad"] if bad else ["fine"]


class MendsTest(samples.SampleTest):
    """Tables of a page, tried in a folder with a file of two lines."""

    def setUp(self):
        super().setUp()
        self.write("a.src", "one\ntwo\n")

    def checked(self, page):
        """How many rows a page has, and what is wrong with them."""
        return mends.check_rows(page, self.root, look)

    def test_rows_have_their_command_and_unescaped_lines(self):
        rows = list(mends.rows_of(PAGE))
        self.assertEqual([(row.place, row.file, row.line, row.wrong, row.mend) for row in rows], [
            (4, "a.src", 2, "two | bad", "two | good"), (5, "a.src", 3, "bad", None), (13, None, 0, "look", "look a.src")])
        self.assertEqual(rows[0].command, "look a.src")

    def test_a_page_that_is_as_shown(self):
        self.assertEqual(self.checked(PAGE), (3, []))
        self.assertEqual(self.read("a.src"), "one\ntwo\n")

    def test_another_print_is_told(self):
        page = [line.replace("line 3 Bad", "line 3 Worse") for line in PAGE]
        self.assertEqual(self.checked(page), (3, [(5, "bad", "shown: line 3 Worse, came: ['refused a.src line 3 Bad']")]))

    def test_a_mend_that_is_refused_is_told(self):
        page = [line.replace("good", "bad too") for line in PAGE]
        fault = "the mend two | bad too is refused: ['refused a.src line 2 Bad']"
        self.assertEqual(self.checked(page), (3, [(4, "two | bad", fault)]))


if __name__ == "__main__":
    samples.unittest.main()
