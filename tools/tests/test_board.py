"""Tests of tools/board.py: round trips on images of words that are drawn, the example, and what is refused."""

import contextlib
import io
import os
import pathlib
import random
import tempfile
import unittest
from unittest import mock

import samples
import board

EXAMPLES = samples.TOOLS.parent / "examples"
LAYOUT = "# of a test\nslices 2\r\nkbus 0x2 # two\nfield a 3 0\nfield\tb 1 1\nprom 512 {}\nwrite b\n"
WIDTH = 24
TABLE = """\
# three images
image low 0 /1 2 3 -  4 5 6
image mid /7 8 /9 10 # four bits
image high 23 22 21 20 19 18 17 /16
image rest 11 12 13 14
image end 15 /- /- -
"""


class BoardTest(unittest.TestCase):
    """A folder with a layout, images of drawn words, and a table."""

    def setUp(self):
        folder = tempfile.TemporaryDirectory()
        self.addCleanup(folder.cleanup)
        self.root = pathlib.Path(folder.name)
        self.words = [random.Random(7).getrandbits(WIDTH) for _ in range(512)]
        self.write("table", TABLE)
        self.make("out", 8)

    def write(self, path, text):
        """Writes a file of the folder."""
        (self.root / path).write_text(text, encoding="latin-1")

    def make(self, out, prom):
        """Writes layout and images of the words, as `make` would."""
        self.write(f"{out}.lay", LAYOUT.format(prom))
        for number in range(-(-WIDTH // prom)):
            lines = (f"{word >> prom * number & (1 << prom) - 1:0{prom}b}" for word in self.words)
            text = "".join(f"B{bits.replace('1', 'P').replace('0', 'N')}F\n" for bits in lines)
            self.write(f"{out}.p{number}.bpnf", text)

    def files(self, folder="."):
        """The files of a folder with what they hold."""
        return {it.name: it.read_bytes() for it in sorted((self.root / folder).iterdir()) if it.is_file()}

    def ran(self, *words):
        """The exit status and what is printed of a command, in the folder."""
        before = os.getcwd()
        os.chdir(self.root)
        try:
            with contextlib.redirect_stdout(io.StringIO()) as printed:
                status = board.main(list(map(str, words)))
        finally:
            os.chdir(before)
        return status, printed.getvalue().rstrip("\n")

    def refused(self, why, *words):
        """A command is refused with these words, and the folder stays as it was."""
        before = sorted(map(str, self.root.rglob("*"))), self.files()
        self.assertEqual(self.ran(*words), (1, f"refused {why}"))
        self.assertEqual((sorted(map(str, self.root.rglob("*"))), self.files()), before)

    def test_bits_go_where_the_table_says(self):
        self.assertEqual(self.ran("write", "table", "out", "new"), (0, "5 images in new"))
        word = self.words[3]
        bit = [word >> place & 1 for place in range(WIDTH)]
        self.assertEqual(board.image_of(self.root / "new/mid.bpnf", 4)[3],
                         8 * (1 - bit[7]) + 4 * bit[8] + 2 * (1 - bit[9]) + bit[10])
        self.assertEqual(board.image_of(self.root / "new/end.bpnf", 4)[3], 8 * bit[15] + 4 + 2)
        self.assertEqual(board.image_of(self.root / "new/low.bpnf", 8)[3] & 8, 0)

    def test_there_and_back_gives_the_same_files(self):
        for prom in board.PROM_BITS:
            out = f"out{prom}"
            self.make(out, prom)
            self.assertEqual(self.ran("write", "table", out, f"new{prom}")[0], 0)
            count = WIDTH // prom
            self.assertEqual(self.ran("read", "table", f"new{prom}", f"{out}.lay", f"back{prom}/{out}"),
                             (0, f"{count} images and {out}.lay in back{prom}"))
            saved = {name: text for name, text in self.files().items() if name.startswith(f"{out}.")}
            self.assertEqual(self.files(f"back{prom}"), saved)
        self.assertEqual(self.files("new4"), self.files("new8"))

    def test_comments_in_images_are_passed_over(self):
        lines = self.files()["out.p0.bpnf"].decode().splitlines()
        self.write("out.p0.bpnf", "tape 1\r\n" + "".join(f"{place} {line}\r\n" for place, line in enumerate(lines)) + "end")
        self.assertEqual(self.ran("write", "table", "out", "new")[0], 0)
        self.assertEqual(self.ran("read", "table", "new", "out.lay", "back/out")[0], 0)
        self.assertEqual((self.root / "back/out.p0.bpnf").read_text().splitlines(), lines)

    def test_the_example_goes_there_and_back(self):
        table, images, layout = EXAMPLES / "small_board.table", EXAMPLES / "small_board", EXAMPLES / "count_down.lay"
        self.assertEqual(self.ran("read", table, images, layout, "words/out"), (0, "5 images and out.lay in words"))
        self.assertEqual(self.ran("write", table, "words/out", "again"), (0, "3 images in again"))
        self.assertEqual(self.files("again"), {it.name: it.read_bytes() for it in images.iterdir()})

    def test_images_that_are_none_are_refused(self):
        text = self.files()["out.p1.bpnf"].decode()
        rows = [("BOARD 3\n" + text, " byte 1 BadLetter"), (text[:5] + "x" + text[6:], " byte 5 BadLetter"),
                (text[:9] + "PP" + text[10:], " byte 9 BadLetter"), ("", " words 0 TooFew"), (text[11:], " words 511 TooFew"),
                (text[:-4], " byte 5621 CutWord"), (text + "B", " byte 5632 TooMany"),
                (text + " " * 65536, ": it has more than 65536 bytes")]
        for wrong, why in rows:
            self.write("out.p1.bpnf", wrong)
            self.refused(f"out.p1.bpnf{why}", "write", "table", "out", "new")
        (self.root / "out.p1.bpnf").unlink()
        self.refused("out.p1.bpnf: No such file or directory", "write", "table", "out", "new")

    def test_an_image_behind_the_last_is_refused(self):
        self.write("out.p3.bpnf", "")
        self.refused("out.p3.bpnf: words of 24 bits fill 3 images; is it of an earlier run?", "write", "table", "out", "new")

    def test_one_bad_image_of_a_board_leaves_nothing(self):
        self.assertEqual(self.ran("write", "table", "out", "new")[0], 0)
        (self.root / "new/end.bpnf").write_text("BPPPPF\n")
        self.refused("new/end.bpnf words 1 TooFew", "read", "table", "new", "out.lay", "back/out")

    def test_tables_that_are_none_are_refused(self):
        end = "image end 15 /- /- -\n"
        form = "it is not of the form `image NAME BIT BIT ..`"
        rows = [("", " line 7: " + form, "bits 1 2\n"), ("", " line 7: " + form, "image a/b 1 2 3 4\n"),
                ("", " line 7: " + form, "image x 1 2 3 //4\n"), ("", " line 7: there is an image End above", "image End - - - -\n"),
                ("", " line 7: it has 3 bits and not 4 or 8", "image x - - -\n"),
                ("", " line 7: bit 24 is not in words of 24 bits", "image x 24 - - -\n"),
                ("", " line 7: bit 3 stands at two places", "image x - - - /3\n"),
                (end, ": bit 15 of the word is in no image", "")]
        for dropped, why, added in rows:
            self.write("table", TABLE.replace(dropped, "") + added)
            self.refused(f"table{why}", "write", "table", "out", "new")

    def test_layouts_that_are_none_are_refused(self):
        rows = [("wires 3\n", " line 8: it is no line of a layout"), ("prom 512 5\n", ": it has words of 24 bits in PROMs of 5"),
                ("field c 90 0\n", ": it has words of 114 bits in PROMs of 8")]
        for added, why in rows:
            self.write("out.lay", LAYOUT.format(8) + added)
            self.refused(f"out.lay{why}", "write", "table", "out", "new")

    def test_nothing_that_is_there_is_written_over(self):
        (self.root / "new").mkdir()
        self.refused("new: it is there already; a new folder is written", "write", "table", "out", "new")
        self.assertEqual(self.ran("write", "table", "out", "board")[0], 0)
        self.refused(".: it is there already; a new folder is written", "read", "table", "board", "out.lay", "out")

    def test_a_failing_write_leaves_nothing(self):
        self.refused("none/new: No such file or directory", "write", "table", "out", "none/new")
        full = OSError(28, "No space left on device")
        with mock.patch.object(board.os, "fsync", side_effect=[None, None, full]):
            self.refused("new: No space left on device", "write", "table", "out", "new")
        with mock.patch.object(board.os, "fsync", side_effect=[None, KeyboardInterrupt]), self.assertRaises(KeyboardInterrupt):
            self.ran("write", "table", "out", "new")
        self.assertEqual([it.name for it in self.root.iterdir() if it.is_dir()], [])


if __name__ == "__main__":
    unittest.main()
