"""Tests of tools/listing.py and of what it reads, on saved files of two labels."""

import contextlib
import io

import samples
import saved
import images
import listing

LISTED = """\
addr word   label jump  line source
002  0918d0 B     JCF 0    6 INR R1 | ifc - A
003  1b01b2 A     JCR 2    5 NOP R0 u=3 | goto B
510 free cells: 0b0180 + row
"""


class ListingTest(samples.SampleTest):
    def listed(self):
        """The exit status, and what is printed on standard output and standard error."""
        with contextlib.redirect_stdout(io.StringIO()) as printed, contextlib.redirect_stderr(io.StringIO()) as said:
            status = listing.main([self.source, self.out])
        return status, printed.getvalue(), said.getvalue().replace(f"{self.root}/", "")

    def setUp(self):
        super().setUp()
        self.source, self.out = saved.write_all(self)

    def test_labels_in_the_order_of_addresses_and_the_free_cells_once(self):
        self.assertEqual(self.listed(), (0, LISTED, ""))

    def test_images_may_have_comments_and_be_of_eight_bits(self):
        self.write("two.lay", saved.LAYOUT.replace("512 4", "512 8"))
        for place in range(3):
            frames = [f"B{word >> 8 * place & 255:08b}F".replace("1", "P").replace("0", "N") for word in saved.words()]
            self.write(f"two.p{place}.bpnf", "tape\r\n" + "\r\n".join(frames))
        self.assertEqual(self.listed(), (0, LISTED, ""))

    def test_files_that_do_not_belong_together(self):
        changes = [
            ("two.map", saved.MAP.replace("32 JCR 2", "33 JCR 3"), "A: its jump is 33 in the map and 32 in the images"),
            ("two.map", saved.MAP.replace("0.3", "1.3"), "A: its jump is 32 in the map and 01 in the images"),
            ("two.map", saved.MAP[: saved.MAP.index("B")], "B: in the source, and not in the map"),
            ("two.src", saved.SOURCE.replace("A:", "C:"), "A: in the map, and not in the source"),
            ("two.map", saved.MAP.replace(" JCF", ""), "two.map: line 2 is no line of a map"),
            ("two.lay", "field u two 1\n", "two.lay: line 1 is no line of a layout"),
            ("two.lay", "prom 512 5\n", "two.lay: PROMs of 5 bits"),
            ("two.p1.bpnf", saved.image(1)[7:], "two.p1.bpnf: not 512 frames of 4 bits"),
            ("two.p1.bpnf", saved.image(1, "Board 1\n"), "two.p1.bpnf: not 512 frames of 4 bits"),
            ("two.p2.bpnf", saved.image(2)[:-6] + "PPPPF\n", "cell 31.15: no label, and not the word of a free cell"),
        ]
        for path, text, fault in changes:
            saved.write_all(self)
            self.write(path, text)
            self.assertEqual(self.listed(), (1, "", f"listing: {fault}\n"), path)

    def test_a_file_that_is_not_there(self):
        (self.root / "two.p5.bpnf").unlink()
        self.assertEqual(self.listed(), (1, "", "listing: two.p5.bpnf: No such file or directory\n"))


class ImagesTest(samples.SampleTest):
    def test_words_are_joined_from_the_lowest_bits_on(self):
        _, out = saved.write_all(self)
        self.assertEqual(images.read_words(out), (saved.words(), 21))

    def test_numbers_of_a_layout_may_be_hexadecimal(self):
        self.write("x.lay", "# words\nslices 0x4\nkbus 0x2 # two\nfield a 0x10 0\nprom 512 8\n")
        self.assertEqual(images.read_layout(self.root / "x.lay"), (36, 8))


if __name__ == "__main__":
    samples.unittest.main()
