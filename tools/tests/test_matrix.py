"""Tests of tools/matrix.py and of the jumps that it draws; and that the pictures of the guide are those of its maps."""

import contextlib
import io
import re
import xml.etree.ElementTree

import samples
import saved
import images
import jumps
import matrix
import repository
import shown

SVG = "{http://www.w3.org/2000/svg}"
PICTURES = {"out.map": "count_down.svg", "fetch.map": "fetch_execute.svg"}


class JumpsTest(samples.unittest.TestCase):
    def test_the_cells_of_the_page_on_the_machine(self):
        rows = [("JFL", 6, 20, 9, [(22, 10), (22, 11)]), ("JRL", 1, 8, 3, [(13, it) for it in (12, 13, 14, 15)]),
                ("JCC", 5, 18, 9, [(5, 9)]), ("JZR", 15, 18, 9, [(0, 15)]), ("JCR", 3, 18, 9, [(18, 3)]),
                ("JCE", 7, 18, 9, [(23, 9)]), ("JCF", 0, 18, 9, [(16, 10), (16, 11)]), ("JZF", 7, 18, 1, [(23, 2), (23, 3)]),
                ("JPR", 1, 18, 9, [(17, it) for it in range(16)]), ("JPX", 3, 18, 9, [(19, it) for it in range(16)]),
                ("JLL", 0, 18, 9, [(16, it) for it in (4, 5, 6, 7)])]
        for code, operand, row, column, cells in rows:
            self.assertEqual(jumps.reached(code, operand, row, column), cells, code)
        self.assertEqual({code for code, *_ in rows}, set(jumps.CODES), "each code is tried")


class MatrixTest(samples.SampleTest):
    def drawn(self, map_text):
        """The picture of a map, as a tree."""
        self.write("x.map", map_text)
        self.assertEqual(matrix.main([str(self.root / "x.map"), "-o", str(self.root / "x.svg")]), 0)
        return xml.etree.ElementTree.fromstring(self.read("x.svg"))

    def test_labels_jumps_and_traps(self):
        tree = self.drawn(saved.MAP)
        titles = [it.text for it in tree.iter(SVG + "title")]
        self.assertEqual(titles, ["A 0.3 32 JCR 2", "B 0.2 50 JCF 0"], "both outcomes have labels")
        self.assertEqual(len([it for it in tree.iter(SVG + "path") if it.get("marker-end")]), 3)
        tree = self.drawn("A 0.0 50 JCF 0\nB 0.3 20 JZR 0\n")
        self.assertEqual([it.text for it in tree.iter(SVG + "title")][0], "trap 0.2")
        colours = {it.get("stroke") for it in tree.iter(SVG + "path") if it.get("marker-end")}
        self.assertEqual(colours, {matrix.COLOURS["JCF"], matrix.COLOURS["JZR"]})

    def test_jumps_from_and_to_some_labels_alone(self):
        placed = [images.Placed("A", 0, 0, 0x33, "JCR", 3), images.Placed("B", 0, 3, 5, "JCC", 5), images.Placed("C", 5, 3, 5, "JCC", 5)]
        for only, arrows in [((), 3), (["A"], 1), (["B"], 2), (["C"], 2)]:
            self.assertEqual(matrix.picture(placed, only).count("marker-end"), arrows, only)
        self.write("x.map", saved.MAP)
        with contextlib.redirect_stderr(io.StringIO()) as said:
            self.assertEqual(matrix.main([str(self.root / "x.map"), "--only", "C"]), 1)
        self.assertTrue(said.getvalue().endswith("x.map: no label C\n"))

    def test_the_middle_of_every_arrow_lies_in_the_picture(self):
        cells = [(row, column) for row in range(32) for column in range(16)]
        self.write("x.map", "".join(f"L{row} {row}.{row % 16} 2f JZR 15\n" for row in range(32)))
        grid = matrix.Grid(matrix.read_map(self.root / "x.map"), [])
        for ends in [(one, other) for one in cells[::23] for other in cells[::29] if one != other]:
            x, y = matrix.blossom(matrix.way(grid, *ends), 0.5, 0.5)
            self.assertTrue(0 < x < grid.lefts[-1] + matrix.MARGIN and 0 < y < grid.tops[-1] + matrix.MARGIN, ends)

    def test_long_labels_are_cut_where_they_are_drawn_and_whole_when_pointed_at(self):
        label = "A" * 32
        text = [it.text for it in self.drawn(f"{label} 0.0 20 JZR 0\n").iter() if it.text]
        self.assertIn("A" * 13 + "…", text)
        self.assertIn(f"{label} 0.0 20 JZR 0", text)

    def test_what_is_no_map(self):
        self.write("x.map", "A 32.0 20 JZR 0\n")
        with contextlib.redirect_stderr(io.StringIO()) as said:
            self.assertEqual(matrix.main([str(self.root / "x.map")]), 1)
        self.assertTrue(said.getvalue().endswith("x.map: line 1 is no line of a map\n"))


class PicturesTest(samples.SampleTest):
    def test_the_pictures_are_those_of_the_maps_that_the_guide_shows(self):
        lines = (repository.ROOT / "docs/guide.md").read_text(encoding="utf-8").splitlines()
        maps = {}
        for place, command, end in shown.commands_of(lines):
            found = re.fullmatch(r"cat (\w+\.map)", command)
            if found:
                maps[found[1]] = "".join(f"{line.strip()}\n" for line in lines[place + 1:end])
        self.assertEqual(set(maps), set(PICTURES))
        for name, picture in PICTURES.items():
            self.write(name, maps[name])
            file = repository.ROOT / "docs/pictures" / picture
            drawn = matrix.picture(matrix.read_map(self.root / name))
            message = f"the guide shows another {name}: draw docs/pictures/{picture} anew with tools/matrix.py"
            self.assertTrue(file.read_text(encoding="utf-8") == drawn, message)


if __name__ == "__main__":
    samples.unittest.main()
