#!/usr/bin/env python3
"""Draws a map as a picture: the matrix of 32 rows and 16 columns with its labels, its jumps and its traps.

usage: tools/matrix.py MAP [-o FILE.svg] [--only LABEL ..]

MAP is a map, as `make` saves it or `map` prints it. The picture is SVG, and goes to standard output where no file is
named. Each label stands in its cell with its jump, which leads to each cell that it may reach, in the colour of the
jump's code; where a value decides, it stands at the arrow's head. A cell that a jump may reach and that has no label
is a trap, since of a legal placement each such outcome has the target `-`. Rows and columns without labels are drawn
small. With --only there are no jumps but those from and to the labels named. Exit status: 0, or 1 with a line that says what is not as it should be.
"""

import argparse
import sys
from html import escape
from pathlib import Path

from images import COLUMNS, ROWS, Fault, read_map
from jumps import CODES, reached

COLOURS = {
    "JCC": "#1f6fb4", "JZR": "#d9480f", "JCR": "#2b8a3e", "JFL": "#7048c8", "JCF": "#c2255c", "JZF": "#8a5a2b",
    "JPR": "#0b7285", "JLL": "#5c7cfa", "JRL": "#ae3ec9", "JCE": "#343a40", "JPX": "#a67c00",
}
LEFT, TOP, MARGIN = 34, 26, 12
EMPTY_ROW, TRAP_ROW, LABEL_ROW = 11, 24, 52
EMPTY_COLUMN, LABEL_COLUMN, LETTER = 30, 66, 8
EDGE = 7
LONGEST = 14
STEPS = 120
VALUE_SHARES = (0.86, 0.92, 0.78, 0.7, 0.6, 0.5, 0.4)
LEGEND_WIDTH, LEGEND_LINE = 236, 20


class Grid:
    """Where the rows and columns of the matrix stand in the picture."""

    def __init__(self, placed, traps):
        """Takes the map's lines and the trap cells; what holds labels gets more room."""
        rows, columns = {it.row for it in placed}, {it.column for it in placed}
        with_traps = {row for row, _ in traps}
        heights = [LABEL_ROW if row in rows else TRAP_ROW if row in with_traps else EMPTY_ROW for row in range(ROWS)]
        longest = [max((len(shown(it.label)) for it in placed if it.column == column), default=0) for column in range(COLUMNS)]
        widths = [max(LABEL_COLUMN, LETTER * longest[it] + 2 * EDGE + 8) if it in columns else EMPTY_COLUMN for it in range(COLUMNS)]
        self.tops, self.lefts = running(TOP, heights), running(LEFT, widths)

    def cell(self, cell):
        """The edges of a cell: left, top, right, bottom."""
        row, column = cell
        return self.lefts[column], self.tops[row], self.lefts[column + 1], self.tops[row + 1]

    def box(self, cell):
        """The edges of what is drawn in a cell; between two of them arrows have room."""
        left, top, right, bottom = self.cell(cell)
        edge = EDGE if bottom - top == LABEL_ROW else 2
        return left + min(edge, 5), top + edge, right - min(edge, 5), bottom - edge

    def centre(self, cell):
        """The middle of a cell."""
        left, top, right, bottom = self.cell(cell)
        return (left + right) / 2, (top + bottom) / 2


def running(first, sizes):
    """The edges of pieces that stand side by side."""
    edges = [first]
    for size in sizes:
        edges.append(edges[-1] + size)
    return edges


def shown(label):
    """A label, cut where it is long."""
    return label if len(label) <= LONGEST else label[: LONGEST - 1] + "…"


def traps_of(placed):
    """The cells that a jump may reach and that have no label."""
    labelled = {(it.row, it.column) for it in placed}
    found = {cell for it in placed for cell in reached(it.code, it.operand, it.row, it.column)}
    return found - labelled


def blossom(curve, first, second):
    """Of a curve with one bend: with one share of its way twice the point there, with two the bend of the piece between."""
    weights = (1 - first) * (1 - second), (1 - first) * second + first * (1 - second), first * second
    return tuple(sum(weight * point[axis] for weight, point in zip(weights, curve)) for axis in (0, 1))


def inside(box, point):
    """Whether a point lies in a box, or within two pixels of it."""
    left, top, right, bottom = box
    return left - 2 <= point[0] <= right + 2 and top - 2 <= point[1] <= bottom + 2


def bent(grid, begin, end):
    """The curve between two points: above a lower cell and below a higher one where it is flat, else to its left.

    A curve that would pass the matrix's right edge is bent to its other side, and none is bent above or below it.
    """
    (x0, y0), (x1, y1) = begin, end
    far = ((x1 - x0) ** 2 + (y1 - y0) ** 2) ** 0.5
    size = min(max(24, 0.2 * far), 130) / far
    flat = abs(x1 - x0) > 2 * abs(y1 - y0)
    side = -1 if flat and (x1 > x0) != (y1 > y0) else 1
    if (x0 + x1) / 2 + side * (y1 - y0) * size / 2 > grid.lefts[-1]:
        side = -side
    x, y = (x0 + x1) / 2 + side * (y1 - y0) * size, (y0 + y1) / 2 - side * (x1 - x0) * size
    return begin, (x, min(max(y, grid.tops[0]), grid.tops[-1])), end


def between_boxes(grid, from_cell, to_cell):
    """The curve from the edge of one cell's box to the edge of another's."""
    curve = bent(grid, grid.centre(from_cell), grid.centre(to_cell))
    ends = grid.box(from_cell), grid.box(to_cell)
    shares = [step / STEPS for step in range(STEPS + 1)]
    outside = [it for it in shares if not any(inside(box, blossom(curve, it, it)) for box in ends)]
    first, last = outside[0], outside[-1]
    return blossom(curve, first, first), blossom(curve, first, last), blossom(curve, last, last)


def along_row(grid, from_cell, to_cell):
    """The curve from the upper edge of one cell's box to that of another in its row; in row 0 from the lower edges."""
    begin, end = grid.box(from_cell), grid.box(to_cell)
    x0, x1 = (begin[0] + begin[2]) / 2, (end[0] + end[2]) / 2
    lean = 6 if x1 > x0 else -6
    side, edge = (1, 3) if from_cell[0] == 0 else (-1, 1)
    y0, y1 = begin[edge] + side, end[edge] + 2 * side
    high = min(20 + 0.12 * abs(x1 - x0), 90)
    return (x0 + lean, y0), ((x0 + x1) / 2, (y0 + y1) / 2 + side * high), (x1 - lean, y1)


def way(grid, from_cell, to_cell):
    """The points of an arrow's path: begin, bends and end; two bends for a loop at a cell."""
    if from_cell == to_cell:
        _, top, right, _ = grid.box(from_cell)
        return (right - 20, top - 1), (right - 24, top - 17), (right, top - 17), (right - 6, top - 2)
    return (along_row if from_cell[0] == to_cell[0] else between_boxes)(grid, from_cell, to_cell)


def path_of(points):
    """The SVG path of an arrow's points."""
    first, *rest = [f"{x:.1f} {y:.1f}" for x, y in points]
    return f"M{first}{'C' if len(rest) == 3 else 'Q'}{' '.join(rest)}"


def arrow(points, code, is_trap):
    """An arrow of a jump's code along a curve; to a trap a thin broken line without a head."""
    look = 'stroke-width="1" stroke-dasharray="3 3" opacity="0.55"' if is_trap else f'stroke-width="1.7" marker-end="url(#{code})"'
    return f'<path d="{path_of(points)}" fill="none" stroke="{COLOURS[code]}" {look}/>'


def value_at(points, code, value, label_boxes):
    """The value that decides, near an arrow's head and in no label's box where that can be; its white edge keeps lines off."""
    if len(points) == 3:
        along = [blossom(points, share, share) for share in VALUE_SHARES]
        x, y = next((it for it in along if not any(inside(box, it) for box in label_boxes)), along[0])
    else:
        x, y = points[2]
    look = f'font-size="10" font-weight="bold" fill="{COLOURS[code]}" stroke="#fff" stroke-width="3" paint-order="stroke"'
    return f'<text x="{x + 6:.1f}" y="{y + 1:.1f}" {look} text-anchor="middle">{value:x}</text>'


def jumps_drawn(grid, placed, traps, only):
    """The arrows, those to traps below the others, and the values at their heads; of all jumps, or from and to some labels."""
    chosen = {(it.row, it.column) for it in placed if not only or it.label in only}
    to_traps, to_labels, values = [], [], []
    label_boxes = [grid.box((it.row, it.column)) for it in placed]
    for it in placed:
        cells = reached(it.code, it.operand, it.row, it.column)
        for value, cell in enumerate(cells):
            if not chosen & {(it.row, it.column), cell}:
                continue
            points = way(grid, (it.row, it.column), cell)
            (to_traps if cell in traps else to_labels).append(arrow(points, it.code, cell in traps))
            if len(cells) > 1 and cell not in traps:
                values.append(value_at(points, it.code, value, label_boxes))
    return to_traps + to_labels, values


def rectangle(box, look):
    """A box as SVG."""
    left, top, right, bottom = box
    return f'<rect x="{left}" y="{top}" width="{right - left}" height="{bottom - top}" {look}/>'


def ground(grid):
    """The matrix without its labels: free cells, lines between them, and the numbers of rows and columns."""
    left, top, right, bottom = grid.lefts[0], grid.tops[0], grid.lefts[-1], grid.tops[-1]
    yield rectangle((left, top, right, bottom), 'fill="#f1f3f5"')
    for number, y in enumerate(grid.tops):
        yield f'<path d="M{left} {y}H{right}" stroke="{"#868e96" if number % 8 == 0 else "#dee2e6"}"/>'
    for number, x in enumerate(grid.lefts):
        yield f'<path d="M{x} {top}V{bottom}" stroke="{"#868e96" if number % 8 == 0 else "#dee2e6"}"/>'
    for number in range(ROWS):
        high = grid.tops[number + 1] - grid.tops[number]
        size, colour = (9, "#868e96") if high == EMPTY_ROW else (12, "#212529")
        middle = grid.tops[number] + high / 2
        yield f'<text x="{left - 6}" y="{middle + size * 0.36:.1f}" font-size="{size}" fill="{colour}" text-anchor="end">{number}</text>'
    for number in range(COLUMNS):
        middle = (grid.lefts[number] + grid.lefts[number + 1]) / 2
        yield f'<text x="{middle}" y="{top - 8}" font-size="12" fill="#212529" text-anchor="middle">{number}</text>'


def trap_marks(grid, traps):
    """The traps, crossed."""
    for cell in sorted(traps):
        x, y = grid.centre(cell)
        yield rectangle(grid.cell(cell), 'fill="#ffe3e3" stroke="#ffc9c9"')
        yield f'<path d="M{x - 4} {y - 4}l8 8m0 -8l-8 8" stroke="#e03131" stroke-width="1.4"><title>trap {cell[0]}.{cell[1]}</title></path>'


def labels(grid, placed):
    """Each label's box with its name, and its jump below."""
    for it in placed:
        x, y = grid.centre((it.row, it.column))
        title = escape(f"{it.label} {it.row}.{it.column} {it.value:02x} {it.code} {it.operand}")
        yield f"<g><title>{title}</title>"
        yield rectangle(grid.box((it.row, it.column)), f'rx="5" fill="#fff" stroke="{COLOURS[it.code]}" stroke-width="1.6"')
        yield f'<text x="{x}" y="{y - 1}" font-size="12" font-weight="bold" text-anchor="middle">{escape(shown(it.label))}</text>'
        yield f'<text x="{x}" y="{y + 13}" font-size="10" fill="{COLOURS[it.code]}" text-anchor="middle">{it.code} {it.operand}</text></g>'


def legend_entries(codes, traps):
    """What the colours of a picture say: a mark and a text for each."""
    entries = [(f'<path d="M0 0H24" stroke="{COLOURS[it]}" stroke-width="2"/>', f"{it} {CODES[it]}") for it in codes]
    if traps:
        entries.append(('<path d="M8 -4l8 8m0 -8l-8 8" stroke="#e03131" stroke-width="1.4"/>', "trap: no label stands there"))
    return entries


def legend(entries, fit, top):
    """The entries side by side, as many in a line as fit."""
    for place, (mark, text) in enumerate(entries):
        x, y = LEFT + place % fit * LEGEND_WIDTH, top + place // fit * LEGEND_LINE
        yield f'<g transform="translate({x} {y})">{mark}<text x="32" y="4" font-size="12" fill="#212529">{escape(text)}</text></g>'


def head_of(code):
    """The arrow head of a jump's code."""
    box = 'viewBox="0 0 8 8" refX="7" refY="4" markerWidth="8" markerHeight="8" markerUnits="userSpaceOnUse" orient="auto"'
    return f'<marker id="{code}" {box}><path d="M0 0L8 4L0 8z" fill="{COLOURS[code]}"/></marker>'


def picture(placed, only=()):
    """The picture of a map, as SVG; with all its jumps, or with those from and to some labels alone."""
    traps = traps_of(placed)
    grid = Grid(placed, traps)
    codes = [code for code in CODES if any(it.code == code for it in placed)]
    entries = legend_entries(codes, traps)
    width, bottom = grid.lefts[-1] + MARGIN, grid.tops[-1] + 24
    fit = max(1, (width - LEFT) // LEGEND_WIDTH)
    arrows, values = jumps_drawn(grid, placed, traps, only)
    height = bottom - (-len(entries) // fit) * LEGEND_LINE
    parts = [
        f'<svg xmlns="http://www.w3.org/2000/svg" viewBox="0 0 {width} {height}" width="{width}" height="{height}"'
        ' font-family="DejaVu Sans, Verdana, sans-serif">',
        f"<defs>{''.join(head_of(code) for code in codes)}</defs>",
        f'<rect width="{width}" height="{height}" fill="#fff"/>',
        *ground(grid), *trap_marks(grid, traps), *arrows, *labels(grid, placed), *values,
        *legend(entries, fit, bottom), "</svg>",
    ]
    return "\n".join(parts) + "\n"


def main(words=None):
    """Draws the map that is named, and returns the exit status."""
    options = argparse.ArgumentParser(description=__doc__.splitlines()[0])
    options.add_argument("map")
    options.add_argument("-o", metavar="FILE.svg")
    options.add_argument("--only", nargs="+", metavar="LABEL", default=[])
    named = options.parse_args(words)
    try:
        placed = read_map(named.map)
        missing = set(named.only) - {it.label for it in placed}
        if missing:
            raise Fault(f"{named.map}: no label {min(missing)}")
        drawn = picture(placed, named.only)
        if named.o:
            Path(named.o).write_text(drawn, encoding="utf-8")
        else:
            sys.stdout.write(drawn)
    except (Fault, OSError) as fault:
        print(f"matrix: {fault}", file=sys.stderr)
        return 1
    return 0


if __name__ == "__main__":
    sys.exit(main())
