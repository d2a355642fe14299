#!/usr/bin/env python3
"""Lists what `make` saved: one line for each label, with its word as the PROMs hold it and its line of the source.

usage: tools/listing.py SRC OUT

SRC is the source, and OUT the name under which `make` saved OUT.map, OUT.lay and the images OUT.p0.bpnf and so on.
The lines stand in the order of the addresses: address and word in hexadecimal, label, jump, and the line of the source
with its number. The word comes from the images. Last comes the word that all other cells share but for the row, which
it has in its lowest five bits. Exit status: 0, or 1 with a line that says which file is not as it should be, or at
which label or cell the files do not belong together.
"""

import sys

from images import CELLS, COLUMNS, Fault, read_instructions, read_map, read_words

JUMP_BITS = 7
HEAD = ("addr", "word", "label", "jump", "line", "source")


def rows_of(placed, words, digits, instructions):
    """The columns of each label's line, in the order of the addresses."""
    rows = []
    for it in sorted(placed, key=lambda one: one.address):
        word = words[it.address]
        if it.label not in instructions:
            raise Fault(f"{it.label}: in the map, and not in the source")
        if word % (1 << JUMP_BITS) != it.value:
            raise Fault(f"{it.label}: its jump is {it.value:02x} in the map and {word % (1 << JUMP_BITS):02x} in the images")
        line, text = instructions[it.label]
        rows.append((f"{it.address:03x}", f"{word:0{digits}x}", it.label, f"{it.code} {it.operand}", str(line), text))
    missing = [label for label in instructions if label not in {it.label for it in placed}]
    if missing:
        raise Fault(f"{missing[0]}: in the source, and not in the map")
    return rows


def free_line(placed, words, digits):
    """What stands in the cells without a label: in each the same word and its row."""
    free = sorted(set(range(CELLS)) - {it.address for it in placed})
    shared = {words[address] - address // COLUMNS for address in free}
    if len(shared) > 1:
        first = words[free[0]] - free[0] // COLUMNS
        odd = next(address for address in free if words[address] - address // COLUMNS != first)
        raise Fault(f"cell {odd // COLUMNS}.{odd % COLUMNS}: no label, and not the word of a free cell")
    return f"{len(free)} free cells: {shared.pop():0{digits}x} + row" if free else "no free cells"


def in_columns(rows):
    """The lines of a table, each column as wide as its widest entry; the line's number stands to the right."""
    widths = [max(len(row[place]) for row in rows) for place in range(len(HEAD))]
    for row in rows:
        cells = [text.rjust(width) if name == "line" else text.ljust(width) for name, text, width in zip(HEAD, row, widths)]
        yield " ".join(cells).rstrip()


def listing(source, out):
    """The lines of the listing."""
    placed = read_map(f"{out}.map")
    words, width = read_words(out)
    digits = -(-width // 4)
    rows = rows_of(placed, words, digits, read_instructions(source))
    return [*in_columns([HEAD, *rows]), free_line(placed, words, digits)]


def main(words):
    """Prints the listing and returns the exit status."""
    if len(words) != 2:
        print("usage: tools/listing.py SRC OUT", file=sys.stderr)
        return 1
    try:
        print("\n".join(listing(*words)))
    except Fault as fault:
        print(f"listing: {fault}", file=sys.stderr)
        return 1
    return 0


if __name__ == "__main__":
    sys.exit(main(sys.argv[1:]))
