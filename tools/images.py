"""What the scripts of this folder read of the files that `make` saves and of sources: maps, layouts, PROM images."""

import dataclasses
import re
from pathlib import Path

ROWS, COLUMNS = 32, 16
CELLS = ROWS * COLUMNS
MAP_LINE = re.compile(r"([A-Za-z_]\w*) (\d+)\.(\d+) ([0-9a-f]{2}) (J[A-Z]{2}) (\d+)", re.ASCII)
LABEL = re.compile(r"\s*([A-Za-z_]\w*)\s*:", re.ASCII)
WIDTH_WITHOUT_FIELDS = 18


class Fault(Exception):
    """A file that is not as it should be; the text says which and how."""


@dataclasses.dataclass(frozen=True)
class Placed:
    """A line of a map: a label, its cell, and its jump as AC value, code and operand."""

    label: str
    row: int
    column: int
    value: int
    code: str
    operand: int

    @property
    def address(self):
        """The address of the label's cell."""
        return COLUMNS * self.row + self.column


def text_of(name):
    """The text of a file; bytes that are no UTF-8 are replaced."""
    try:
        return Path(name).read_text(encoding="utf-8", errors="replace")
    except OSError as cause:
        raise Fault(f"{name}: {cause.strerror}") from None


def read_map(name):
    """The lines of a map file."""
    placed = []
    for number, line in enumerate(text_of(name).splitlines(), 1):
        found = MAP_LINE.fullmatch(line)
        if found is None or int(found[2]) >= ROWS or int(found[3]) >= COLUMNS:
            raise Fault(f"{name}: line {number} is no line of a map")
        placed.append(Placed(found[1], int(found[2]), int(found[3]), int(found[4], 16), found[5], int(found[6])))
    return placed


def number_of(word):
    """The value of a number's token, decimal or hexadecimal."""
    return int(word[2:], 16) if word.startswith("0x") else int(word)


def read_layout(name):
    """The width of the microword and that of a PROM, by a layout file."""
    width, kbus, prom = WIDTH_WITHOUT_FIELDS, 1, 4
    for number, line in enumerate(text_of(name).splitlines(), 1):
        words = line.partition("#")[0].split()
        try:
            if words[:1] == ["kbus"]:
                kbus = number_of(words[1])
            elif words[:1] == ["field"]:
                width += number_of(words[2])
            elif words[:1] == ["prom"]:
                prom = number_of(words[2])
        except (IndexError, ValueError):
            raise Fault(f"{name}: line {number} is no line of a layout") from None
    if prom not in (4, 8):
        raise Fault(f"{name}: PROMs of {prom} bits")
    return width + kbus, prom


def read_image(name, bits):
    """The 512 words of a PROM image, by the frames of its BPNF text; all else is comment."""
    pieces = text_of(name).split("B")[1:]
    frame = re.compile(f"([PN]{{{bits}}})F")
    frames = [frame.match(piece) for piece in pieces]
    if None in frames or len(frames) != CELLS:
        raise Fault(f"{name}: not {CELLS} frames of {bits} bits")
    return [int(it[1].replace("P", "1").replace("N", "0"), 2) for it in frames]


def read_words(out):
    """The microwords at all 512 addresses that are saved under a name, and their width."""
    width, prom = read_layout(f"{out}.lay")
    words = [0] * CELLS
    for image in range(-(-width // prom)):
        for address, part in enumerate(read_image(f"{out}.p{image}.bpnf", prom)):
            words[address] |= part << image * prom
    return [word % (1 << width) for word in words], width


def read_instructions(name):
    """The instructions of a source: to each label the number of its line, and what stands there behind the label."""
    found = {}
    for number, line in enumerate(text_of(name).splitlines(), 1):
        code = line.partition("#")[0]
        label = LABEL.match(code)
        if label:
            found[label[1]] = number, code[label.end():].strip()
    return found
