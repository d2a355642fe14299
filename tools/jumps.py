"""The eleven jumps of the 3001: which cells each can reach, by which value, as docs/machine.md has them."""

CODES = {
    "JCC": "in its column",
    "JZR": "to row 0; 15 is the strobe",
    "JCR": "in its row",
    "JFL": "by this clock's flag",
    "JCF": "by C",
    "JZF": "by Z",
    "JPR": "by the latch",
    "JLL": "by the latch's left bits",
    "JRL": "by the latch's right bits",
    "JCE": "in its column, by enable",
    "JPX": "by PX",
}


def reached(code, operand, row, column):
    """The cells that a jump reaches from a cell, in the order of the value that decides; one where nothing does."""
    half, four, eight, sixteen = column - column % 8, row - row % 4, row - row % 8, row - row % 16
    plain = {"JCC": (operand, column), "JZR": (0, operand), "JCR": (row, operand), "JCE": (eight + operand, column)}
    if code in plain:
        return [plain[code]]
    to_row, columns = {
        "JFL": (sixteen + operand, range(half + 2, half + 4)),
        "JCF": (eight + operand, range(half + 2, half + 4)),
        "JZF": (eight + operand, range(half + 2, half + 4)),
        "JPR": (eight + operand, range(16)),
        "JLL": (eight + operand, range(4, 8)),
        "JRL": (eight + 4 + operand, range(12, 16)),
        "JPX": (four + operand, range(16)),
    }[code]
    return [(to_row, to_column) for to_column in columns]
