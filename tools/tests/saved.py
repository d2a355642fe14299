"""Saved files of two labels for the tests: A goes to B in its row, and B tests C, with a trap beside A."""

import samples  # noqa: F401 (puts the scripts on the path)

SOURCE = """\
slices 1   # one K bit, one field: words of 21 bits, in six PROMs
field u 2 1
start A
# the flow
A: NOP R0 u=3 | goto B  # on
B : INR R1 | ifc - A
"""
MAP = "A 0.3 32 JCR 2\nB 0.2 50 JCF 0\n"
LAYOUT = "slices 1\nkbus 1\nfield u 2 1\nprom 512 4\n"
FREE = 0xB0180
WORDS = {3: 0x1B01B2, 2: 0x9_18D0}
IMAGES = 6


def words():
    """The words of all addresses."""
    return [WORDS.get(address, FREE + address // 16) for address in range(512)]


def image(place, before=""):
    """The text of one PROM image of four bits."""
    frames = [f"B{word >> 4 * place & 15:04b}F".replace("1", "P").replace("0", "N") for word in words()]
    return before + "\n".join(frames) + "\n"


def write_all(test):
    """Writes the files into a test's folder, and gives the source's path and the name of the rest."""
    test.write("two.src", SOURCE)
    test.write("two.map", MAP)
    test.write("two.lay", LAYOUT)
    for place in range(IMAGES):
        test.write(f"two.p{place}.bpnf", image(place))
    return str(test.root / "two.src"), str(test.root / "two")
