"""Writes sources to measure on, by family and number.

    python3 bench/sources.py FOLDER FAMILY:FIRST-LAST ..

writes the sources of these numbers into the folder, each as NAME.src, and prints their names. With
`all` in place of FAMILY it writes those of every family. Without words it lists the families.
"""
import os
import sys

from families import pairs, pigeonholes, placed, squeezed, stars, tests, wild
from tried import tried, tried_free

FAMILIES = {
    "placed": placed, "squeezed": squeezed, "wild": wild, "try": tried, "try_free": tried_free,
    "tests": tests, "pigeonholes": pigeonholes, "stars": stars, "pairs": pairs,
}
# The families that stand for what people write; the others are hard on purpose.
REALISTIC = ("fetch_execute", "placed", "squeezed", "wild", "try", "try_free")


def chosen(word):
    """The families and numbers of a word such as `tests:1-20` or `all:3`."""
    family, _, span = word.partition(":")
    first, _, last = (span or "1-20").partition("-")
    names = list(FAMILIES) if family == "all" else [family]
    return [(name, number) for name in names for number in range(int(first), int(last or first) + 1)]


def main(words):
    """Writes what the words choose."""
    if len(words) < 2:
        for name, family in FAMILIES.items():
            print(f"{name:12} {family.__doc__}")
        return
    os.makedirs(words[0], exist_ok=True)
    for family, number in [pair for word in words[1:] for pair in chosen(word)]:
        name, text = FAMILIES[family](number)
        with open(os.path.join(words[0], name + ".src"), "w", encoding="ascii") as file:
            file.write(text)
        print(name)


if __name__ == "__main__":
    main(sys.argv[1:])
