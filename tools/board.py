#!/usr/bin/env python3
"""Carries PROM images from this project's order of bits to that of a board, and back.

usage: tools/board.py write TABLE OUT FOLDER           OUT.lay, OUT.p0.bpnf, .. to the board's images in FOLDER
       tools/board.py read TABLE FOLDER LAYOUT OUT     the board's images in FOLDER to OUT.lay, OUT.p0.bpnf, ..

The table has a line for each image of the board, `image NAME BIT BIT ..`: its file is FOLDER/NAME.bpnf, and its 4 or
8 bits follow as a BPNF frame has them, the highest first. A bit is the number of a bit of the word; with `/` before
it the board has it inverted. `-` is no bit of the word: 0 is written, and 1 for `/-`; what is read there is ignored.
Each bit of the word stands at one place. `#` begins a comment. Addresses are the same on both sides.

What is written is a new folder, FOLDER or that of OUT. It comes whole or not at all, and nothing that was there is
changed. Exit status: 0, or 1 with a line that says why nothing was written; 2 where the words are not as above.
"""

import argparse
import os
import re
import shutil
import sys
from pathlib import Path

WORDS = 512
WIDEST_WORD = 96
WORD_BITS_BESIDE_K_AND_FIELDS = 18
PROM_BITS = (4, 8)
LONGEST_FILE = 65536
NUMBER = r"(0x[0-9A-Fa-f]+|[0-9]+)"
LAYOUT_LINE = re.compile(rf"slices {NUMBER}|kbus (?P<kbus>{NUMBER})|field \w+ (?P<field>{NUMBER}) {NUMBER}"
                         rf"|prom (?:512|0x200) (?P<prom>{NUMBER})|write \w+", re.ASCII)
TABLE_LINE = re.compile(r"image ([A-Za-z0-9_]{1,32})((?: /?(?:[0-9]{1,2}|-))+)")


class Refused(Exception):
    """Why nothing is written."""


def bytes_of(file):
    """What a file holds."""
    try:
        with open(file, "rb") as opened:
            held = opened.read(LONGEST_FILE + 1)
    except OSError as fault:
        raise Refused(f"{file}: {fault.strerror}") from fault
    if len(held) > LONGEST_FILE:
        raise Refused(f"{file}: it has more than {LONGEST_FILE} bytes")
    return held


def lines_of(file):
    """The lines of a file of lines that are not empty, each with its number, without comments and with single spaces."""
    for number, line in enumerate(bytes_of(file).decode("latin-1").split("\n"), 1):
        words = line.removesuffix("\r").partition("#")[0].replace("\t", " ").split(" ")
        text = " ".join(word for word in words if word)
        if text:
            yield number, text


def layout_of(file):
    """How wide the words and the PROMs of a layout are."""
    k_bits, fields, prom = 1, 0, 4
    for number, text in lines_of(file):
        told = LAYOUT_LINE.fullmatch(text)
        if told is None:
            raise Refused(f"{file} line {number}: it is no line of a layout")
        value = {kind: int(of, 0 if of.startswith("0x") else 10) for kind, of in told.groupdict().items() if of}
        k_bits, prom = value.get("kbus", k_bits), value.get("prom", prom)
        fields += value.get("field", 0)
    width = WORD_BITS_BESIDE_K_AND_FIELDS + k_bits + fields
    if width > WIDEST_WORD or prom not in PROM_BITS:
        raise Refused(f"{file}: it has words of {width} bits in PROMs of {prom}")
    return width, prom


def places_of(bits):
    """The bits of an image's line, each with whether it is inverted; no bit of the word is None."""
    return [(None if it.endswith("-") else int(it.removeprefix("/")), it.startswith("/")) for it in bits]


def table_of(file, width):
    """The images of a table, by their names, for words of a width: of each its places, the highest first."""
    images, seen = {}, set()
    for number, text in lines_of(file):
        told = TABLE_LINE.fullmatch(text)
        if told is None:
            raise Refused(f"{file} line {number}: it is not of the form `image NAME BIT BIT ..`")
        name, places = told[1], places_of(told[2].split())
        if name.lower() in map(str.lower, images):
            raise Refused(f"{file} line {number}: there is an image {name} above")
        if len(places) not in PROM_BITS:
            raise Refused(f"{file} line {number}: it has {len(places)} bits and not 4 or 8")
        for bit in (bit for bit, _ in places if bit is not None):
            if bit >= width or bit in seen:
                what = "stands at two places" if bit in seen else f"is not in words of {width} bits"
                raise Refused(f"{file} line {number}: bit {bit} {what}")
            seen.add(bit)
        images[name] = places
    for bit in range(width):
        if bit not in seen:
            raise Refused(f"{file}: bit {bit} of the word is in no image")
    return images


def image_of(file, bits):
    """The words of a PROM image, or its first fault, by the rules of docs/formats.md."""
    text, words = bytes_of(file), []
    begin = text.find(b"B")
    while begin >= 0:
        if len(words) == WORDS:
            raise Refused(f"{file} byte {begin} TooMany")
        for place in range(begin + 1, begin + bits + 2):
            if place == len(text):
                raise Refused(f"{file} byte {begin} CutWord")
            if text[place] not in (b"PN" if place <= begin + bits else b"F"):
                raise Refused(f"{file} byte {place} BadLetter")
        frame = text[begin + 1:begin + bits + 1]
        words.append(int(frame.translate(bytes.maketrans(b"PN", b"10")), 2))
        begin = text.find(b"B", begin + bits + 2)
    if len(words) < WORDS:
        raise Refused(f"{file} words {len(words)} TooFew")
    return words


def image_text(words, bits):
    """The canonical text of a PROM image."""
    return "".join(f"B{word:0{bits}b}F\n" for word in words).translate(str.maketrans("01", "NP")).encode()


def image_file(out, number):
    """The file of an image in this project's order."""
    return Path(f"{out}.p{number}.bpnf")


def board_word(places, word):
    """What an image of the board has for a word."""
    value = 0
    for bit, inverted in places:
        value = 2 * value + ((0 if bit is None else word >> bit & 1) ^ inverted)
    return value


def word_bits(places, value):
    """The bits of the word that an image of the board tells."""
    return sum(((value >> place & 1) ^ inverted) << bit
               for place, (bit, inverted) in enumerate(reversed(places)) if bit is not None)


def save_new_folder(folder, texts):
    """Writes files into a new folder, which has its name only when all of them are whole."""
    if os.path.lexists(folder):
        raise Refused(f"{folder}: it is there already; a new folder is written")
    growing = folder.parent / f".{folder.name}.{os.getpid()}"
    try:
        growing.mkdir()
    except OSError as fault:
        raise Refused(f"{folder}: {fault.strerror}") from fault
    try:
        for name, text in texts.items():
            with open(growing / name, "xb") as file:
                file.write(text)
                file.flush()
                os.fsync(file.fileno())
        growing.rename(folder)
    except OSError as fault:
        raise Refused(f"{folder}: {fault.strerror}") from fault
    finally:
        shutil.rmtree(growing, ignore_errors=True)


def write_board(table, out, folder):
    """Writes the board's images of an output."""
    width, prom = layout_of(f"{out}.lay")
    images, count = table_of(table, width), -(-width // prom)
    if image_file(out, count).exists():
        raise Refused(f"{image_file(out, count)}: words of {width} bits fill {count} images; is it of an earlier run?")
    parts = [image_of(image_file(out, number), prom) for number in range(count)]
    words = [sum(part[cell] << prom * number for number, part in enumerate(parts)) for cell in range(WORDS)]
    texts = {f"{name}.bpnf": image_text([board_word(places, word) for word in words], len(places))
             for name, places in images.items()}
    save_new_folder(Path(folder), texts)
    print(f"{len(texts)} images in {folder}")


def read_board(table, folder, layout, out):
    """Writes the images in this project's order of a board's images, and a copy of the layout beside them."""
    width, prom = layout_of(layout)
    told = [(places, image_of(Path(folder) / f"{name}.bpnf", len(places)))
            for name, places in table_of(table, width).items()]
    words = [sum(word_bits(places, values[cell]) for places, values in told) for cell in range(WORDS)]
    count, name = -(-width // prom), Path(out).name
    texts = {f"{name}.lay": bytes_of(layout)}
    for number in range(count):
        part = [word >> prom * number & (1 << prom) - 1 for word in words]
        texts[image_file(name, number).name] = image_text(part, prom)
    save_new_folder(Path(out).parent, texts)
    print(f"{count} images and {name}.lay in {Path(out).parent}")


def main(words=None):
    """Does what the words ask, and returns the exit status."""
    options = argparse.ArgumentParser(description=__doc__, formatter_class=argparse.RawDescriptionHelpFormatter)
    commands = options.add_subparsers(dest="command", required=True)
    for name, command, places in (("write", write_board, "table out folder"), ("read", read_board, "table folder layout out")):
        one = commands.add_parser(name, help=command.__doc__)
        one.set_defaults(call=command)
        for place in places.split():
            one.add_argument(place, metavar=place.upper())
    asked = vars(options.parse_args(words))
    call = asked.pop("call")
    asked.pop("command")
    try:
        call(**asked)
    except Refused as why:
        print(f"refused {why}")
        return 1
    return 0


if __name__ == "__main__":
    sys.exit(main())
