#!/usr/bin/env python3
"""Writes a script of the buses from a short form, which repeats and holds values, and gives them where the flow is.

usage: tools/script.py [FILE] [--source SRC] [--program PROGRAM]

FILE is the short form; without it, or with `-`, it is read from standard input. The script goes to standard output.
The short form has these lines; `#` begins a comment, words are parted by spaces or tabs, and KEY=VALUE is one word:

    mem ADDRESS VALUE       as in a script
    clk KEY=VALUE ..        the next clock, as in a script
    hold KEY=VALUE ..       from the next clock on each clock has these values; with `hold KEY=-` a key has none any more
    repeat N                the lines from here to its `end` stand N times; a repeat may stand in another
    end
    at LABEL KEY=V,V,..     whenever the flow is at LABEL, the next of these values; the last one is kept
    clocks N                the script has N clocks; without it, as many as `clk` gives

The keys are `m`, `i`, `px` and `sx`, and numbers are as in a script. Where a key has several values in one clock, that
of `clk` counts, then that of `at`, and then that of `hold`. After the last `clk` what is held is held to the end.

Where the flow is, the program tells: `at` needs the source, which --source names. The flow of N clocks is run under
the script without the values of `at`. Then they are put in where the flow was, and it is run again, until it stays
where it was. A value changes the flow only from the next clock on, so each run is right for one clock more at least.
With --source each clock has its label as a comment.

PROGRAM is ./buravelo of this repository, or what the variable BURAVELO names. Exit status: 0; 1 with a line that says
what is wrong with the short form, or what the program says of the source or the script.
"""

import argparse
import os
import re
import subprocess
import sys
import tempfile
from dataclasses import dataclass, field
from pathlib import Path

from images import Fault, read_instructions
from repository import ROOT

KEYS = ("m", "i", "px", "sx")
NUMBER = re.compile(r"\d+|0x[0-9a-fA-F]+", re.ASCII)
NAME = re.compile(r"[A-Za-z_]\w*", re.ASCII)
MOST_CLOCKS = 65536
END_OF_HOLD = "-"


@dataclass
class Short:
    """What a short form says: lines of the memory, the clocks' values, what holds and where, and how many clocks."""

    memory: list = field(default_factory=list)
    given: list = field(default_factory=list)
    held: list = field(default_factory=list)
    hold: dict = field(default_factory=dict)
    places: dict = field(default_factory=dict)
    clocks: int = None

    def length(self):
        """How many clocks the script has."""
        return len(self.given) if self.clocks is None else self.clocks


def number(word, line):
    """The value of a number."""
    if not NUMBER.fullmatch(word):
        raise Fault(f"line {line}: '{word}' is no number")
    return int(word, 16) if word.startswith("0x") else int(word)


def settings(words, line):
    """The pairs KEY=VALUE of a line, each key once."""
    found = {}
    for word in words:
        key, mark, value = word.partition("=")
        if not mark or key not in KEYS or key in found:
            raise Fault(f"line {line}: '{word}' is no KEY=VALUE, with a key of {', '.join(KEYS)}, each once")
        found[key] = value
    return found


def checked(values, line, also=()):
    """The settings, where each value is a number or one of some other words."""
    for value in values.values():
        if value not in also:
            number(value, line)
    return values


def lines_repeated(text):
    """The lines of a short form as number and words, with those between `repeat` and `end` as often as is said."""
    open_lists, counts = [[]], []
    for line, code in enumerate(text.splitlines(), 1):
        words = code.partition("#")[0].split()
        if words[:1] == ["repeat"]:
            if len(words) != 2:
                raise Fault(f"line {line}: repeat N")
            counts.append(number(words[1], line))
            open_lists.append([])
        elif words == ["end"]:
            if not counts:
                raise Fault(f"line {line}: an end without a repeat")
            repeated = open_lists.pop()
            times = counts.pop()
            if len(repeated) * times > MOST_CLOCKS:
                raise Fault(f"line {line}: more than {MOST_CLOCKS} lines are repeated")
            open_lists[-1] += repeated * times
        elif words:
            open_lists[-1].append((line, words))
    if counts:
        raise Fault("a repeat has no end")
    return open_lists[0]


def read_place(short, words, line):
    """Reads a line `at LABEL KEY=V,V,..`."""
    if len(words) < 3 or not NAME.fullmatch(words[1]):
        raise Fault(f"line {line}: at LABEL KEY=VALUE,VALUE,..")
    place = short.places.setdefault(words[1], {})
    for key, values in settings(words[2:], line).items():
        if key in place:
            raise Fault(f"line {line}: {key} is given twice at {words[1]}")
        place[key] = values.split(",")
        for value in place[key]:
            number(value, line)


def read_line(short, words, line):
    """Takes one line of a short form into what it says."""
    kind = words[0]
    if kind == "clk":
        short.given.append(checked(settings(words[1:], line), line))
        short.held.append(dict(short.hold))
    elif kind == "hold" and len(words) > 1:
        short.hold.update(checked(settings(words[1:], line), line, (END_OF_HOLD,)))
        short.hold = {key: value for key, value in short.hold.items() if value != END_OF_HOLD}
    elif kind == "mem" and len(words) == 3:
        number(words[1], line)
        number(words[2], line)
        short.memory.append(" ".join(words))
    elif kind == "at":
        read_place(short, words, line)
    elif kind == "clocks" and len(words) == 2 and short.clocks is None:
        short.clocks = number(words[1], line)
    else:
        raise Fault(f"line {line}: '{' '.join(words)}' is no line of a short form")


def read_short(text):
    """What a short form says."""
    short = Short()
    for line, words in lines_repeated(text):
        read_line(short, words, line)
    if short.length() > MOST_CLOCKS:
        raise Fault(f"{short.length()} clocks; there may be {MOST_CLOCKS}")
    if len(short.given) > short.length():
        raise Fault(f"{len(short.given)} lines of clk, and {short.clocks} clocks")
    return short


def script_of(short, labels):
    """The lines of the script where the flow is at these labels, or at none that is known."""
    visits = dict.fromkeys(short.places, 0)
    lines = list(short.memory)
    for clock in range(short.length()):
        label = labels[clock] if labels else None
        is_given = clock < len(short.given)
        values = dict(short.held[clock] if is_given else short.hold)
        if label in visits:
            values.update({key: told[min(visits[label], len(told) - 1)] for key, told in short.places[label].items()})
            visits[label] += 1
        values.update(short.given[clock] if is_given else {})
        told = " ".join(["clk", *(f"{key}={values[key]}" for key in KEYS if key in values)])
        lines.append(f"{told} # {label}" if label else told)
    return lines


def labels_told(program, folder, lines, source, clocks):
    """Runs the flow under a script, in a folder with the source, and gives the label of each clock."""
    (folder / "script").write_text("\n".join(lines) + "\n", encoding="utf-8")
    words = [str(program), "flow", "source", "script", f"clocks={clocks}"]
    done = subprocess.run(words, cwd=folder, stdin=subprocess.DEVNULL, stdout=subprocess.PIPE, check=False, text=True)
    if done.returncode == 0:
        return [line.split(" ", 2)[1] for line in done.stdout.splitlines()]
    said = done.stdout.strip().replace("refused source ", f"refused {source} ")
    in_script = re.match(r"refused script line (\d+)", said)
    raise Fault(f"{said}: {lines[int(in_script[1]) - 1]}" if in_script else said or f"the program ends with status {done.returncode}")


def settled(short, source, program):
    """The script under which the flow is where the values are given."""
    missing = set(short.places) - set(read_instructions(source))
    if missing:
        raise Fault(f"{source}: no label {min(missing)}")
    with tempfile.TemporaryDirectory() as name:
        folder = Path(name)
        (folder / "source").write_bytes(Path(source).read_bytes())
        lines, labels = script_of(short, None), None
        for _ in range(short.length() + 2):
            told = labels_told(program, folder, lines, source, short.length())
            if told == labels:
                return lines
            labels = told
            lines = script_of(short, labels)
    raise Fault("the program tells another flow in each run")


def main(words=None):
    """Writes the script, and returns the exit status."""
    options = argparse.ArgumentParser(usage=__doc__.splitlines()[2].removeprefix("usage: "))
    options.add_argument("file", nargs="?", default="-")
    options.add_argument("--source")
    options.add_argument("--program", default=os.environ.get("BURAVELO", ROOT / "buravelo"))
    named = options.parse_args(words)
    try:
        text = sys.stdin.read() if named.file == "-" else Path(named.file).read_text(encoding="utf-8")
        short = read_short(text)
        if short.places and named.source is None:
            raise Fault("there is a line 'at'; name the source with --source")
        lines = settled(short, named.source, Path(named.program).resolve()) if named.source else script_of(short, None)
    except (Fault, OSError, UnicodeDecodeError) as fault:
        print(f"script: {fault}", file=sys.stderr)
        return 1
    print("\n".join(lines))
    return 0


if __name__ == "__main__":
    sys.exit(main())
