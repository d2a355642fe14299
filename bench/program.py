"""Reads of a source what placing asks for: labels, start, pins, row bound and flow.

The source is taken to be one that the program accepts; what does not bear on placing is skipped.
"""
import re
from dataclasses import dataclass

from statements import OUTCOMES

TRAP = "-"
TOKEN = re.compile(r"[A-Za-z0-9_]+|[:|=-]")


@dataclass(frozen=True)
class Instruction:
    """A flow statement and its targets; a target is a label's number, or None for the trap."""
    statement: str
    targets: tuple

    def first(self):
        """The first outcome whose target is a label, and that label."""
        return next((outcome, target) for outcome, target in enumerate(self.targets) if target is not None)

    def traps(self):
        """The outcomes whose target is the trap."""
        return [outcome for outcome, target in enumerate(self.targets) if target is None]


@dataclass(frozen=True)
class Program:
    """A program to place. Labels are numbered from 0 in source order, and label i names instruction i."""
    labels: tuple
    start: int
    rows: int
    pins: tuple  # of (label, row, column), in source order
    instructions: tuple


def number_of(word):
    """The value of a number's token, decimal or hexadecimal."""
    return int(word[2:], 16) if word.startswith("0x") else int(word)


def read_program(text):
    """The program of an accepted source's text."""
    rows, start, pins, flows = 32, None, [], []
    for line in text.split("\n"):
        tokens = TOKEN.findall(line.split("#")[0])
        if tokens[1:2] == [":"]:
            flow = tokens[tokens.index("|") + 1:]
            flows.append((tokens[0], flow[0], flow[1:]))
        elif tokens[:1] == ["rows"]:
            rows = number_of(tokens[1])
        elif tokens[:1] == ["start"]:
            start = tokens[1]
        elif tokens[:1] == ["pin"]:
            pins.append((tokens[1], number_of(tokens[2]), number_of(tokens[3])))
    return named_program(rows, start, pins, flows)


def named_program(rows, start, pins, flows):
    """The program with numbers in place of names; a flow is (label, statement, names of targets)."""
    labels = tuple(label for label, _, _ in flows)
    numbers = {label: number for number, label in enumerate(labels)}
    instructions = []
    for label, statement, names in flows:
        if len(names) != OUTCOMES[statement]:
            raise ValueError(f"{label}: {statement} has {len(names)} targets")
        targets = tuple(None if name == TRAP else numbers[name] for name in names)
        instructions.append(Instruction(statement, targets))
    pinned = tuple((numbers[label], row, column) for label, row, column in pins)
    return Program(labels, numbers[start], rows, pinned, tuple(instructions))
