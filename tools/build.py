#!/usr/bin/env python3
"""Proves and builds the program, and tells on standard error how far it is. `buravelo` calls it.

usage: tools/build.py

Crates that do not stand on each other are proved side by side, each on one processor. Where the crates left stand on
each other in a row, with the program's own at its end, they are proved one after another, each on all processors.
What earlier commands proved is kept in crates/*/out.
Exit status: 0, or 70 where the program was not built; standard error then has what the toolchain said.
"""

import os
import pathlib
import re
import signal
import subprocess
import sys
import tempfile
import time

from repository import ROOT, all_below, crates_listed

PROGRAM = "micro_cli"
SAID_WITH_NO_WORDS = "refused words"
MEMORY_OF_A_PROOF = 2_000_000_000
DONE = re.compile(r"== (\w+)$")
BEGUN = re.compile(r"rt: chose --jobs \d+ for (\w+)$")


class BuildFailed(Exception):
    """The program was not built; the text says what the toolchain said."""


def tell(text):
    """Writes a line for whoever waits."""
    print(f"buravelo: {text}", file=sys.stderr, flush=True)


def memory_free(path="/proc/meminfo"):
    """The bytes of memory that a program may still take, as the system guesses them."""
    rows = (line.split() for line in pathlib.Path(path).read_text(encoding="ascii").splitlines())
    return next(int(words[1]) * 1024 for words in rows if words[0] == "MemAvailable:")


def proofs_at_once():
    """How many crates are proved side by side: one for each processor, where memory allows."""
    return max(1, min(len(os.sched_getaffinity(0)), memory_free() // MEMORY_OF_A_PROOF))


class Progress:
    """Which crates are checked, and which the toolchain is at: it takes them in order of how many stand below."""

    def __init__(self, root, at_once):
        crates = crates_listed(root)
        self.below = {name: all_below(crates, name) for name in [*all_below(crates, PROGRAM), PROGRAM]}
        self.order = sorted(self.below, key=lambda name: len(self.below[name]))
        self.at_once = at_once
        self.checked = set()

    def left(self):
        """The crates that are not yet checked, lowest first."""
        return [name for name in self.order if name not in self.checked]

    def at_work(self):
        """The crates that are begun, not yet checked, and wait for no other."""
        begun = self.order[: len(self.checked) + self.at_once]
        return [name for name in begun if name not in self.checked and self.checked.issuperset(self.below[name])]

    def is_row(self):
        """Whether each crate that is left stands on the one before it, so that no two are proved side by side."""
        left = self.left()
        return all(low in self.below[high] for low, high in zip(left, left[1:]))

    def add(self, names):
        """Takes these crates as checked, and writes how many are left and which are being proved."""
        if not self.checked.issuperset(names) or not names:
            self.checked.update(names)
            tell(f"{len(self.left())} of {len(self.order)} crates left, now {', '.join(self.at_work())}")

    def read(self, line):
        """Reads a line of the toolchain: one names a crate that it is done with, another one whose proof begins."""
        done, begun = DONE.match(line), BEGUN.match(line)
        if done and done[1] in self.below:
            self.add([done[1]])
        elif begun and begun[1] in self.below:
            self.add(self.below[begun[1]])


def prove_side_by_side(root, progress):
    """Proves crates several at a time, until those that are left stand in a row."""
    said, command = [], ["rt", "all", "check", "--jobs", str(progress.at_once)]
    with subprocess.Popen(command, cwd=root / "crates" / PROGRAM, text=True, stdout=subprocess.PIPE, stderr=subprocess.STDOUT) as rt:
        for line in rt.stdout:
            said.append(line)
            progress.read(line)
            if progress.is_row():
                # It would go on with one processor for each crate.
                rt.terminate()
                return
    if rt.returncode != 0:
        raise BuildFailed("".join(said))


def build_program(root, progress):
    """Proves the crates that are left, builds the program and runs it with no words."""
    said, place = [], root / "crates" / PROGRAM
    with tempfile.TemporaryFile("w+", encoding="utf-8") as printed:
        with subprocess.Popen(["rt", "run"], cwd=place, text=True, stdin=subprocess.DEVNULL, stdout=printed, stderr=subprocess.PIPE) as rt:
            for line in rt.stderr:
                said.append(line)
                progress.read(line)
        printed.seek(0)
        if (words := printed.read()).strip() != SAID_WITH_NO_WORDS:
            raise BuildFailed("".join(said) + words)


def main(root=ROOT):
    """Builds the program, dated as of the start: a source that is changed meanwhile is newer."""
    began = time.time()
    try:
        progress = Progress(root, proofs_at_once())
        tell(f"proving and building the program, {progress.at_once} crates side by side; README.md says how long it takes")
        progress.add([])
        prove_side_by_side(root, progress)
        build_program(root, progress)
        os.utime(root / "crates" / PROGRAM / "out" / PROGRAM, (began, began))
    except FileNotFoundError as lacking:
        tell(f"not found: {lacking.filename}")
        return 70
    except BuildFailed as failure:
        print(failure, file=sys.stderr)
        tell("the program was not built; what the toolchain said stands above")
        return 70
    return 0


if __name__ == "__main__":
    signal.signal(signal.SIGINT, signal.SIG_DFL)
    sys.exit(main())
