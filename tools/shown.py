#!/usr/bin/env python3
"""Runs the commands that README and the guide show, on the very files of examples/, and compares what they print.

usage: tools/shown.py [--program FILE] [--write] [DOCUMENT ..]

A command stands in an indented block as a line `$ COMMAND`; the lines below it, to the next command or the block's
end, are what it prints. A line `..` there stands for any lines that are left out. Where a command ends with `<<END`, the
lines to `END` are what it reads. `./buravelo` is the program, which is built first where it is not, or the one that is
named.
All commands of a document run in order in one scratch folder, which has a copy of examples/ and the scripts of tools/;
those of them that call the program find it in the variable BURAVELO. With --write the shown text is replaced by what
came, where nothing is left out of it. Then the rows of its tables of mends are tried (tools/mends.py). Exit status: 0
where all is as shown, else 1.
"""
import argparse
import os
import re
import shutil
import subprocess
import sys
import tempfile
from pathlib import Path

from mends import check_rows
from repository import ROOT

PROGRAM = "crates/micro_cli/out/micro_cli"
SAID_WITH_NO_WORDS = "refused words"
DOCUMENTS = ["README.md", "docs/guide.md", "docs/placing.md", "docs/mending.md"]
INDENT = "    "
PROMPT = INDENT + "$ "
SECONDS = 120


def commands_of(lines):
    """Yields (place of a command's last line, the command with what it reads, place behind its output) for each one shown."""
    place = 0
    while place < len(lines):
        if not lines[place].startswith(PROMPT):
            place += 1
            continue
        begin = place
        if lines[begin].endswith(" <<END"):
            place = lines.index(INDENT + "END", begin)
        end = place + 1
        while end < len(lines) and lines[end].startswith(INDENT) and not lines[end].startswith(PROMPT):
            end += 1
        yield place, "\n".join(line[len(INDENT):] for line in lines[begin:place + 1])[len("$ "):], end
        place = end


def printed(command, program, folder):
    """What a command prints on standard output, as lines."""
    script = re.sub(r"(^|[|;&] *)\./buravelo(?= |$)", lambda m: m.group(1) + str(program), command)
    done = subprocess.run(["bash", "-c", script], cwd=folder, stdin=subprocess.DEVNULL, stdout=subprocess.PIPE,
                          stderr=subprocess.STDOUT, env={**os.environ, "BURAVELO": str(program)}, timeout=SECONDS, check=False)
    return done.stdout.decode("utf-8", "replace").splitlines()


def is_shown(shown, came):
    """Whether the lines that came are those shown, where a shown line `..` stands for any lines."""
    if not shown:
        return not came
    if shown[0] == "..":
        return any(is_shown(shown[1:], came[skipped:]) for skipped in range(len(came) + 1))
    return bool(came) and came[0] == shown[0] and is_shown(shown[1:], came[1:])


def check_document(document, program, write):
    """Runs the commands of one document and tries its rows. Gives how many there are and how many are not as shown."""
    lines = document.read_text(encoding="utf-8").splitlines()
    edits, count, wrong = [], 0, 0
    with tempfile.TemporaryDirectory() as folder:
        shutil.copytree(ROOT / "examples", Path(folder) / "examples")
        (Path(folder) / "tools").symlink_to(ROOT / "tools")
        for place, command, end in commands_of(lines):
            count += 1
            shown = [line[len(INDENT):] for line in lines[place + 1:end]]
            came = printed(command, program, folder)
            if is_shown(shown, came):
                continue
            wrong += 1
            if write and ".." not in shown:
                edits.append((place + 1, end, [INDENT + line for line in came]))
            print(f"{document.relative_to(ROOT)}:{place + 1}: {command}\n  shown: {shown}\n  came:  {came}")
        rows, faults = check_rows(lines, Path(folder), lambda words, where: printed(words, program, where))
        for place, row, fault in faults:
            print(f"{document.relative_to(ROOT)}:{place + 1}: {row}\n  {fault}")
    for begin, end, text in reversed(edits):
        lines[begin:end] = text
    if edits:
        document.write_text("\n".join(lines) + "\n", encoding="utf-8")
    return count + rows, wrong + len({place for place, _, _ in faults})


def built_program():
    """The program, which `buravelo` has built where it was not; none where it can not be built."""
    said = subprocess.run([ROOT / "buravelo"], stdout=subprocess.PIPE, check=False, text=True).stdout
    return ROOT / PROGRAM if said.strip() == SAID_WITH_NO_WORDS else None


def main():
    """Checks the documents named, or README and the guide."""
    options = argparse.ArgumentParser(description=__doc__.splitlines()[0])
    options.add_argument("--program")
    options.add_argument("--write", action="store_true")
    options.add_argument("documents", nargs="*", default=DOCUMENTS)
    words = options.parse_args()
    program = Path(words.program).resolve() if words.program else built_program()
    if program is None or not os.access(program, os.X_OK):
        print("the program is not built")
        return 1
    total, wrong = 0, 0
    for name in words.documents:
        count, failed = check_document(ROOT / name, program, words.write)
        total, wrong = total + count, wrong + failed
    print(f"shown commands and rows: {total - wrong} as shown, {wrong} not")
    return 1 if wrong or not total else 0


if __name__ == "__main__":
    sys.exit(main())
