"""A plain, slow checker of refutations, written from docs/formats.md and docs/refutations.md.

    python3 bench/check_refutation.py SOURCE REFUTATION

prints what `check` should print: `refutes K`, `derived K` or `rejected line K WHY`. It shares no code with
the program, so where both agree, neither the list of clauses nor the judging of lines is at fault.
"""
import re
import sys

from clauses import Variables, clauses_of
from program import read_program

LINE = re.compile(r"(0|[1-9][0-9]*)((?: -?[1-9][0-9]*)*) 0((?: [1-9][0-9]*)*) 0")
GREATEST = 2**32 - 1


class Rejected(Exception):
    """Why a line is refused."""


def read_line(text):
    """The number, the literals and the hints of a line without its LF."""
    match = LINE.fullmatch(text)
    if match is None:
        raise Rejected("Text")
    number, literals, hints = int(match[1]), [int(word) for word in match[2].split()], [int(word) for word in match[3].split()]
    if max([number, *map(abs, literals), *hints]) > GREATEST:
        raise Rejected("Text")
    return number, literals, hints


def follow(clauses, literals, hints):
    """Goes through the hints of a line whose literals are taken to be false."""
    true = {-literal for literal in literals}
    for place, hint in enumerate(hints, 1):
        open_literals = [literal for literal in clauses[hint - 1] if -literal not in true]
        if place == len(hints):
            if open_literals:
                raise Rejected("NotFalse")
        elif len(open_literals) != 1 or open_literals[0] in true:
            raise Rejected("NotUnit")
        else:
            true.add(open_literals[0])


def judge_line(clauses, variables, text):
    """The literals of a line that is derived from the clauses."""
    number, literals, hints = read_line(text)
    if clauses and not clauses[-1]:
        raise Rejected("After")
    if number != len(clauses) + 1:
        raise Rejected("Number")
    if any(abs(literal) > variables for literal in literals) or len({abs(literal) for literal in literals}) < len(literals):
        raise Rejected("Literal")
    if not hints or max(hints) >= number:
        raise Rejected("Hint")
    follow(clauses, literals, hints)
    return literals


def judge(clauses, variables, text):
    """The answer for a whole text."""
    clauses = list(clauses)
    *lines, rest = text.split("\n")
    for place, line in enumerate(lines + [rest] * (rest != ""), 1):
        try:
            if place > len(lines):
                raise Rejected("Text")
            clauses.append(judge_line(clauses, variables, line))
        except Rejected as why:
            return f"rejected line {place} {why}"
    refutes = bool(lines) and not clauses[-1]
    return f"{'refutes' if refutes else 'derived'} {len(lines)}"


def main(words):
    """Prints the answer for a source and a refutation."""
    if len(words) != 2:
        sys.exit(__doc__)
    with open(words[0], encoding="ascii", errors="replace") as source, open(words[1], encoding="latin-1", newline="") as lines:
        program = read_program(source.read())
        print(judge(clauses_of(program), Variables(len(program.labels)).count, lines.read()))


if __name__ == "__main__":
    main(sys.argv[1:])
