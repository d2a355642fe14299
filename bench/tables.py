"""Tables of answers, as plain text and as Markdown, and their sums."""
from dataclasses import dataclass

from solvers import NO, YES
from sources import REALISTIC


@dataclass(frozen=True)
class Row:
    """A source and what each solver said of it, by the solver's name."""
    family: str
    source: str
    labels: int
    answers: dict


def number(value, digits=0):
    """A number as a cell of a table; nothing where it is not told."""
    return "" if value is None else f"{value:,.{digits}f}"


def ratio(own, peer):
    """How many times the peer's seconds the program took, where both decide."""
    if not (own.decided() and peer.decided()):
        return ""
    return number(own.seconds / max(peer.seconds, 0.001), 2)


def source_table(rows, solvers):
    """A line for each source: answer, conflicts, seconds and megabytes of each solver, seconds of `check`, ratios."""
    own, *peers = solvers
    head = ["source", "labels"]
    for solver in solvers:
        head += [solver, "conflicts", "s", "MB"] + ["check s"] * (solver == own)
    table = [head + [f"to {peer}" for peer in peers]]
    for row in rows:
        cells = [row.source, str(row.labels)]
        for solver in solvers:
            answer = row.answers[solver]
            cells += [answer.verdict, number(answer.conflicts), number(answer.seconds, 2), number(answer.megabytes)]
            cells += [number(answer.check_seconds, 2)] * (solver == own)
        table.append(cells + [ratio(row.answers[own], row.answers[peer]) for peer in peers])
    return table


def both(rows, own, peer):
    """The pairs of answers where both decide."""
    pairs = [(row.answers[own], row.answers[peer]) for row in rows]
    return [(mine, other) for mine, other in pairs if mine.decided() and other.decided()]


def sum_line(name, rows, solvers):
    """How many are decided, the most conflicts told, the most memory, and seconds beside each peer."""
    own, *peers = solvers
    mine = [row.answers[own] for row in rows]
    told = [answer.conflicts for answer in mine if answer.decided() and answer.conflicts is not None]
    cells = [name, str(len(rows)), str(sum(answer.decided() for answer in mine)),
             number(max(told, default=None)), number(max(answer.megabytes for answer in mine))]
    for peer in peers:
        pairs = both(rows, own, peer)
        seconds = sum(answer.seconds for answer, _ in pairs)
        others = sum(answer.seconds for _, answer in pairs)
        decided = sum(row.answers[peer].decided() for row in rows)
        cells += [str(decided), str(len(pairs)), number(seconds, 2), number(others, 2),
                  number(seconds / others, 2) if others else "", number(sum(answer.reading for _, answer in pairs), 2)]
    return cells


def sum_table(rows, solvers):
    """A line for each family, one for what is realistic and one for all: what is decided, seconds where both decide."""
    own, *peers = solvers
    head = ["family", "sources", "decided", "most conflicts", "most MB"]
    for peer in peers:
        head += [f"{peer} decides", "both", f"{own} s", f"{peer} s", "ratio", "its reading s"]
    groups = {family: [row for row in rows if row.family == family] for family in dict.fromkeys(row.family for row in rows)}
    groups["realistic"] = [row for row in rows if row.family in REALISTIC]
    groups["all"] = rows
    return [head] + [sum_line(name, group, solvers) for name, group in groups.items() if group]


def plain(table):
    """A table in columns."""
    widths = [max(map(len, column)) for column in zip(*table)]
    lines = ["  ".join(cell.ljust(width) for cell, width in zip(line, widths)).rstrip() for line in table]
    return "\n".join(lines) + "\n"


def markdown(table):
    """A table in Markdown."""
    head, *lines = table
    return "".join("| " + " | ".join(line) + " |\n" for line in [head, ["---"] * len(head), *lines])


def disagreements(rows):
    """The sources of which one solver says that there is a placement, and another that there is none."""
    return [row.source for row in rows if {YES, NO} <= {answer.verdict for answer in row.answers.values()}]
