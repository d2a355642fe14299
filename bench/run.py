"""Measures `make` of the built program beside SAT solvers, in one run, each alone on one processor.

    python3 bench/run.py WHAT ..

WHAT is a source's file, or sources that bench/sources.py makes: FAMILY:FIRST-LAST, or all:FIRST-LAST.
Peers are minisat and CaDiCaL, packages of Debian, each where it is installed. A table has for each source
the answer, the conflicts (of a placed source the program does not tell them), seconds of the processor, the
most memory, and for a refutation the seconds of `check`. A second table sums them by family.

    --program FILE     the built program (default: crates/micro_cli/out/micro_cli)
    --conflicts B      the budget of conflicts (default 100000; minisat has none)
    --limit S          seconds of the processor for each command (default 20)
    --peers NAMES      minisat, cadical or both with a comma between; none of them for an empty word
    --markdown FILE    saves both tables as Markdown
    --judge            judges each answer of the program with bench/check_refutation.py or by the map: slow
"""
import argparse
import os
import re
import sys
import tempfile
from concurrent.futures import ProcessPoolExecutor

from check_refutation import judge
from clauses import Variables, broken_clause, clauses_of, dimacs, true_variables
from program import read_program
from solvers import NO, PEERS, YES, Buravelo
from sources import FAMILIES, chosen
from tables import Row, disagreements, markdown, plain, source_table, sum_table

HERE = os.path.dirname(os.path.abspath(__file__))
PROGRAM = os.path.join(HERE, "..", "crates", "micro_cli", "out", "micro_cli")


def read(*path):
    """The text of a file."""
    with open(os.path.join(*path), encoding="latin-1", newline="") as file:
        return file.read()


def write(text, *path):
    """Writes a file."""
    with open(os.path.join(*path), "w", encoding="latin-1", newline="") as file:
        file.write(text)


def wanted(words):
    """Family, name and text of each source that the words choose."""
    for word in words:
        if os.path.exists(word):
            name = os.path.splitext(os.path.basename(word))[0]
            yield re.sub(r"(_[a-z]*[0-9]+)+$", "", name), name, read(word)
            continue
        for family, number in chosen(word):
            yield family, *FAMILIES[family](number)


def cells_of(folder):
    """The cells of the map that was saved, in source order."""
    return [tuple(map(int, line.split()[1].split("."))) for line in read(folder, "out.map").splitlines()]


def judge_answer(text, verdict, folder):
    """Holds the saved files of an answer against the clauses of docs/placement.md."""
    program = read_program(text)
    if verdict == YES:
        broken = broken_clause(clauses_of(program), true_variables(program, cells_of(folder)))
        if broken is not None:
            raise AssertionError(f"the map breaks clause {broken}")
    if verdict == NO:
        said = judge(clauses_of(program), Variables(len(program.labels)).count, read(folder, "out.ref"))
        if not said.startswith("refutes"):
            raise AssertionError(f"the refutation is {said}")


def write_clauses(text, folder):
    """Writes what the peers read."""
    write(dimacs(read_program(text)), folder, "source.cnf")


def apart(function, *values):
    """Calls a function in a process of its own: a command's memory is told as at least that of who starts it."""
    with ProcessPoolExecutor(1) as pool:
        return pool.submit(function, *values).result()


def measure_source(family, name, text, solvers, options):
    """A row of the table."""
    with tempfile.TemporaryDirectory() as folder:
        write(text, folder, "source.src")
        write("", folder, "quiet.scr")
        apart(write_clauses, text, folder)
        answers = {solver.name: solver.solve(folder, options.limit, options.conflicts) for solver in solvers}
        if options.judge:
            apart(judge_answer, text, answers[Buravelo.name].verdict, folder)
    return Row(family, name, len(read_program(text).labels), answers)


def show(row):
    """Prints a row as soon as it is measured."""
    said = [f"{name} {answer.verdict} {answer.seconds:.2f} s" for name, answer in row.answers.items()]
    print(f"{row.source}: {', '.join(said)}", flush=True)


def read_options(words):
    """The options of the command line."""
    parser = argparse.ArgumentParser(description=__doc__, formatter_class=argparse.RawDescriptionHelpFormatter)
    parser.add_argument("what", nargs="+")
    parser.add_argument("--program", default=PROGRAM)
    parser.add_argument("--conflicts", type=int, default=100000)
    parser.add_argument("--limit", type=int, default=20)
    parser.add_argument("--peers", default=",".join(peer.name for peer in PEERS))
    parser.add_argument("--markdown")
    parser.add_argument("--judge", action="store_true")
    return parser.parse_args(words)


def main(words):
    """Measures, and prints both tables."""
    options = read_options(words)
    solvers = [Buravelo(options.program)] + [
        peer for peer in PEERS if peer.name in options.peers.split(",") and peer.installed()]
    rows = []
    for family, name, text in wanted(options.what):
        rows.append(measure_source(family, name, text, solvers, options))
        show(rows[-1])
    names = [solver.name for solver in solvers]
    tables = [sum_table(rows, names), source_table(rows, names)]
    print("\n" + "\n".join(map(plain, tables)))
    if options.markdown:
        write("\n".join(map(markdown, tables)), options.markdown)
    if disagreements(rows):
        sys.exit("solvers disagree: " + ", ".join(disagreements(rows)))


if __name__ == "__main__":
    main(sys.argv[1:])
