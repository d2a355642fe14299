"""The program and its peers, each asked for one source: an answer, its conflicts and what it cost."""
import os
import re
import shutil
from dataclasses import dataclass

from measured import measure

SATISFIABLE, UNSATISFIABLE = 10, 20  # the exit statuses on which SAT solvers agreed
YES, NO, SPENT, TIMED_OUT = "placed", "refuted", "undecided", "time"


@dataclass(frozen=True)
class Answer:
    """What a solver said of a source."""
    verdict: str
    seconds: float
    megabytes: float
    conflicts: int | None = None  # None where it is not told
    check_seconds: float | None = None  # of a refutation
    reading: float = 0.0  # of the seconds, those that a peer says it took to read the clauses

    def decided(self):
        """Whether it is a yes or a no."""
        return self.verdict in (YES, NO)


class Buravelo:
    """The program of this repository. It tells its conflicts only where it places nothing."""
    name = "buravelo"

    def __init__(self, program):
        self.program = os.path.abspath(program)

    def solve(self, folder, limit, conflicts):
        """Makes `source.src` of the folder, and checks the refutation if there is one."""
        words = ["make", "source.src", "quiet.scr", "out", "clocks=0", f"conflicts={conflicts}"]
        run = measure([self.program, *words], folder, limit)
        first = run.output.split("\n")[0]
        said = re.fullmatch(r"(placed|refuted|undecided)(?: (\d+))?", first)
        if said is None:
            verdict = TIMED_OUT if run.timed_out() else first or f"status {run.status}"
            return Answer(verdict, run.seconds, run.megabytes)
        # The last line of a refutation is learned from no conflict above level 0.
        learned = None if said[2] is None else int(said[2]) - (said[1] == NO)
        check = self.check(folder, limit, first) if said[1] == NO else None
        return Answer(said[1], run.seconds, run.megabytes, learned, check)

    def check(self, folder, limit, refuted):
        """The seconds that `check` takes to accept the refutation."""
        run = measure([self.program, "check", "source.src", "out.ref"], folder, limit)
        if run.output != refuted.replace("refuted", "refutes") + "\n" and not run.timed_out():
            raise AssertionError(f"check says {run.output!r} of a refutation")
        return run.seconds


class Peer:
    """A SAT solver that reads DIMACS. Its time holds the reading, which for the program is the making of clauses."""

    def __init__(self, name, options):
        self.name = name
        self.options = options

    def installed(self):
        """Whether the machine has it."""
        return shutil.which(self.name) is not None

    def solve(self, folder, limit, conflicts):
        """Solves `source.cnf` of the folder."""
        options = [option.format(conflicts=conflicts) for option in self.options]
        run = measure([self.name, *options, "source.cnf"], folder, limit)
        told = re.findall(r"^(?:c )?conflicts *: *(\d+)", run.output, re.MULTILINE)
        verdict = {SATISFIABLE: YES, UNSATISFIABLE: NO}.get(run.status)
        if verdict is None:
            # minisat ends by itself when its time is up.
            verdict = TIMED_OUT if run.timed_out() or run.seconds > 0.9 * limit else SPENT
        # CaDiCaL is silent of conflicts where there was none.
        found = int(told[-1]) if told else 0 if verdict in (YES, NO) else None
        read = re.search(r"^(?:c parsed .* in|\|  Parse time:) +([0-9.]+) s", run.output, re.MULTILINE)
        return Answer(verdict, run.seconds, run.megabytes, found, reading=float(read[1]) if read else 0.0)


# Only CaDiCaL takes a budget of conflicts.
PEERS = [Peer("minisat", ["-verb=1"]), Peer("cadical", ["-n", "-c", "{conflicts}"])]
