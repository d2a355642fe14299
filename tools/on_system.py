#!/usr/bin/env python3
"""Runs the built program where the system fails it, and looks at what it says and what it leaves.

usage: tools/on_system.py [--program FILE]

It is run by hand and is no part of the gate. Each case runs a command where something is short or is taken away: the
disk, the folder, standard output, address space, stack, the size of files, or the time. It must end by no signal but the
one that the case sends, and else with the status that the guide lists for it or as an undisturbed run does; its text
must be a whole message, or with status 6 or a signal the beginning of the text of an undisturbed run, and nothing may
stand on standard error; and the saved files must be, in their order, those of the undisturbed run, then at most one
that is as it was or has a part of its text, and then those that were there before.
A limit on the size of files is the system's to keep: its signal XFSZ ends the program, unless it is ignored.
Full disks are small file systems in memory, which root alone can mount: without root these cases are skipped. Under
root the cases of what may not be read or written are run as another user. All is done in scratch folders. A line for
each case tells what came. Exit status: 1 where a case came otherwise.
"""

import argparse
import contextlib
import os
import re
import resource
import shutil
import signal
import subprocess
import sys
import tempfile
import time
from dataclasses import dataclass, field
from pathlib import Path

from repository import ROOT

PROGRAM = "crates/micro_cli/out/micro_cli"
SECONDS = 30
MEGABYTE = 1 << 20
PAGE = 4096
STACK_THAT_IS_ENOUGH = 64 << 10
ANOTHER_USER = 65534
OLD = b"of an earlier run\n"
SAID = {
    3: r"refused \S+ .*\n",
    4: r"refused words\n",
    5: r"cannot (save|read) \S+\n",
    7: r"((placed\n)?no memory\n)?",
    8: r"(rejected|derived) .*\n",
}

# name: words; a file is saved under `out`
ASKS = {
    "placed": "make count_down.src count_down.scr out clocks=4 conflicts=1000",
    "placed in PROMs of eight": "make wide.src count_down.scr out clocks=4 conflicts=1000",
    "refuted": "make two_strobes.src quiet.scr out clocks=0 conflicts=1000",
    "undecided": "make count_ones.src count_ones.scr out clocks=0 conflicts=1",
    "undecided, of 128 labels": "make placed_n128_r9.src quiet.scr out clocks=0 conflicts=0",
    "map": "map all_statements.src",
    "flow": "flow fetch_execute.src fetch_execute.scr clocks=200",
    "check": "check two_strobes.src two_strobes.ref",
    "run": "run saved count_down.scr clocks=200",
    "refused": "map count_down.src",
}
SAVING = ("placed", "placed in PROMs of eight", "refuted", "undecided")
LONG = "make stars_r2.src quiet.scr out clocks=0 conflicts=1000000"


@dataclass
class Ended:
    """How a command ended: its status, or a signal as a negative number; what it printed; and the files under `out`."""

    status: int
    printed: bytes = b""
    files: dict = field(default_factory=dict)
    errors: bytes = b""

    def told(self):
        """The status or signal, and the first line."""
        how = f"status {self.status}" if self.status >= 0 else signal.Signals(-self.status).name
        return ", ".join([how, *self.printed.decode("latin-1").splitlines()[:1]])


def order_of(name):
    """The place of a file of `out` in the order in which they are saved."""
    number = re.fullmatch(r"out\.p(\d+)\.bpnf", name)
    return (2, int(number[1])) if number else ({"out.map": 0, "out.lay": 1}.get(name, 3), 0)


def files_of(folder):
    """The plain files under `out` in a folder, with what they hold, in their order."""
    names = [it.name for it in Path(folder).glob("out.*") if it.is_file()]
    return {name: (Path(folder) / name).read_bytes() for name in sorted(names, key=order_of)}


def states_of(whole, before, after):
    """What became of the files of an answer, in short."""
    states = []
    for name in sorted(whole, key=order_of):
        held = after.get(name)
        if held == whole[name]:
            states.append("whole")
        else:
            states.append("as before" if held == before.get(name) else f"{name} {len(held)} of {len(whole[name])} bytes")
    counted = [f"{states.count(it)} {it}" if it in ("whole", "as before") else it for it in dict.fromkeys(states)]
    return "; " + ", ".join(counted) if counted else ""


def faults_of_files(whole, before, after):
    """What is wrong with the files that a command left, over those of an undisturbed run and those before it."""
    faults = [f"{name} is not of this answer" for name in after if name not in whole and name not in before]
    faults += [f"{name} has changed" for name in before if name not in whole and after.get(name) != before[name]]
    ended_at = None
    for name in sorted(whole, key=order_of):
        held, old = after.get(name), before.get(name)
        if ended_at is None and held == whole[name]:
            continue
        if held != old and (ended_at or held is None or not whole[name].startswith(held)):
            wrong = f"stands behind {ended_at}" if ended_at else "is neither whole, nor cut, nor as it was"
            faults.append(f"{name} {wrong}")
        ended_at = ended_at or name
    return faults


def faults_of_text(whole, came):
    """What is wrong with what a command printed, by how it ended."""
    if came.status == whole.status:
        return [] if came.printed == whole.printed else ["it printed something else"]
    if came.status < 0 or came.status == 6:
        return [] if whole.printed.startswith(came.printed) else ["it printed no beginning of its text"]
    message = SAID.get(came.status)
    if message is None or not re.fullmatch(message, came.printed.decode("latin-1")):
        return ["its message is not of its status"]
    return []


def faults_of(whole, before, came, may):
    """All that is wrong with how a command ended where something was taken from it, if it may end so or as ever."""
    faults = []
    if came.status not in (whole.status, *may):
        faults.append("it may not end so")
    if came.errors:
        faults.append("it wrote on standard error: " + came.errors.decode("latin-1").strip())
    faults += faults_of_text(whole, came) + faults_of_files(whole.files, before, came.files)
    saved_all = came.status == whole.status or came.status == 6
    if saved_all and any(came.files.get(name) != held for name, held in whole.files.items()):
        faults.append("it tells of files that are not whole")
    if came.status == 5 and came.printed.startswith(b"cannot save "):
        named = came.printed.split()[-1].decode("latin-1")
        first = next((name for name in sorted(whole.files, key=order_of) if came.files.get(name) != whole.files[name]), None)
        if first is not None and named != first and Path(named).name != first:
            faults.append(f"it names {named}, and {first} is not whole")
    return faults


class System:
    """The cases, each in a scratch folder of its own, and what came of them."""

    def __init__(self, program):
        self.wrong = self.count = self.skipped = 0
        self.scratch = Path(tempfile.mkdtemp())
        self.scratch.chmod(0o755)
        self.program = shutil.copy(program, self.scratch / "program")
        self.whole = {}

    def fresh(self, old=False):
        """A new folder with the inputs, and with old files under `out` where they are asked for; and those files."""
        folder = Path(tempfile.mkdtemp(dir=self.scratch))
        folder.chmod(0o755)
        for file in [*(ROOT / "examples").glob("*.*"), *(ROOT / "bench/eighteen").glob("*.src")]:
            shutil.copy(file, folder)
        wide = (folder / "count_down.src").read_text(encoding="utf-8").replace("start", "prom 512 8\nstart", 1)
        (folder / "wide.src").write_text(wide, encoding="utf-8")
        for name, held in self.whole["placed"].files.items() if self.whole else ():
            (folder / name.replace("out", "saved")).write_bytes(held)
        for name in ("out.map", "out.lay", "out.p0.bpnf", "out.p1.bpnf", "out.p7.bpnf", "out.ref", "out.part") if old else ():
            (folder / name).write_bytes(OLD)
        return folder, files_of(folder)

    def command(self, ask, out="out"):
        """The words of a command, with its output under another name."""
        return [self.program, *[out if word == "out" else word for word in ASKS.get(ask, ask).split()]]

    def run(self, folder, ask, out="out", limits=(), ignored=(), stdout=subprocess.PIPE, user=None):
        """Runs a command in a folder under limits, as a user, and tells how it ended."""
        def set_limits():
            for number in ignored:
                signal.signal(number, signal.SIG_IGN)
            for what, amount in limits:
                resource.setrlimit(what, (amount, amount))

        running = self.started(folder, ask, out, stdout=stdout, preexec_fn=set_limits, user=user)
        return self.ended(running, (folder / out).parent)

    def started(self, folder, ask, out="out", **how):
        """A command that runs in a folder, in a group of its own."""
        return subprocess.Popen(self.command(ask, out), cwd=folder, stdin=subprocess.DEVNULL, stderr=subprocess.PIPE,
                                start_new_session=True, **how)

    def ended(self, running, folder):
        """How a command ended, and what it left in a folder. One that does not end is killed."""
        try:
            printed, errors = running.communicate(timeout=SECONDS)
        except subprocess.TimeoutExpired:
            os.killpg(running.pid, signal.SIGKILL)
            printed, errors = running.communicate()
        return Ended(running.returncode, printed or b"", files_of(folder), errors)

    def judge(self, case, ask, before, came, may):
        """Tells what came of a case, in which the command may end with these statuses or signals or as ever."""
        whole = self.whole.get(ask, Ended(came.status))
        faults = faults_of(whole, before, came, may)
        self.count += 1
        self.wrong += bool(faults)
        line = f"{case}: {ask}: {came.told()}{states_of(whole.files, before, came.files)}"
        print("\n    ".join([f"WRONG: {line}" if faults else f"as told: {line}", *faults]), flush=True)

    def skip(self, case, why):
        """Tells of a case that is not run."""
        self.skipped += 1
        print(f"skipped: {case}: {why}")

    def undisturbed(self):
        """Runs every command where nothing is short."""
        for ask in ASKS:
            folder, _ = self.fresh()
            self.whole[ask] = self.run(folder, ask)
            print(f"undisturbed: {ask}: {self.whole[ask].told()}; {len(self.whole[ask].files)} files")

    @contextlib.contextmanager
    def mounted(self, folder, options):
        """A small file system in memory in `disk` of a folder, or none where it can not be mounted."""
        disk = folder / "disk"
        disk.mkdir()
        done = subprocess.run(["mount", "-t", "tmpfs", "-o", options, "tmpfs", disk], capture_output=True, check=False)
        try:
            yield disk if done.returncode == 0 else None
        finally:
            if done.returncode == 0:
                subprocess.run(["umount", disk], check=True)

    def on_disk(self, case, ask, options):
        """Runs a command that saves on a small file system."""
        folder, _ = self.fresh()
        with self.mounted(folder, options) as disk:
            if disk is None:
                self.skip(f"{case}: {ask}", "no file system can be mounted here; root may")
            else:
                self.judge(case, ask, {}, self.run(folder, ask, "disk/out"), [5])

    def disks(self):
        """Full disks, of every size in which a part of the files has room; and a disk that can only be read."""
        for ask in SAVING[:2]:
            for pages in range(1, 9):
                self.on_disk(f"a disk of {pages * PAGE} bytes", ask, f"size={pages * PAGE}")
            for files in range(1, 8):
                self.on_disk(f"a disk with room for {files - 1} files", ask, f"size={MEGABYTE},nr_inodes={files}")
        for ask in SAVING:
            self.on_disk("a disk that can only be read", ask, f"size={MEGABYTE},ro")

    def folders(self):
        """Folders that are not there or may not be written, folders in the place of files, and files that may not be read."""
        user = ANOTHER_USER if os.geteuid() == 0 else None
        for ask in SAVING:
            folder, before = self.fresh()
            self.judge("no such folder", ask, before, self.run(folder, ask, "none/out"), [5])
            (folder / "shut").mkdir(mode=0o555)
            self.judge("a folder that may not be written", ask, before, self.run(folder, ask, "shut/out", user=user), [5])
            for name in self.whole[ask].files:
                folder, before = self.fresh()
                (folder / name).mkdir()
                self.judge(f"{name} is a folder", ask, before, self.run(folder, ask), [5])

        for ask in ASKS:
            name = self.command(ask)[2].replace("saved", "saved.p0.bpnf")
            folder, before = self.fresh(old=True)
            (folder / name).chmod(0)
            self.judge(f"{name} may not be read", ask, before, self.run(folder, ask, user=user), [5])
            folder, before = self.fresh(old=True)
            (folder / name).unlink()
            (folder / name).mkdir()
            self.judge(f"{name} is a folder", ask, before, self.run(folder, ask), [5])

    def outputs(self):
        """Outputs that can not be written: a full device, a pipe that nobody reads."""
        for ask in ASKS:
            folder, before = self.fresh(old=True)
            with open("/dev/full", "wb") as full:
                self.judge("output to /dev/full", ask, before, self.run(folder, ask, stdout=full), [6])
            folder, before = self.fresh()
            reader, writer = os.pipe()
            os.close(reader)
            self.judge("output to a pipe that nobody reads", ask, before, self.run(folder, ask, stdout=writer), [6])
            os.close(writer)

    def limits(self):
        """Little address space, little stack, and files that may not grow."""
        for ask in ASKS:
            for megabytes in (64, 16, 8, 4):
                folder, before = self.fresh(old=True)
                came = self.run(folder, ask, limits=[(resource.RLIMIT_AS, megabytes * MEGABYTE)])
                self.judge(f"{megabytes} MB of address space", ask, before, came, [7])
            folder, before = self.fresh()
            came = self.run(folder, ask, limits=[(resource.RLIMIT_STACK, STACK_THAT_IS_ENOUGH)])
            self.judge(f"{STACK_THAT_IS_ENOUGH >> 10} kB of stack", ask, before, came, [])
        for ask in SAVING:
            for most in (0, 1, 50, 2000, 3584, 5000):
                limits = [(resource.RLIMIT_FSIZE, most)]
                folder, before = self.fresh(old=True)
                came = self.run(folder, ask, limits=limits)
                self.judge(f"files of at most {most} bytes", ask, before, came, [-signal.SIGXFSZ])
                folder, before = self.fresh()
                came = self.run(folder, ask, limits=limits, ignored=[signal.SIGXFSZ])
                self.judge(f"files of at most {most} bytes, the signal ignored", ask, before, came, [5])

    def interrupted(self, case, ask, number, old=False, wait=0.0, pipe=None):
        """Sends a signal to a command after some time, or while it waits for a reader of a pipe among its files."""
        folder, before = self.fresh(old)
        if pipe:
            (folder / pipe).unlink(missing_ok=True)
            os.mkfifo(folder / pipe)
            before.pop(pipe, None)
        running = self.started(folder, ask, stdout=subprocess.PIPE)
        time.sleep(wait)
        if ask == LONG and running.poll() is not None:
            self.skip(f"{case}: {ask}", "the search had ended")
            return
        running.send_signal(number)
        self.judge(case, ask, before, self.ended(running, folder), [-number])

    def interrupts(self):
        """An interrupt in a long search, between two files, and at many moments."""
        for number in (signal.SIGINT, signal.SIGTERM):
            self.interrupted(f"{number.name} in a long search", LONG, number, old=True, wait=1)
        for ask in SAVING:
            for name in self.whole[ask].files:
                self.interrupted(f"SIGINT before {name}, a pipe", ask, signal.SIGINT, old=True, wait=0.3, pipe=name)
        for step in range(24):
            wait = step / 4000
            self.interrupted(f"SIGINT after {wait * 1000:g} ms", "placed", signal.SIGINT, old=True, wait=wait)


def main():
    """Runs all cases, and returns the exit status."""
    options = argparse.ArgumentParser(description=__doc__, formatter_class=argparse.RawDescriptionHelpFormatter)
    options.add_argument("--program", default=ROOT / PROGRAM)
    system = System(Path(options.parse_args().program).resolve())
    try:
        for cases in (system.undisturbed, system.disks, system.folders, system.outputs, system.limits, system.interrupts):
            cases()
    finally:
        shutil.rmtree(system.scratch, ignore_errors=True)
    print(f"cases: {system.count - system.wrong} as told, {system.wrong} not, {system.skipped} skipped")
    return 1 if system.wrong else 0


if __name__ == "__main__":
    sys.exit(main())
