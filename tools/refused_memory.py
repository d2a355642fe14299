#!/usr/bin/env python3
"""Runs the built program with one request for memory refused, each of them in turn, and looks at what it says and leaves.

usage: tools/refused_memory.py [--program FILE] [--most N]

It is run by hand and is no part of the gate. It needs a C compiler, `cc`: a small library that stands between the program
and the C library counts the requests and refuses the one of a given number. A run in which memory is refused must end with
status 7, or as an undisturbed run does; what it prints and saves is judged as tools/on_system.py judges it. Where a
command makes more than N requests, 300 if not given, that many are tried, spread over all of them. A line for each command
tells how many requests it makes, how many were tried and how the runs ended. Exit status: 1 where a run came otherwise.
"""

import argparse
import collections
import os
import shutil
import subprocess
import sys
from pathlib import Path

import on_system
from repository import ROOT

LIBRARY = r"""
#define _GNU_SOURCE
#include <dlfcn.h>
#include <errno.h>
#include <fcntl.h>
#include <stdio.h>
#include <stdlib.h>
#include <unistd.h>

static unsigned long made;

/* Whether this request is the one to refuse. */
static int refused(void) {
    static unsigned long number;
    if (!number) number = strtoul(getenv("REFUSED"), 0, 10);
    return ++made == number;
}

#define STANDS_BEFORE(name, result, parameters, arguments) \
    result name parameters { \
        static result (*next) parameters; \
        if (!next) next = dlsym(RTLD_NEXT, #name); \
        if (refused()) { errno = ENOMEM; return 0; } \
        return next arguments; \
    }

STANDS_BEFORE(malloc, void *, (size_t size), (size))
STANDS_BEFORE(realloc, void *, (void *old, size_t size), (old, size))
STANDS_BEFORE(aligned_alloc, void *, (size_t to, size_t size), (to, size))

int posix_memalign(void **at, size_t to, size_t size) {
    static int (*next)(void **, size_t, size_t);
    if (!next) next = dlsym(RTLD_NEXT, "posix_memalign");
    return refused() ? ENOMEM : next(at, to, size);
}

/* Tells at the end how many requests were made. */
__attribute__((destructor)) static void tell(void) {
    FILE *file = fopen(getenv("REQUESTS"), "w");
    unsigned long all = made;
    if (file) { fprintf(file, "%lu\n", all); fclose(file); }
}
"""


class Memory(on_system.System):
    """The runs with a request refused, and what came of them."""

    def __init__(self, program):
        super().__init__(program)
        self.library = self.scratch / "refusing.so"
        source = self.scratch / "refusing.c"
        source.write_text(LIBRARY, encoding="utf-8")
        subprocess.run(["cc", "-shared", "-fPIC", "-O1", "-o", self.library, source, "-ldl"], check=True)

    def refusing(self, ask, number):
        """Runs a command with the request of this number refused, 0 for none. How it ended, the files that stood before,
        and how many requests it made."""
        folder, before = self.fresh(old=True)
        requests = folder / "requests"
        kept = {**os.environ, "LD_PRELOAD": str(self.library), "REFUSED": str(number), "REQUESTS": str(requests)}
        running = self.started(folder, ask, stdout=subprocess.PIPE, env=kept)
        came = self.ended(running, folder)
        made = int(requests.read_text(encoding="ascii")) if requests.exists() else 0
        shutil.rmtree(folder)
        return came, before, made

    def command_with_all(self, ask, most):
        """Refuses each request of a command, or so many of them."""
        came, _, made = self.refusing(ask, 0)
        whole = self.whole[ask]
        numbers = range(1, made + 1) if made <= most else sorted({1 + i * (made - 1) // (most - 1) for i in range(most)})
        ended = collections.Counter()
        for number in numbers:
            came, before, _ = self.refusing(ask, number)
            faults = on_system.faults_of(whole, before, came, [7])
            ended[came.status] += 1
            self.count += 1
            self.wrong += bool(faults)
            if faults:
                print("\n    ".join([f"WRONG: request {number} refused: {ask}: {came.told()}", *faults]), flush=True)
        told = ", ".join(f"{count} with status {status}" for status, count in sorted(ended.items()))
        print(f"{ask}: {made} requests, {len(numbers)} refused in turn: {told}", flush=True)


def main():
    """Refuses the requests of all commands, and returns the exit status."""
    options = argparse.ArgumentParser(description=__doc__, formatter_class=argparse.RawDescriptionHelpFormatter)
    options.add_argument("--program", default=ROOT / on_system.PROGRAM)
    options.add_argument("--most", type=int, default=300)
    asked = options.parse_args()
    memory = Memory(Path(asked.program).resolve())
    try:
        memory.undisturbed()
        for ask in on_system.ASKS:
            memory.command_with_all(ask, asked.most)
    finally:
        shutil.rmtree(memory.scratch, ignore_errors=True)
    print(f"runs: {memory.count - memory.wrong} as told, {memory.wrong} not")
    return 1 if memory.wrong else 0


if __name__ == "__main__":
    sys.exit(main())
