"""Tests of `buravelo` and tools/build.py, with a stub in the place of the toolchain's command `rt`."""

import os
import shutil
import subprocess
import time

import samples
import build

CRATES = "low:\nmiddle: low\nbeside: low\nhigh: middle beside\nmicro_cli: high low\nlow_tests: low\n"
STUB = """\
#!/usr/bin/env bash
# Writes each call and its folder to the file CALLS; fails at the crate FAILS.
echo "$(basename "$PWD") $1 $2" >>"$CALLS"
if [ "$1" = all ]; then
    for crate in low middle beside; do
        echo "== $crate"
        if [ "$crate" = "$FAILS" ]; then echo "no proof of $crate"; exit 1; fi
    done
    exec sleep 60
else
    sleep "${SLOW:-0}"
    echo "rt: chose --jobs 2 for high" >&2
    if [ "$FAILS" = high ]; then echo "no proof of high" >&2; exit 1; fi
    echo "rt: chose --jobs 4 for micro_cli" >&2
    mkdir -p out
    printf '#!/bin/sh\\necho "program: $*"\\nexit 3\\n' >out/micro_cli
    chmod +x out/micro_cli
    echo "refused words"
fi
"""


class BuildTest(samples.SampleTest):
    def setUp(self):
        super().setUp()
        self.write("crates.txt", CRATES)
        self.write("crates/micro_cli/src/main.rt", "//! The program. Layer: program.\n")
        self.write("bin/rt", STUB)
        (self.root / "bin/rt").chmod(0o755)
        shutil.copy(samples.TOOLS.parent / "buravelo", self.root)
        (self.root / "tools").mkdir()
        for script in ("build.py", "repository.py"):
            shutil.copy(samples.TOOLS / script, self.root / "tools")

    def start(self, *words, command="buravelo", **variables):
        """Starts the command with the stub on its path."""
        path = f"{self.root / 'bin'}:{os.environ['PATH']}"
        environment = {**os.environ, "PATH": path, "CALLS": str(self.root / "calls"), **variables}
        pipes = {"text": True, "stdout": subprocess.PIPE, "stderr": subprocess.PIPE}
        return subprocess.Popen([self.root / command, *words], env=environment, **pipes)

    def run_command(self, *words, **options):
        """What the command prints, what it writes to standard error, and its status."""
        process = self.start(*words, **options)
        return *process.communicate(timeout=50), process.returncode

    def wait_for(self, call):
        """Returns once the stub was called so, or after ten seconds."""
        calls = self.root / "calls"
        for _ in range(1000):
            if calls.is_file() and call in calls.read_text(encoding="utf-8"):
                return
            time.sleep(0.01)

    def calls(self):
        """The calls of the toolchain since the last question."""
        lines = self.read("calls").splitlines()
        (self.root / "calls").write_text("")
        return lines

    def test_first_command_builds_and_later_ones_do_not(self):
        printed, said, status = self.run_command("map", "a b")
        self.assertEqual((printed, status), ("program: map a b\n", 3))
        self.assertEqual(self.calls(), ["micro_cli all check", "micro_cli run "])
        counts = [line.split()[1] for line in said.splitlines() if "crates left" in line]
        self.assertEqual(counts, ["5", "4", "3", "2", "1"])
        self.assertIn("2 of 5 crates left, now high\nburavelo: 1 of 5 crates left, now micro_cli\n", said)
        self.assertEqual(self.run_command("run"), ("program: run\n", "", 3))
        self.assertEqual(self.calls(), [])

    def test_changed_source_is_built_again_and_products_are_not_sources(self):
        self.run_command()
        self.calls()
        self.write("crates/low/out/made", "newer")
        self.run_command()
        self.assertEqual(self.calls(), [])
        self.write("crates/low/src/lib.rt", "//! Changed. Layer: outside.\n")
        self.run_command()
        self.assertEqual(len(self.calls()), 2)

    def test_symbolic_link_finds_the_repository(self):
        (self.root / "elsewhere").mkdir()
        (self.root / "elsewhere/link").symlink_to(self.root / "buravelo")
        printed, _, status = self.run_command("flow", command="elsewhere/link")
        self.assertEqual((printed, status), ("program: flow\n", 3))

    def test_failure_shows_what_the_toolchain_said(self):
        printed, said, status = self.run_command("map", FAILS="low")
        self.assertEqual((printed, status), ("", 70))
        self.assertIn("no proof of low", said)
        self.assertEqual(self.calls(), ["micro_cli all check"])
        printed, said, status = self.run_command("map", FAILS="high")
        self.assertEqual((printed, status), ("", 70))
        self.assertIn("no proof of high", said)

    def test_lacking_toolchain_is_told(self):
        (self.root / "bin/rt").unlink()
        path = f"{self.root / 'bin'}:/usr/bin:/bin"
        printed, said, status = self.run_command("map", PATH=path)
        self.assertEqual((printed, status), ("", 70))
        self.assertIn("not found: rt", said)

    def test_second_command_waits_and_builds_nothing(self):
        first = self.start("one", SLOW="1")
        self.wait_for("micro_cli run ")
        printed, said, _ = self.run_command("two")
        self.assertEqual(said, "buravelo: another command is building the program; waiting for it\n")
        self.assertEqual(printed, "program: two\n")
        self.assertEqual(first.communicate()[0], "program: one\n")
        self.assertEqual(len(self.calls()), 2)


class ProgressTest(samples.SampleTest):
    def test_crates_at_work_wait_for_those_below(self):
        self.write("crates.txt", CRATES)
        progress = build.Progress(self.root, 2)
        self.assertEqual(progress.order, ["low", "middle", "beside", "high", "micro_cli"])
        self.assertEqual((progress.at_work(), progress.is_row()), (["low"], False))
        progress.checked.add("low")
        self.assertEqual((progress.at_work(), progress.is_row()), (["middle", "beside"], False))
        progress.checked |= {"middle"}
        self.assertEqual((progress.at_work(), progress.is_row()), (["beside"], True))
        progress.checked |= {"beside", "high"}
        self.assertEqual((progress.at_work(), progress.is_row()), (["micro_cli"], True))

    def test_memory_free_is_read_in_bytes(self):
        self.write("meminfo", "MemTotal:  9 kB\nMemAvailable:   2000 kB\n")
        self.assertEqual(build.memory_free(self.root / "meminfo"), 2_048_000)
        self.assertGreaterEqual(build.proofs_at_once(), 1)


if __name__ == "__main__":
    samples.unittest.main()
