"""Tests of .ci/run, with stubs in the place of the toolchain's command `rt` and of the scripts that it calls."""

import os
import shutil
import subprocess

import samples

SCRIPTS = ("definitions", "promises", "links", "shown")
TRIVIAL = "import unittest\n\n\nclass Test(unittest.TestCase):\n    def test(self):\n        self.assertTrue({})\n"


class GateTest(samples.SampleTest):
    def setUp(self):
        super().setUp()
        (self.root / ".ci").mkdir()
        shutil.copy(samples.TOOLS.parent / ".ci/run", self.root / ".ci")
        self.write("tools/tests/test_trivial.py", TRIVIAL.format(True))
        self.write("bench/test_trivial.py", TRIVIAL.format(True))
        self.stub("bin/rt", 0)
        for script in SCRIPTS:
            self.stub(f"tools/{script}.py", 0)

    def stub(self, path, status):
        """Writes a command that tells its name and words and ends with this status."""
        self.write(path, f'#!/bin/sh\necho "$(basename $0) $*"\nexit {status}\n')
        (self.root / path).chmod(0o755)

    def run_gate(self):
        """The status of the gate, and the lines that it prints."""
        environment = {**os.environ, "PATH": f"{self.root / 'bin'}:{os.environ['PATH']}"}
        ended = subprocess.run([self.root / ".ci/run"], env=environment, text=True, capture_output=True)
        return ended.returncode, ended.stdout.splitlines()

    def test_all_checks_run_after_the_toolchain(self):
        calls = ["rt ci", "definitions.py --check", "promises.py --check", "links.py ", "shown.py --program crates/micro_cli/out/micro_cli"]
        self.assertEqual(self.run_gate(), (0, [*calls, "the gate has passed"]))

    def test_status_of_the_toolchain_is_kept(self):
        self.stub("bin/rt", 3)
        self.stub("tools/shown.py", 2)
        status, lines = self.run_gate()
        self.assertEqual((status, lines[0], lines[-1]), (3, "rt ci", "the gate fails at: tools/shown.py --program crates/micro_cli/out/micro_cli"))

    def test_each_check_alone_fails_the_gate(self):
        for script in SCRIPTS:
            self.stub(f"tools/{script}.py", 1)
            self.assertEqual(self.run_gate()[0], 1)
            self.stub(f"tools/{script}.py", 0)
        for folder in ("tools/tests", "bench"):
            self.write(f"{folder}/test_trivial.py", TRIVIAL.format(False))
            self.assertEqual(self.run_gate()[0], 1)
            self.write(f"{folder}/test_trivial.py", TRIVIAL.format(True))


if __name__ == "__main__":
    samples.unittest.main()
