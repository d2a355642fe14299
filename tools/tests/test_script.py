"""Tests of tools/script.py, with a stub in the place of the program."""

import contextlib
import io

import samples
import script

STUB = """\
#!/usr/bin/env python3
# Follows a flow: GO to DO, where px=1 leads to ONE and any other value to NIL; these lead to GO. Notes each call.
import re, sys
with open("{calls}", "a") as calls:
    print(*sys.argv[1:], file=calls)
clocks = [dict(re.findall(r"(\\w+)=(\\w+)", line.split("#")[0])) for line in open("script") if line.startswith("clk")]
if any(it.get("px") == "99" for it in clocks):
    print("refused script line 2 Value")
    sys.exit(3)
if "NIL" not in open("source").read():
    print("refused source line 1 Shape")
    sys.exit(3)
label = "GO"
for number in range(int(sys.argv[4].partition("=")[2])):
    print(number, label, "A=0 and so on")
    px = clocks[number].get("px") if number < len(clocks) else None
    label = {{"GO": "DO", "DO": "ONE" if px == "1" else "NIL"}}.get(label, "GO")
"""


class ScriptTest(samples.SampleTest):
    def setUp(self):
        super().setUp()
        self.write("stub", STUB.format(calls=self.root / "calls"))
        (self.root / "stub").chmod(0o755)
        self.write("x.src", "GO:\nDO:\nONE:\nNIL:\nNO:\n")

    def run_on(self, text, *options):
        """The exit status, the lines of the script, and what is said on standard error."""
        self.write("x.short", text)
        words = [str(self.root / "x.short"), "--program", str(self.root / "stub"), *options]
        with contextlib.redirect_stdout(io.StringIO()) as printed, contextlib.redirect_stderr(io.StringIO()) as said:
            status = script.main(words)
        return status, printed.getvalue().splitlines(), said.getvalue().replace(f"{self.root}/", "")

    def written(self, text, *options):
        """The lines of the script that comes of a short form."""
        status, lines, said = self.run_on(text, *options)
        self.assertEqual((status, said), (0, ""))
        return lines

    def test_without_at_the_program_is_not_asked(self):
        self.assertEqual(self.written("mem 0 0xf0\nclk i=2 m=1 # two\n\nclk\n"), ["mem 0 0xf0", "clk m=1 i=2", "clk"])
        self.assertFalse((self.root / "calls").exists())

    def test_clocks_and_lines_are_repeated(self):
        text = "repeat 2\nclk i=1\nrepeat 2\nclk i=2\nend\nend\nrepeat 0\nclk\nend\nclocks 7\n"
        self.assertEqual(self.written(text), ["clk i=1", "clk i=2", "clk i=2"] * 2 + ["clk"])

    def test_values_are_held_until_they_are_let_go_and_those_of_clk_count_before(self):
        text = "hold i=3 sx=1\nclk\nclk i=4\nhold i=-\nclk\nhold px=2\nclocks 5\n"
        held = ["clk i=3 sx=1", "clk i=4 sx=1", "clk sx=1", "clk px=2 sx=1", "clk px=2 sx=1"]
        self.assertEqual(self.written(text), held)

    def test_values_stand_where_the_flow_is(self):
        lines = self.written("clocks 8\nat DO px=1,0,1\nat ONE sx=7\nat NO px=9", "--source", str(self.root / "x.src"))
        expected = ["clk # GO", "clk px=1 # DO", "clk sx=7 # ONE", "clk # GO", "clk px=0 # DO", "clk # NIL", "clk # GO", "clk px=1 # DO"]
        self.assertEqual(lines, expected)
        calls = self.read("calls").splitlines()
        self.assertEqual(set(calls), {"flow source script clocks=8"})
        self.assertLess(len(calls), 5)

    def test_the_last_value_is_kept_and_that_of_clk_counts_before_it(self):
        text = "hold px=0\nclk\nclk px=5\nclocks 6\nat DO px=1\n"
        lines = self.written(text, "--source", str(self.root / "x.src"))
        expected = ["clk px=0 # GO", "clk px=5 # DO", "clk px=0 # NIL", "clk px=0 # GO", "clk px=1 # DO", "clk px=0 # ONE"]
        self.assertEqual(lines, expected)

    def test_what_the_program_refuses_is_told(self):
        source = "--source", str(self.root / "x.src")
        told = "script: refused script line 2 Value: clk px=99 # DO\n"
        self.assertEqual(self.run_on("clocks 3\nat DO px=99\n", *source), (1, [], told))
        self.write("x.src", "other")
        self.assertEqual(self.run_on("clocks 3\n", *source)[2].replace(f"{self.root}/", ""), "script: refused x.src line 1 Shape\n")
        self.assertEqual(self.run_on("at HERE px=1\n", *source)[2], "script: x.src: no label HERE\n")
        self.assertEqual(self.run_on("clocks 3\n", "--source", "none.src")[2], "script: none.src: No such file or directory\n")

    def test_what_is_no_short_form(self):
        rows = [
            ("clk i=x\n", "line 1: 'x' is no number"), ("clk i\n", "line 1: 'i' is no KEY=VALUE"),
            ("clk\nclk a=1\n", "line 2: 'a=1' is no KEY=VALUE"), ("clk i=1 i=2\n", "line 1: 'i=2' is no KEY=VALUE"),
            ("repeat 2\nclk\n", "a repeat has no end"), ("end\n", "line 1: an end without a repeat"),
            ("repeat 65537\nclk\nend\n", "line 3: more than 65536 lines are repeated"), ("clock 1\n", "line 1: 'clock 1' is no line of"),
            ("clocks 65537\n", "65537 clocks; there may be 65536"), ("clk\nclk\nclocks 1\n", "2 lines of clk, and 1 clocks"),
            ("clocks 1\nclocks 1\n", "line 2: 'clocks 1' is no line of"), ("at DO\n", "line 1: at LABEL KEY=VALUE,VALUE,.."),
            ("at DO px=1\nat DO px=2\n", "line 2: px is given twice at DO"), ("at DO px=1,\n", "line 1: '' is no number"),
            ("at DO px=1\n", "there is a line 'at'; name the source with --source"),
        ]
        for text, fault in rows:
            status, lines, said = self.run_on(text)
            self.assertEqual((status, lines), (1, []), text)
            self.assertTrue(said.startswith(f"script: {fault}"), (text, said))


if __name__ == "__main__":
    samples.unittest.main()
