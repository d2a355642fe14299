"""Tests of tools/on_system.py: what it finds wrong with how a command ended, without a program."""

import unittest

import samples  # noqa: F401 (puts the scripts on the path)
import on_system

FILES = {"out.map": b"map\n", "out.lay": b"lay\n", "out.p0.bpnf": b"first\n", "out.p10.bpnf": b"eleventh\n"}
WHOLE = on_system.Ended(0, b"placed\n0 0.0\n", FILES)
BEFORE = {"out.lay": b"old\n", "out.p10.bpnf": b"old\n", "out.ref": b"old\n"}


class OnSystemTest(unittest.TestCase):
    """Four files in their order, of which some are old."""

    def faults(self, status, printed, files, may=(5, 6, 7), before=BEFORE, errors=b""):
        """What is wrong with an end, in the folder of these old files."""
        return on_system.faults_of(WHOLE, before, on_system.Ended(status, printed, {**before, **files}, errors), may)

    def test_ends_that_are_as_told(self):
        lay, p0 = {"out.map": FILES["out.map"], "out.lay": b"la"}, {**FILES, "out.p0.bpnf": b"", "out.p10.bpnf": b"old\n"}
        rows = [(0, WHOLE.printed, FILES), (5, b"cannot save out.lay\n", lay), (5, b"cannot save disk/out.lay\n", lay),
                (5, b"cannot save out.p0.bpnf\n", p0), (5, b"cannot read count.scr\n", {}), (7, b"no memory\n", {}), (7, b"", {}),
                (7, b"placed\nno memory\n", FILES), (6, b"placed\n0", FILES), (-2, b"", {}), (-2, b"pl", p0)]
        for status, printed, files in rows:
            self.assertEqual(self.faults(status, printed, files, (5, 6, 7, -2)), [], (status, printed))

    def test_ends_that_are_not(self):
        behind = {"out.map": b"ma", "out.p0.bpnf": FILES["out.p0.bpnf"]}
        rows = [((-11, b"", {}), ["it may not end so"]), ((127, b"", {}), ["it may not end so", "its message is not of its status"]),
                ((5, b"cannot save", {}), ["its message is not of its status"]),
                ((0, b"placed\n", FILES), ["it printed something else"]),
                ((6, b"refused\n", FILES), ["it printed no beginning of its text"]),
                ((6, b"", {**FILES, "out.p0.bpnf": b"fi", "out.p10.bpnf": b"old\n"}), ["it tells of files that are not whole"]),
                ((7, b"no memory\n", {"out.map": b"pam"}), ["out.map is neither whole, nor cut, nor as it was"]),
                ((7, b"no memory\n", behind), ["out.p0.bpnf stands behind out.map"]),
                ((7, b"no memory\n", {"out.part": b""}), ["out.part is not of this answer"]),
                ((7, b"no memory\n", {"out.ref": b""}), ["out.ref has changed"]),
                ((5, b"cannot save out.map\n", {"out.map": FILES["out.map"]}), ["it names out.map, and out.lay is not whole"])]
        for came, told in rows:
            self.assertEqual(self.faults(*came), told, came)
        self.assertEqual(self.faults(7, b"no memory\n", {}, errors=b"why\n"), ["it wrote on standard error: why"])

    def test_a_file_that_is_gone_is_told(self):
        came = on_system.Ended(7, b"no memory\n", {})
        told = ["out.map is neither whole, nor cut, nor as it was"]
        self.assertEqual(on_system.faults_of(WHOLE, {"out.map": b"old\n"}, came, [7]), told)

    def test_files_are_in_the_order_in_which_they_are_saved(self):
        names = ["out.part", "out.p10.bpnf", "out.lay", "out.p2.bpnf", "out.map"]
        self.assertEqual(sorted(names, key=on_system.order_of), ["out.map", "out.lay", "out.p2.bpnf", "out.p10.bpnf", "out.part"])

    def test_states_are_told_in_short(self):
        after = {"out.map": FILES["out.map"], "out.lay": b"la", "out.p10.bpnf": b"old\n"}
        told = "; 1 whole, out.lay 2 of 4 bytes, 2 as before"
        self.assertEqual(on_system.states_of(FILES, BEFORE, after), told)
        self.assertEqual(on_system.states_of({}, {}, {}), "")


if __name__ == "__main__":
    unittest.main()
