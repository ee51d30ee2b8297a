"""Tests of a suite that print much."""
from tests.suite_projects import SUITE, Bearing, is_ended

# Prints accesses where nothing stands until nobody reads them, or, by its last line, something else.
POLL = "[0.000001] m0/sysbus: read 4 at 0x90000000"
FLOOD = """#!/bin/sh
echo $$ >"$3.process"
yes "$(cat "$3.line")"
"""


class Printing(Bearing):
    """Tests that print much."""

    def flood(self, line: str) -> None:
        """Makes a test that prints a line without end."""
        self.make("a", "1\n", "")
        self.write("a.resc.line", line)
        self.write("stand_in", FLOOD)

    def test_a_test_that_prints_too_much_is_ended(self) -> None:
        for line, cause in (("[0.000001] m0/uart: a", ""), (POLL, ": it polls where nothing stands?")):
            self.flood(line)
            failed = f"failed  T s  a.resc: printed more than 100000 bytes{cause}\n0 passed, 1 failed\n"
            self.expect(["--most", "100000", "."], 1, failed)
            self.assertTrue(is_ended(int(self.read("a.resc.process"))))
            self.assertEqual(list(self.temporary.iterdir()), [])

    def test_accesses_that_do_not_come_again_are_no_poll(self) -> None:
        lines = [f"[0.000001] m0/sysbus: write 4 at 0x{9 * 2**28 + 4 * it:08x} value 0x00000000\n" for it in range(99)]
        self.make("a", "1\n", "".join(lines))
        line = "failed  T s  a.resc: printed more than 3000 bytes"
        self.expect(["--most", "3000", "."], 1, f"{line}\n0 passed, 1 failed\n")
        self.make("a", "1\n", "".join(lines[:2]) * 50)
        self.expect(["--most", "3000", "."], 1, f"{line}: it polls where nothing stands?\n0 passed, 1 failed\n")

    def test_a_test_may_print_so_many_bytes(self) -> None:
        self.make("a", "123456789\n", "123456789\n")
        self.expect(["--most", "10", "."], 0, "passed  T s  a.resc\n1 passed, 0 failed\n", "")
        cause = "a.log has more than 9 bytes, which --most allows a test to print"
        self.expect(["--most", "9", "."], 2, f"error  T s  a.resc: {cause}\n0 passed, 1 failed\n", "")
        self.make("a", "1\n", "123456789\n")
        line = "failed  T s  a.resc: printed more than 9 bytes\n0 passed, 1 failed\n"
        self.expect(["--most", "9", "--update", "."], 1, line)
        self.assertEqual(self.read("a.log"), "1\n")
        told = self.ran(SUITE, "--help").stdout
        self.assertIn("--most BYTES  ends a test that prints more; 100000000 by default", told)

    def test_memory_does_not_grow_with_what_tests_print(self) -> None:
        least, _ = self.used("--help")
        lines = [f"[0.{it:06}] m{it % 7}/uart: {it}\n" for it in range(250_000)]
        long = "".join(lines)
        shuffled = "".join(line for board in range(7) for line in lines[board::7])
        for mode, kept, result in (
            ("exact", long, "passed"),
            ("notimes", shuffled, "passed"),
            ("exact", shuffled, "failed"),
            ("exact", long.replace("[0.2", "[1.2"), "failed"),
            ("notimes", long.replace(": 5", ": 6"), "failed"),
            ("verdict", "1\n", "failed"),
        ):
            self.make("a", kept, long, f"# suite: {mode}\n")
            used, _ = self.used("--junit", "told.xml", ".")
            self.assertEqual(self.read("printed")[:6], result)
            self.assertLess(used, least + 20, (mode, result))
            self.assertLess(len(self.read("told.xml")), 100_000)

    def test_a_difference_in_a_long_log_has_its_line(self) -> None:
        lines = [f"[0.000001] m0/uart: {it}\n" for it in range(1, 200_001)]
        printed = [*lines[:149_999], "[0.000001] m0/uart: x\n", *lines[150_000:]]
        self.make("a", "".join(lines), "".join(printed))
        told = self.ran(SUITE, ".").stderr.splitlines()
        lines = [f" [0.000001] m0/uart: {it}" for it in range(149_997, 150_004)]
        differs = ["-[0.000001] m0/uart: 150000", "+[0.000001] m0/uart: x"]
        hunk = ["@@ -149997,7 +149997,7 @@", *lines[:3], *differs, *lines[4:]]
        hunk.append(".. only 1048576 bytes from there on were compared")
        self.assertEqual(told[:12], [f"  {line}" for line in ["--- a.log", "+++ this run", *hunk]][:12])

    def test_a_difference_has_an_end(self) -> None:
        self.make("a", "".join(f"kept {it}\n" for it in range(9999)), "".join(f"run {it}\n" for it in range(9999)))
        self.ran(SUITE, "--junit", "told.xml", ".")
        told = self.read("told.xml")
        self.assertLess(len(told), 80_000)
        first = "@@ -1,9999 +1,9999 @@\n-kept 0\n"
        self.assertIn(first, told)
        shown = told.partition(first)[2].partition("\n.. and ")
        self.assertEqual(int(shown[2].split()[0]) + shown[0].count("\n") + 2, 2 * 9999)
