"""A script over many values of its variables, by tools/sweep."""
import subprocess
import sys
from typing import Dict, Tuple

from labtools.common.program import TOP
from tests.suite_projects import HEED, SUITE, WithLab, wait_for, without_seconds

SWEEP = str(TOP / "tools/sweep")

# Prints the word that its variable is, and has no verdict.
SCRIPT = """\
$n?=0
mach create "m0"
machine LoadPlatformDescription @demo/pass/board.repl
sysbus WriteDoubleWord 0x80000100 $n
sysbus ReadDoubleWord 0x80000100
"""

RACE = """\
failed  T s  demo/sweep/s.resc[phase=17]: a test has failed: [0.003007] pause listener/fin: fail 1
passed      49  pass: phase=1..16,18..50
failed       1  fail 1: phase=17
the first log that differs from that of phase=1: phase=17
49 passed, 1 failed
"""


class Sweeps(WithLab):
    """Sweeps of demo/sweep, whose sender.s and listener.s say in which phase a byte is lost, and of a small script."""

    def sweep(self, *words: str) -> "subprocess.CompletedProcess[str]":
        return self.ran(SWEEP, *words)

    def told(self, *words: str) -> Tuple[int, str, str]:
        ran = self.sweep(*words)
        return ran.returncode, without_seconds(ran.stdout), ran.stderr

    def test_a_race_is_found(self) -> None:
        status, lines, told = self.told("--junit", "a.xml", "demo/sweep/s.resc", "phase=1..50")
        self.assertEqual((status, lines), (1, RACE))
        difference = "  -[0.000160] pause listener/fin: pass\n  +[0.003007] pause listener/fin: fail 1\n"
        self.assertIn(f"  --- phase=1\n  +++ this run\n  @@ -1 +1 @@\n{difference}", told)
        self.assertIn('<testsuites tests="50" failures="1" errors="0"', self.read("a.xml"))
        self.assertIn('classname="demo.sweep" name="s[phase=17]" file="demo/sweep/s.resc"', self.read("a.xml"))
        self.assertEqual([it.name for it in self.room.iterdir() if it.name != "demo"], ["a.xml"])

    def test_shares_of_a_sweep_are_made_one(self) -> None:
        for number in 1, 2, 3:
            words = "--shard", f"{number}/3", "--junit", f"{number}.xml", "demo/sweep/s.resc", "phase=10..20"
            self.assertEqual(self.told(*words)[0], int(number == 2))
        ran = self.ran(SUITE, "--merge", "1.xml", "2.xml", "3.xml")
        self.assertEqual((ran.returncode, ran.stdout.splitlines()[-1]), (1, "10 passed, 1 failed"))
        self.assertIn("demo/sweep/s.resc[phase=17]: a test has failed", ran.stdout)

    def test_logs_are_compared_where_no_board_gives_a_verdict(self) -> None:
        self.write("a.resc", SCRIPT)
        first = "the first log that differs from that of {}: {}\n"
        failed = "failed  T s  a.resc[n={}]: the log differs\n"
        rows = "passed       1  the log is as it was: n={}\nfailed       1  difference: n={}\n"
        lines = failed.format(2) + rows.format(1, 2) + first.format("n=1", "n=2") + "1 passed, 1 failed\n"
        self.assertEqual(self.told("a.resc", "n=1,2")[:2], (1, lines))
        self.write("kept.log", "0x00000002\n")
        rows = "failed       1  difference: n=1\npassed       1  the log is as it was: n=2\n"
        lines = failed.format(1) + rows + first.format("kept.log", "n=1") + "1 passed, 1 failed\n"
        self.assertEqual(self.told("--log", "kept.log", "a.resc", "n=1..2")[:2], (1, lines))

    def test_each_value_is_tried_with_each_other(self) -> None:
        self.write(
            "a.resc",
            SCRIPT.replace("$n?=0", "$n?=0\n$m?=1").replace(
                "ReadDouble", "WriteDoubleWord 0x80000104 $m\nsysbus ReadDouble"
            ),
        )
        lines = self.told("a.resc", "n=0x7,0x8", "m=1..5..2")[1]
        self.assertIn("passed       3  the log is as it was: n=0x7,m=1 n=0x7,m=3 n=0x7,m=5\n", lines)
        self.assertIn("failed       3  difference: n=0x8,m=1 n=0x8,m=3 n=0x8,m=5\n", lines)

    def test_a_run_that_is_refused_is_an_error(self) -> None:
        self.write("a.resc", SCRIPT)
        status, lines, _ = self.told("a.resc", "n=1,x")
        self.assertEqual((status, lines.splitlines()[-1]), (2, "1 passed, 1 failed"))
        self.assertIn("a.resc[n=x]: lab ended with 3: error: a.resc:4: S2 arguments\n", lines)

    def test_it_goes_on_from_what_was_booted(self) -> None:
        self.write(
            "b/boot.resc", 'mach create "m0"\nmachine LoadPlatformDescription @demo/pass/board.repl\nSave @b/it.snap\n'
        )
        self.write("b/a.resc", "# suite: after boot.resc\n$n?=0\nLoad @b/it.snap\nmach set m0\ncpu PC $n\ncpu PC\n")
        status, lines, told = self.told("b/a.resc", "n=4,8")
        self.assertEqual((status, told.splitlines()[0]), (1, "sweep: b/boot.resc is run first"))
        self.assertIn("the first log that differs from that of n=4: n=8\n", lines)

    def test_a_signal_ends_a_sweep_which_leaves_nothing(self) -> None:
        (self.room / "room").mkdir()
        self.environment["TMPDIR"] = str(self.room / "room")
        words = [sys.executable, "-c", HEED, sys.executable, SWEEP, "demo/sweep/s.resc", "phase=1..20000"]
        with subprocess.Popen(words, cwd=self.room, env=self.environment, stdout=subprocess.DEVNULL) as sweep:
            wait_for(lambda: bool(list((self.room / "room").glob("*/900.resc"))))
            sweep.terminate()
            self.assertEqual(sweep.wait(240), 130)
        self.assertEqual(list((self.room / "room").iterdir()), [])

    def test_wrong_words_are_told(self) -> None:
        self.write("a.resc", SCRIPT)
        self.write("quiet.resc", "$n?=0\n")
        self.write("empty.log", "")
        faults: Dict[str, str] = {
            "a.resc n": "n is not NAME=VALUES, with the name of a variable",
            "a.resc a-b=1": "a-b=1 is not NAME=VALUES, with the name of a variable",
            "a.resc n=1 n=2": "a variable is named twice",
            "a.resc n=": "n=: a value is a word without blanks, quotes and $",
            "a.resc n=2..1": "n=2..1 has no numbers, or more than 100000",
            "a.resc n=1..100001": "n=1..100001 has no numbers, or more than 100000",
            "a.resc n=1..1000 m=1..1000": "that makes 1000000 runs; the most is 100000",
            "quiet.resc n=1": "n=1 prints nothing, so there is nothing to compare",
            "a\udcff.resc n=1": "a\\xff.resc: a path in a script has no blanks, quotes or $, and is UTF-8",
            "a.resc n=\udcff": "n=\\xff: a value is a word without blanks, quotes and $",
            "a.resc k=1": "no line of a.resc, or of a file that it includes, has $k",
            "none.resc n=1": "none.resc cannot be read: No such file or directory",
            "--log none.log a.resc n=1": "none.log cannot be read: No such file or directory",
            "--log empty.log a.resc n=1": "empty.log is empty, so it tests nothing: --update keeps another one",
        }
        for words, fault in faults.items():
            self.assertEqual(self.told(*words.split()), (2, "", f"sweep: {fault}\n"))
        for words in "", "a.resc", "-j 0 a.resc n=1", "--shard 3/2 a.resc n=1":
            ran = self.sweep(*words.split())
            self.assertEqual((ran.returncode, ran.stdout), (2, ""))
            self.assertIn("usage: tools/sweep [-j N] [--log FILE]", ran.stderr)
