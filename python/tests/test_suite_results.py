"""How tests of each kind end, and how a suite reports them: in lines, as JUnit and as TAP. The expected texts were
written by hand, from docs/SUITES.md and the specifications of these formats."""
import subprocess
import sys
import time
from typing import Dict, Tuple

from tests.suite_projects import EXPECT, NO_VERDICT, SUITE, WithStandIn, is_ended, without_seconds

JUNIT = """\
<?xml version='1.0' encoding='utf-8'?>
<testsuites tests="3" failures="1" errors="1" time="T">\
<testsuite name="lab" tests="3" failures="1" errors="1" time="T" skipped="0">\
<testcase classname="tests.low" name="good" file="tests/low/good.resc" time="T">\
<system-out>[0.000001] m0/uart: 1 &lt; 2 &amp; \\x1b
</system-out></testcase>\
<testcase classname="tests" name="other" file="tests/other.resc" time="T">\
<failure message="the log differs" type="difference">--- tests/other.log
+++ this run
@@ -1 +1 @@
-[0.000001] m0/uart: a
+[0.000001] m0/uart: b

the last lines printed:
[0.000001] m0/uart: b
</failure><system-out>[0.000001] m0/uart: b
</system-out></testcase>\
<testcase classname="tests" name="refused" file="tests/refused.resc" time="T">\
<error message="lab ended with 3: error: tests/refused.resc:1: S1 unknown command" type="lab">\
the last lines printed:
error: tests/refused.resc:1: S1 unknown command
</error><system-out>error: tests/refused.resc:1: S1 unknown command
</system-out></testcase>\
</testsuite></testsuites>"""

TAP = """\
TAP version 14
1..3
ok 1 - tests/low/good.resc
  ---
  duration_ms: T
  ...
not ok 2 - tests/other.resc
  ---
  duration_ms: T
  severity: fail
  message: "the log differs"
  difference: |2
    --- tests/other.log
    +++ this run
    @@ -1 +1 @@
    -[0.000001] m0/uart: a
    +[0.000001] m0/uart: b
  last_lines: |2
    [0.000001] m0/uart: b
  ...
not ok 3 - tests/refused.resc
  ---
  duration_ms: T
  severity: error
  message: "lab ended with 3: error: tests/refused.resc:1: S1 unknown command"
  last_lines: |2
    error: tests/refused.resc:1: S1 unknown command
  ...
# 1 passed, 2 failed
"""


A = "[0.000001] m0/uart: a\n"
B = "[0.000002] m0/uart: b\n"
PASS = "[0.000100] pause m0/fin: pass\n"
FAIL = "[0.000200] pause m0/fin: fail 7\n"
LATER = A.replace("1]", "5]")
APART = "[0.000001] m1/uart: b\n"

# Tests by their names: the script, the kept log, what is printed, and the cause that is told after the result.
Row = Tuple[str, str, str, str]
PASSED: Dict[str, Row] = {
    "equal": ("# suite: exact\n", f"{A}1\n", f"{A}1\n", ""),
    "devices are apart without times": ("#suite:  notimes \n", f"{A}{APART}{B}{PASS}", f"{APART}{LATER}{B}{PASS}", ""),
    "verdict alone": ("\n# suite: verdict\n", "", f"[0.000001] m0/uart: z\n{PASS}", ""),
    "failure that was kept": ("", FAIL, FAIL, ""),
}
FAILED: Dict[str, Row] = {
    "end of a line": ("", A[:-1], A, "the log differs"),
    "failure after a pass": ("# suite: verdict\n", PASS + FAIL, PASS + FAIL, f"a test has failed: {FAIL[:-1]}"),
    "no verdict, exact": ("# suite: exact\n", A + PASS, A, "no verdict: it hangs?"),
    "no verdict, notimes": ("# suite: notimes\n", A + PASS, A, "no verdict: it hangs?"),
    "other times": ("", A, LATER, "only the times differ: `# suite: notimes` ignores them"),
    "uart says so": ("# suite: verdict\n", "x\n", f"[0.000100] m0/uart: {PASS[11:]}", "no verdict: it hangs?"),
}
ERRORS: Dict[str, Row] = {
    "empty log": ("", "", "", "{path}.log is empty, so it tests nothing: --update keeps another one"),
    "two kinds": (
        "# suite: exact\n# suite: verdict\n",
        "1\n",
        "1\n",
        "{path}.resc: `# suite:` names exact and verdict, and takes one of them",
    ),
    "wrong word": (
        "# a test\n# suite: fast\n",
        "1\n",
        "1\n",
        "{path}.resc:2: `# suite:` says exact, notimes, verdict or `after SCRIPT`, and not fast",
    ),
}
# What lab could not do is no result: the causes of its statuses.
STATUSES = {
    1: "memory ran out",
    2: "its arguments are wrong",
    3: "error: {path}.resc:1: S1 unknown command",
    4: "a file could not be read, x/b ({path}.resc:2)",
    5: "its output could not be written",
    6: "a snapshot could not be kept or read, x/b ({path}.resc:2)",
}


class StandIn(WithStandIn):
    """How tests of each kind end, and how they are reported."""

    def test_results(self) -> None:
        """The tests of a table are those of a folder, all of which end so."""
        for result, table, status in ("passed", PASSED, 0), ("failed", FAILED, 1), ("error", ERRORS, 2):
            lines = []
            for name, (says, kept, prints, cause) in sorted(table.items()):
                path = f"{result}/{name}"
                self.make(path, kept, prints, says)
                lines.append(f"{result}  T s  {path}.resc{cause and ': '}{cause.format(path=path)}\n")
            counts = len(table) if status == 0 else 0
            self.expect([result], status, f"{''.join(lines)}{counts} passed, {len(table) - counts} failed\n")

    def test_what_lab_could_not_do_is_no_result(self) -> None:
        lines = []
        for status, cause in STATUSES.items():
            path = f"tests/{status}"
            error = f"error: {path}.resc:1: S1 unknown command\n"
            self.make(path, error, error, f"\n{'include' if status == 4 else 'Load'} @x/b\n", status)
            lines.append(f"error  T s  {path}.resc: lab ended with {status}: {cause.format(path=path)}\n")
        self.expect(["tests"], 2, f"{''.join(lines)}0 passed, 6 failed\n")

    def test_signs_of_tap_are_escaped(self) -> None:
        self.make("a#b\\c", "1\n", "1\n")
        self.assertIn("ok 1 - a\\#b\\\\c.resc\n", self.ran(SUITE, "--tap", ".").stdout)

    def test_results_are_told_though_they_cannot_be_written(self) -> None:
        self.make("a", "1\n", "1\n")
        told = "suite: [Errno 2] No such file or directory: 'none/a.xml'\n"
        self.expect(["--junit", "none/a.xml", "."], 2, "passed  T s  a.resc\n1 passed, 0 failed\n", told)

    def test_a_reader_that_ends_is_no_fault(self) -> None:
        self.make("a", "1\n", "1\n")
        ran = self.ran("sh", "-c", f'"{sys.executable}" "{SUITE}" . | true')
        self.assertEqual((ran.stdout, ran.stderr), ("", ""))

    def test_others_may_read_the_log_that_expect_keeps(self) -> None:
        self.make("a", None, "1\n")
        self.assertEqual(self.ran("sh", "-c", f'umask 022; "{EXPECT}" --bless a.resc a.log').returncode, 0)
        self.assertEqual((self.room / "a.log").stat().st_mode & 0o777, 0o644)

    def test_a_device_keeps_its_order_without_times(self) -> None:
        kept = "[0.000001] m0/uart: a\n[0.000002] m0/uart: b\n"
        self.make("a", kept, "[0.000001] m0/uart: b\n[0.000002] m0/uart: a\n", "# suite: notimes\n")
        self.finds("failed  T s  a.resc: the log differs", 1)
        shown = self.ran(SUITE, ".").stderr
        self.assertIn("\n  -m0/uart: a\n   m0/uart: b\n  +m0/uart: a\n", shown)

    def test_a_signal_is_told(self) -> None:
        self.make("a", "1\n", "1\n")
        self.write("stand_in", "#!/bin/sh\nkill -SEGV $$\n")
        self.finds("error  T s  a.resc: lab ended with -11: signal 11", 2)

    def test_a_test_has_its_time(self) -> None:
        self.make("a", "1\n", "1\n")
        self.write("a.resc.waits", "")
        line = "failed  T s  a.resc: not finished after 1.5 s\n"
        self.expect(["--timeout", "1.5", "a.resc"], 1, f"{line}0 passed, 1 failed\n")
        self.assertTrue(is_ended(int(self.read("a.resc.waits"))))

    def test_a_script_that_is_named_needs_a_log(self) -> None:
        self.make("a", None, "1\n")
        self.expect(["a.resc"], 2, "error  T s  a.resc: there is no a.log: --update keeps one\n0 passed, 1 failed\n")
        self.expect(["."], 2, "", "suite: no test is in .: an X.resc with an X.log beside it\n")

    def test_what_is_not_there_is_told(self) -> None:
        self.expect(["none"], 2, "", "suite: there is no none\n")
        for words in "", "-j 0 .", "-j x .", "--timeout -1 .", "--fast .":
            ran = self.ran(SUITE, *words.split())
            self.assertEqual((ran.stdout, ran.returncode), ("", 2))
            self.assertIn("usage: tools/suite [-j N] [--junit FILE]", ran.stderr)

    def test_a_test_runs_once_in_the_order_of_the_words(self) -> None:
        for name in "b", "a", "sub/c":
            self.make(name, "1\n", "1\n")
        self.make("apart", None, "1\n")
        lines = "".join(f"passed  T s  {name}.resc\n" for name in ("b", "a", "sub/c"))
        self.expect(["b.resc", "-j", "2", ".", "./sub/c.resc"], 0, f"{lines}3 passed, 0 failed\n", "")

    def test_logs_are_kept(self) -> None:
        self.make("new", None, "1\n2\n")
        self.make("old", "1\n", "2\n")
        self.make("same", "1\n", "1\n")
        lines = "passed  T s  new.resc: the log has 2 lines now\npassed  T s  old.resc: the log has 1 lines now\n"
        lines += "passed  T s  same.resc: the log is as it was\n3 passed, 0 failed\n"
        self.expect(["--update", "new.resc", "."], 0, lines, "")
        self.assertEqual([self.read(f"{name}.log") for name in ("new", "old", "same")], ["1\n2\n", "2\n", "1\n"])

    def test_an_empty_log_is_not_kept(self) -> None:
        self.make("a", "1\n", "")
        line = "error  T s  a.resc: nothing was printed, so no log is kept\n"
        self.expect(["--update", "."], 2, f"{line}0 passed, 1 failed\n")
        self.assertEqual(self.read("a.log"), "1\n")
        ran = self.ran(EXPECT, "--bless", "a.resc", "b.log")
        self.assertEqual(ran.returncode, 73)
        self.assertIn("nothing was printed, so no log is kept", ran.stderr)
        self.assertFalse((self.room / "b.log").exists())

    def test_a_log_without_a_verdict_is_warned_of(self) -> None:
        self.write("board.repl", 'using "fin.repl"\n')
        self.write("fin.repl", "fin: Miscellaneous.SiFiveTest @ sysbus 0x100000\n")
        says = "mach create\nmachine LoadPlatformDescription @board.repl\n"
        warning = f"a.log {NO_VERDICT}\n"
        for prints, wanted in {"1\n": warning, "[0.000100] pause m0/fin: pass\n": ""}.items():
            self.make("a", "", prints, says)
            self.assertEqual(self.ran(SUITE, "--update", ".").stderr, wanted and f"suite: {wanted}")
            self.assertEqual(self.ran(EXPECT, "--bless", "a.resc", "a.log").stderr, wanted and f"expect: {wanted}")
        self.write("fin.repl", "// fin: Miscellaneous.SiFiveTest @ sysbus 0x100000\n")
        self.make("a", "", "1\n", says)
        self.assertEqual(self.ran(SUITE, "--update", ".").stderr, "")

    def test_a_failure_that_is_kept_is_warned_of(self) -> None:
        self.make("a", "1\n", "[0.000100] pause m0/fin: fail 3\n")
        told = "suite: a.log says that a test has failed, so later runs are expected to fail it too: "
        self.assertEqual(self.ran(SUITE, "--update", ".").stderr, f"{told}[0.000100] pause m0/fin: fail 3\n")

    def make_three(self) -> None:
        """Makes a test of each result."""
        self.make("tests/low/good", "[0.000001] m0/uart: 1 < 2 & \x1b\n", "[0.000001] m0/uart: 1 < 2 & \x1b\n")
        self.make("tests/other", "[0.000001] m0/uart: a\n", "[0.000001] m0/uart: b\n")
        self.make("tests/refused", "1\n", "error: tests/refused.resc:1: S1 unknown command\n", "", 3)

    def test_results_are_told_as_junit(self) -> None:
        self.make_three()
        ran = self.ran(SUITE, "--junit", "results.xml", "tests")
        self.assertEqual(ran.returncode, 2)
        self.assertEqual(without_seconds(self.read("results.xml")), JUNIT)
        self.assertEqual(self.ran(SUITE, "--junit", "none/results.xml", "tests/low").returncode, 2)

    def test_junit_has_the_last_20_lines(self) -> None:
        lines = [f"[0.{number:06}] m0/uart: {number}\n" for number in range(100)]
        self.make("a", "".join(lines), "".join(lines[:99]))
        self.ran(SUITE, "--junit", "results.xml", ".")
        text = self.read("results.xml")
        self.assertIn("<system-out>" + "".join(lines[79:99]) + "</system-out>", text)
        self.assertIn("-[0.000099] m0/uart: 99\n\nthe last lines printed:\n" + "".join(lines[79:99]), text)

    def test_results_are_told_as_tap(self) -> None:
        self.make_three()
        self.expect(["--tap", "tests"], 2, TAP, "")

    def test_a_suite_that_is_interrupted_ends_its_runs(self) -> None:
        self.make("a", "1\n", "1\n")
        self.write("a.resc.waits", "")
        with subprocess.Popen([SUITE, "."], cwd=self.room, env=self.environment, stdout=subprocess.PIPE) as suite:
            while not self.read("a.resc.waits"):
                time.sleep(0.05)
            suite.terminate()
            self.assertEqual(suite.wait(60), 130)
        self.assertTrue(is_ended(int(self.read("a.resc.waits"))))
