"""The plugin of pytest, as pytest runs it in a project of its own. It is passed over where pytest is not installed."""
import functools
import re
import shutil
import signal
import subprocess
import sys
from typing import Dict, List

from labtools.common.program import TOP
from tests.suite_projects import HEED, STAND_IN, SUITE, WithLab, is_ended, wait_for

PYTEST = "/usr/bin/pytest"

# What boards of the demos print is worked out in their own documents, and kept in the files `output` there.
TESTS = """
import pytest

def test_lines(lab):
    run = lab.run("demo/suite/talk.resc", workers=4)
    assert run.status == 0 and run.boards == ["ping", "pong"] and run.devices == ["ping/uart", "pong/uart"]
    assert run.lines("pong/uart") == ["pong", "pong"] and run.lines("none/uart") == []
    assert run.times("pong/uart") == [0.000155, 0.000356] and run.time_of("pong/uart", "pong") == 0.000155
    assert run.verdict == ""
    with pytest.raises(LookupError, match="pong/uart has not printed 'ping'; these have printed: ping/uart, pong/uart"):
        run.time_of("pong/uart", "ping")

def test_frames(lab):
    frames = lab.run("demo/can/s.resc").frames("sensor/can")
    first = frames[0].frame
    assert frames[0].time == 0.000257 and first.became == "tx"
    assert (first.identifier, first.data, first.is_remote) == (0x123, bytes([0x01, 0x15]), False)

def test_bus(lab):
    run = lab.run("bus.resc")
    assert [entry.access.address for entry in run.bus("m0")][:1] == [0x90000000]
    assert not run.bus("m0")[0].access.is_write and run.bus("m0")[0].access.width == 4

def test_verdicts(lab):
    assert [lab.run(f"demo/{it}/s.resc").verdict for it in ("pass", "fail")] == ["pass", "fail 3"]

def test_script_says(lab):
    assert lab.run("demo/pass/s.resc", lines=["mach set 0", "cpu PC"]).lines("script") == ["0x8000002c"]

@pytest.fixture(scope="session")
def booted(lab):
    return lab.snapshot("demo/suite/boards.resc")

@pytest.mark.parametrize("length, count", [("0.0002", 1), ("0.0005", 2)])
def test_goes_on(lab, booted, length, count):
    assert lab.run(after=booted, lines=[f"emulation RunFor {length}"]).lines("pong/uart") == ["pong"] * count

@pytest.mark.parametrize("phase", [16, 18])
def test_variables(lab, phase):
    assert lab.run("demo/sweep/s.resc", variables={"phase": phase}).verdict == "pass"

def test_until(lab):
    assert lab.run(lines=["start", "mach create"], until=0.5).status == 0

def test_elsewhere(lab):
    assert lab.within("demo").run("suite/hello.resc").status == 4
"""

FAILING = """
import pytest

def test_finding(lab):
    assert lab.run("demo/sweep/s.resc", variables={"phase": 17}).verdict == "pass"

def test_refusal(lab):
    assert lab.run(lines=["none"]).status == 0

def test_time(lab):
    assert lab.run(lines=['mach create', 'machine LoadPlatformDescription @demo/hello/board.repl', 'start'],
                   until="10000", timeout=0.1).status == 0

def test_snapshot(lab):
    lab.snapshot("none.resc")

def test_name(lab):
    lab.run("demo/sweep/s.resc", variables={"a b": 1})
"""

# A load of the word at 0x90000000, where nothing stands, again and again.
BUS = """\
mach create "m0"
machine LoadPlatformDescription @demo/hello/board.repl
sysbus WriteDoubleWord 0x80000000 0x900002b7
sysbus WriteDoubleWord 0x80000004 0x0002a303
sysbus WriteDoubleWord 0x80000008 0xffdff06f
cpu PC 0x80000000
emulation RunFor 0.00001
"""


@functools.lru_cache(maxsize=None)
def version_with_xdist() -> str:
    """What pytest says of an option that only pytest-xdist takes."""
    return subprocess.run([PYTEST, "-n", "0", "--version"], capture_output=True, text=True).stderr


class Plugin(WithLab):
    """A project with tests in Python and with scripts."""

    def setUp(self) -> None:
        super().setUp()
        if not shutil.which(PYTEST):
            self.skipTest("the plugin of pytest, without pytest")
        self.environment["PYTHONPATH"] = str(TOP / "python")
        self.write("tests/test_lab.py", TESTS)
        self.write("bus.resc", BUS)

    def pytest(self, *words: str) -> "subprocess.CompletedProcess[str]":
        return self.ran(PYTEST, "-p", "labtools.pytest_plugin", "-p", "no:cacheprovider", *words)

    def has_xdist(self) -> bool:
        return "unrecognized arguments: -n" not in version_with_xdist()

    def results(self, ran: "subprocess.CompletedProcess[str]") -> Dict[str, str]:
        """How each test has ended, by the lines of -v or those of pytest-xdist."""
        found = re.findall(
            r"^(?:\[gw\d\] .*?)?(\S+::\S+) (PASSED|FAILED)|^\[gw\d\] \[.*\] (\w+) (\S+)", ran.stdout, re.M
        )
        return {it[0] or it[3]: it[1] or it[2] for it in found}

    def scripts(self, *words: str) -> List[str]:
        """Which scripts are taken for tests."""
        lines = self.pytest("--collect-only", "-q", *words).stdout.splitlines()
        return [line.partition("::")[0] for line in lines if ".resc::" in line]

    def test_tests_in_python(self) -> None:
        before = sorted(it.name for it in self.room.rglob("*") if "__pycache__" not in it.parts)
        ran = self.pytest("-v", "tests")
        self.assertEqual(set(self.results(ran).values()), {"PASSED"}, ran.stdout)
        self.assertEqual(ran.stdout.splitlines()[-1].split(" in ")[0].strip("= "), "11 passed")
        self.assertEqual(sorted(it.name for it in self.room.rglob("*") if "__pycache__" not in it.parts), before)

    def test_scripts_are_tests_where_it_is_asked_for(self) -> None:
        suite = [f"demo/suite/{it}.resc" for it in ("booted", "hello", "rounds", "sum", "talk", "wrong_sum")]
        self.assertEqual(self.scripts(), [])
        self.assertEqual(self.scripts("--lab"), suite)
        self.assertEqual(self.scripts("--lab", "tests"), [])
        self.assertEqual(self.scripts("demo/suite/sum.resc"), suite[3:4])
        self.write("pytest.ini", "[pytest]\nlab_suites = demo\n")
        self.assertEqual(self.scripts(), suite)

    def test_scripts_end_as_those_of_a_suite(self) -> None:
        ran = self.pytest("-v", "--lab", "demo/suite")
        passed = {f"demo/suite/{it}.resc::{it}": "PASSED" for it in ("booted", "hello", "rounds", "sum", "talk")}
        self.assertEqual(self.results(ran), {**passed, "demo/suite/wrong_sum.resc::wrong_sum": "FAILED"}, ran.stdout)
        for wanted in (
            "failed: a test has failed: [0.000100] pause m0/fin: fail 3\n",
            "\n-[0.000100] pause m0/fin: pass\n+[0.000100] pause m0/fin: fail 3\n",
            "\nwhere the boards are:\nat 0.000100\n\nm0\n  cpu: hart 0, runs\n    pc         0x8000002c\n",
        ):
            self.assertIn(wanted, ran.stdout)

    def test_a_script_without_its_log_is_an_error(self) -> None:
        self.write("a.resc", "# no log\n")
        self.assertIn("\nerror: there is no a.log: --update keeps one\n", self.pytest("a.resc").stdout)

    def test_failures_are_shown_with_their_runs(self) -> None:
        self.write("tests/test_lab.py", FAILING)
        told = self.pytest("tests").stdout
        for wanted in (
            "- lab: demo/sweep/s.resc phase=17 -",
            "\nthe last lines printed:\n[0.003007] pause listener/fin: fail 1\n",
            "\nwhere the boards are:\nat 0.003007\n\nsender\n  cpu: hart 0, runs\n    pc         0x80000024\n",
            "resc:1: S1 unknown command\n",
            "\nnot finished after 0.1 s, 0.",
            "RuntimeError: none.resc has kept no snapshot: lab ended with 4: a file could not be read, none.resc",
            "ValueError: 'a b' is not the name of a variable",
            "= 5 failed in ",
        ):
            self.assertIn(wanted, told)

    def test_a_signal_ends_the_runs(self) -> None:
        self.write("stand_in", STAND_IN)
        (self.room / "stand_in").chmod(0o755)
        self.environment["LAB"] = str(self.room / "stand_in")
        self.write("a.resc.waits", "")
        self.write("tests/test_lab.py", "def test_it(lab):\n    lab.run('a.resc')\n")
        words = [sys.executable, "-c", HEED, PYTEST, "-p", "labtools.pytest_plugin", "tests"]
        with subprocess.Popen(words, cwd=self.room, env=self.environment, stdout=subprocess.DEVNULL) as pytest:
            wait_for(lambda: bool(self.read("a.resc.waits")))
            pytest.terminate()
            self.assertEqual(pytest.wait(240), -signal.SIGTERM)
        wait_for(lambda: is_ended(int(self.read("a.resc.waits"))))

    def test_workers_of_xdist_share_the_tests(self) -> None:
        if not self.has_xdist():
            self.skipTest("the plugin of pytest on several processors, without pytest-xdist")
        ran = self.pytest("-v", "-n", "3", "--lab", "tests", "demo/suite")
        results = self.results(ran)
        self.assertEqual(sum(it == "PASSED" for it in results.values()), 11 + 5, ran.stdout)
        self.assertEqual([it for it in results if results[it] == "FAILED"], ["demo/suite/wrong_sum.resc::wrong_sum"])

    def test_shards_of_pytest_are_made_one(self) -> None:
        for number in 1, 2, 3:
            words = ["--shard", f"{number}/3", f"--junitxml={number}.xml", "--lab", "tests", "demo/suite"]
            self.pytest(*words, *(["-n", "2"] if number == 2 and self.has_xdist() else []))
        ran = self.ran(SUITE, "--merge", "1.xml", "2.xml", "3.xml")
        self.assertEqual((ran.returncode, ran.stdout.splitlines()[-1]), (1, "16 passed, 1 failed"), ran.stderr)
        self.assertIn("--shard: 4/3 is not K/N, with K from 1 to N", self.pytest("--shard", "4/3").stderr)
