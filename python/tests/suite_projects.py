"""Projects of tests of suites, and what a suite says."""
import contextlib
import os
import pathlib
import re
import shutil
import subprocess
import sys
import time
from typing import Callable, Dict, List, Optional, Tuple

from labtools.common.program import TOP
from tests.commands import Room

SUITE = str(TOP / "tools/suite")
EXPECT = str(TOP / "tools/expect")

NO_VERDICT = "has no verdict (`pause .. pass`), though a board has a finisher: did the test finish?"

DEMO_LINES = """\
passed  T s  demo/suite/booted.resc
passed  T s  demo/suite/hello.resc
passed  T s  demo/suite/rounds.resc
passed  T s  demo/suite/sum.resc
passed  T s  demo/suite/talk.resc
failed  T s  demo/suite/wrong_sum.resc: a test has failed: [0.000100] pause m0/fin: fail 3
5 passed, 1 failed
"""


# Prints the file beside the script, and ends with the status in another one, or 0. It waits where there is a third.
STAND_IN = """#!/bin/sh
[ "$1" = run ] || exit 2
if [ "$2" = -- ]; then
  shift
fi
if [ -e "$2.waits" ]; then
  sleep 600 &
  echo $! >"$2.waits"
  wait
fi
cat "$2.prints"
if [ -e "$2.status" ]; then
  exit "$(cat "$2.status")"
fi
"""

# Prints the most memory of a program in MB, and its seconds of the processor.
MEASURE = """
import os, subprocess, sys
with open("printed", "w") as printed:
    process = subprocess.Popen(sys.argv[1:], stdout=printed, stderr=subprocess.DEVNULL)
used = os.wait4(process.pid, 0)[2]
print(used.ru_maxrss // 1024, used.ru_utime + used.ru_stime)
"""

# Becomes a program that ignores no signal by which it may be ended.
HEED = """
import os, signal, sys
for number in signal.SIGINT, signal.SIGTERM, signal.SIGHUP:
    signal.signal(number, signal.SIG_DFL)
os.execv(sys.argv[1], sys.argv[1:])
"""


def without_seconds(text: str) -> str:
    """The text with each time that a machine has taken as T."""
    text = re.sub(r" +\d+\.\d\d s  ", "  T s  ", text)
    text = re.sub(r'time="\d+\.\d{3}"', 'time="T"', text)
    return re.sub(r"duration_ms: \d+", "duration_ms: T", text)


def wait_for(is_so: Callable[[], bool]) -> None:
    """Waits until something is so, for some minutes at most, since a machine may be busy."""
    until = time.monotonic() + 240
    while not is_so():
        if time.monotonic() > until:
            raise AssertionError("it has waited for minutes")
        time.sleep(0.02)


def opened_by(process: int) -> List[str]:
    """The paths of the files that a process has opened."""
    with contextlib.suppress(OSError):
        return [os.readlink(it) for it in pathlib.Path(f"/proc/{process}/fd").iterdir()]
    return []


def is_ended(process: int) -> bool:
    """Whether a process has ended; it may still be there for a parent to look at its status."""
    with contextlib.suppress(OSError):
        return pathlib.Path(f"/proc/{process}/stat").read_text(encoding="utf-8").rpartition(") ")[2].startswith("Z")
    return True


class Project(Room):
    """Tests in a project of their own, a new folder."""

    def expect(self, words: List[str], status: int, lines: str, told: Optional[str] = None) -> None:
        """Calls tools/suite, which has to end with this status and to print these lines."""
        ran = self.ran(SUITE, *words)
        self.assertEqual((without_seconds(ran.stdout), ran.returncode), (lines, status), ran.stderr)
        if told is not None:
            self.assertEqual(ran.stderr, told)


class WithStandIn(Project):
    """Tests with a program of a few lines in place of lab, which prints what it is told to."""

    def setUp(self) -> None:
        super().setUp()
        self.write("stand_in", STAND_IN, 0o755)
        self.environment["LAB"] = str(self.room / "stand_in")

    def make(self, script: str, kept: Optional[str], prints: str, says: str = "", status: int = 0) -> None:
        """Makes a test whose log is this text and whose run prints that."""
        self.write(f"{script}.resc", says)
        self.write(f"{script}.resc.prints", prints)
        if kept is not None:
            self.write(f"{script}.log", kept)
        if status:
            self.write(f"{script}.resc.status", str(status))

    def finds(self, line: str, status: int) -> None:
        """The one test of the project ends so."""
        passed = int(line.startswith("passed"))
        self.expect(["."], status, f"{line}\n{passed} passed, {1 - passed} failed\n")


class Bearing(WithStandIn):
    """What a suite bears: tests of which something is wrong, signals and full disks."""

    def setUp(self) -> None:
        super().setUp()
        self.temporary = self.room / "room"
        self.temporary.mkdir()
        self.environment["TMPDIR"] = str(self.temporary)

    def begin(self, *words: str) -> "subprocess.Popen[bytes]":
        """Begins a suite, which ignores no signal, though this program may have been started so."""
        words = (sys.executable, "-c", HEED, sys.executable, SUITE, *words)
        return subprocess.Popen(words, cwd=self.room, env=self.environment, stdout=subprocess.DEVNULL)

    def used(self, *words: str) -> Tuple[int, float]:
        """How many MB a suite takes, or one of the programs that it starts: the most of any; and the seconds of the
        processor. What it prints is written down in `printed`. A small program starts it, since a program begins with
        the memory of what has started it."""
        memory, seconds = self.ran(sys.executable, "-c", MEASURE, sys.executable, SUITE, *words).stdout.split()
        return int(memory), float(seconds)

    def errors(self, names: Dict[str, str], *words: str) -> None:
        """The tests of the project all end with these errors. A suite that waits is ended after some minutes."""
        lines = "".join(f"error  T s  {name}: {cause}\n" for name, cause in names.items())
        self.expect([*words, "."], 2, f"{lines}0 passed, {len(names)} failed\n", "")


class WithLab(Project):
    """Tests with lab, in a folder with the demos."""

    def setUp(self) -> None:
        super().setUp()
        shutil.copytree(TOP / "demo", self.room / "demo", ignore=shutil.ignore_patterns("*.snap", "*.sums"))
