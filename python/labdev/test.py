"""Runs all tests that need no proof, side by side on all processors: the demos and the cases with one, two and eight
workers, ./lab and the scripts of tools/, damaged files, snapshots, and what the documents show.

    ./test               all of it
    ./test WORD ..       the tests whose names have one of these words
    ./test --list ..     prints the names, and runs nothing
    ./test --released    also compares bin/lab with the program that was built here, as .ci/run asks

It proves nothing: .ci/run does. It tests the program of LAB, or else the one that ./lab runs, which is built first if
needed. It prints how far it is, what a failed test says, and what a test passes over (its lines that begin so) because
a program is not installed, or because root may do everything. The last line is `N passed, M failed`. It ends with 0;
with 1 if a test failed, or if bin/lab is to be tested and is not the program of the sum kept with it; and with 2 if no
test's name has one of the words or an option is wrong.
"""
import concurrent.futures
import dataclasses
import json
import os
import pathlib
import shutil
import signal
import subprocess
import sys
import threading
import time
from typing import Dict, List, Optional

from labdev import trials
from labdev.recipes import all_documents
from labdev.released import fault_of
from labtools.common.program import TOP, drop_output, parser_of, path_of_program

RELEASED = TOP / "bin/lab"
DECISIONS = TOP / "docs/decisions"
# The most seconds that a test may take, and how often the progress is printed.
SECONDS = 900
TOLD_EACH = 10
# How long each test took the last time. The longest begin first.
TIMES = TOP / "out/test.times"
# How many damaged files tools/mangle tries.
DAMAGED = 400


@dataclasses.dataclass(frozen=True)
class Test:
    """A command with its name, and its seconds if no earlier run has told them."""

    name: str
    words: List[str]
    seconds: float = 1.0
    folder: pathlib.Path = TOP


@dataclasses.dataclass
class Result:
    """How a test has ended: the fault, if any, what it printed, and its seconds."""

    fault: Optional[str]
    said: str
    seconds: float


def tests_of_cases() -> List[Test]:
    """Returns the tests of demos and cases."""
    demos = sorted(it.parent.name for it in TOP.glob("demo/*/s.resc"))
    tests = [Test(f"demo/{it}", ["demo/check", it]) for it in demos]
    cases = sorted(TOP.glob("cases/*.case"))
    tests += [Test(f"cases/{it.stem}", ["cases/check", str(it)], 2.0) for it in cases]
    if cases:
        tests.append(Test("cases/words", ["cases/check", "--words"]))
    return tests


def tests_of_tools() -> List[Test]:
    """Returns the tests of ./lab and of the scripts of tools/."""
    tests: List[Test] = []
    for command, seconds in ("edges", 5.0), ("cuts", 60.0), (f"mangle {DAMAGED}", 9.0):
        name, *words = command.split()
        if (TOP / "tools" / name).exists():
            tests.append(Test(f"tools/{name}", [f"tools/{name}", *words], seconds))
    for path in sorted(TOP.glob("python/tests/test_*.py")):
        words = [sys.executable, "-m", "labdev.quiet", f"tests.{path.stem}"]
        tests.append(Test(f"tests/{path.stem[len('test_'):]}", words, 5.0, TOP / "python"))
    if (TOP / "demo/lua/check").exists():
        tests.append(Test("tests/lua", ["demo/lua/check"], 5.0))
    return tests


def tests_of_documents() -> List[Test]:
    """Returns the tests of what the documents show."""
    if not (TOP / "tools/recipes").exists():
        return []
    decisions = [it for it in all_documents() if it.parent == DECISIONS]
    documents = [it for it in all_documents() if it not in decisions]
    tests = [Test(f"recipes/{it.stem}", ["tools/recipes", str(it)], 2.0) for it in documents]
    return [*tests, Test("recipes/decisions", ["tools/recipes", *map(str, decisions)], 2.0)]


def all_tests(is_released: bool) -> List[Test]:
    released = [Test("released", ["tools/release", "--check"], 0.0)] if is_released else []
    return [*released, *tests_of_tools(), *tests_of_documents(), *tests_of_cases()]


def earlier_times() -> Dict[str, float]:
    """Returns the seconds that each test took the last time, where they were kept."""
    try:
        return {str(name): float(seconds) for name, seconds in json.loads(TIMES.read_text()).items()}
    except (OSError, ValueError, AttributeError):
        return {}


def keep_times(times: Dict[str, float]) -> None:
    """Keeps the times, where a file can be made."""
    try:
        TIMES.parent.mkdir(exist_ok=True)
        TIMES.write_text(json.dumps(times, indent=1, sort_keys=True))
    except OSError:
        pass


def path_of_commands() -> str:
    """Returns a path of commands on which python3 is the one that runs this. The shim of a manager of Pythons, which
    chooses one anew at each start, makes that take half as long again."""
    path, found = os.environ.get("PATH", os.defpath), shutil.which("python3")
    is_this = found is not None and os.path.samefile(found, sys.executable)
    return path if is_this else os.path.dirname(sys.executable) + os.pathsep + path


class Runs:
    """The tests that run now, which end with this script."""

    def __init__(self, program: str) -> None:
        self.environment = {**os.environ, "LAB": program, "PATH": path_of_commands()}
        self.lock = threading.Lock()
        self.running: Dict[str, "subprocess.Popen[str]"] = {}
        self.is_ended = False

    def begin(self, test: Test) -> Optional["subprocess.Popen[str]"]:
        """Starts a test, unless this script ends."""
        with self.lock:
            if self.is_ended:
                return None
            process = trials.begin(test.words, test.folder, self.environment)
            self.running[test.name] = process
            return process

    def run(self, test: Test) -> Result:
        """Runs a test to its end."""
        start = time.monotonic()
        process = self.begin(test)
        if process is None:
            return Result("was not started", "", 0.0)
        try:
            said, _ = process.communicate(timeout=SECONDS)
            fault = None if process.returncode == 0 else f"ended with {process.returncode}"
        except subprocess.TimeoutExpired:
            self.kill(process)
            said, _ = process.communicate()
            fault = f"was still running after {SECONDS} seconds"
        with self.lock:
            del self.running[test.name]
        return Result(fault, said, time.monotonic() - start)

    def longest(self) -> List[str]:
        """Returns the names of the tests that run, those first that were begun first."""
        with self.lock:
            return list(self.running)

    def kill(self, process: "subprocess.Popen[str]") -> None:
        try:
            os.killpg(process.pid, signal.SIGKILL)
        except ProcessLookupError:
            pass

    def end(self) -> None:
        """Ends what runs, and begins nothing more."""
        with self.lock:
            self.is_ended = True
            for process in self.running.values():
                self.kill(process)


class Progress:
    """Shows how far the tests are: in one line that is rewritten on a terminal, and else in a line now and then."""

    def __init__(self, count: int, runs: Runs) -> None:
        self.count = count
        self.runs = runs
        self.done = self.failed = 0
        self.start = self.told = time.monotonic()
        self.is_terminal = sys.stdout.isatty()

    def clear(self) -> None:
        if self.is_terminal:
            print("\r\033[K", end="")

    def take(self, test: Test, result: Result) -> None:
        """Counts a test that has ended, and prints what it has said."""
        self.done += 1
        self.failed += result.fault is not None
        self.clear()
        lines = result.said.splitlines()
        if result.fault is not None:
            print(f"FAILED {test.name}: {' '.join(test.words)} {result.fault}")
            print(*(f"    {line}" for line in lines), sep="\n")
        else:
            print("".join(f"{test.name}: {line}\n" for line in lines if line.startswith("passed over")), end="")

    def tell(self) -> None:
        now = time.monotonic()
        if self.is_terminal or now - self.told >= TOLD_EACH:
            self.told = now
            line = f"{self.done} of {self.count} tests, {self.failed} failed, {now - self.start:.0f} seconds"
            line += "".join(f"; {it}" for it in self.runs.longest()[:2])
            self.clear()
            print(line, end="" if self.is_terminal else "\n")
        sys.stdout.flush()


def try_all(tests: List[Test], runs: Runs) -> int:
    """Tries these tests side by side, the longest first, and returns how many have failed."""
    times = earlier_times()
    tests = sorted(tests, key=lambda it: -times.get(it.name, it.seconds))
    progress = Progress(len(tests), runs)
    with concurrent.futures.ThreadPoolExecutor(len(os.sched_getaffinity(0))) as pool:
        begun = {pool.submit(runs.run, it): it for it in tests}
        left = set(begun)
        try:
            while left:
                done, left = concurrent.futures.wait(left, TOLD_EACH, concurrent.futures.FIRST_COMPLETED)
                for it in done:
                    times[begun[it].name] = round(it.result().seconds, 2)
                    progress.take(begun[it], it.result())
                progress.tell()
        except BaseException:
            runs.end()
            raise
    progress.clear()
    keep_times(times)
    print(f"{time.monotonic() - progress.start:.0f} seconds")
    return progress.failed


def tests_of_words(words: List[str], is_released: bool) -> List[Test]:
    """Returns the tests whose names have one of the words, or all, and ends the script where a word finds none."""
    every = all_tests(is_released)
    idle = [word for word in words if not any(word in it.name for it in every)]
    for word in idle:
        print(f"./test: no test's name has the word {word}: --list prints the names", file=sys.stderr)
    if idle:
        sys.exit(2)
    return [it for it in every if not words or any(word in it.name for word in words)]


def main(words: List[str]) -> int:
    parser = parser_of(__doc__)
    parser.add_argument("--list", action="store_true")
    parser.add_argument("--released", action="store_true")
    parser.add_argument("names", nargs="*")
    asked = parser.parse_args(words)
    tests = tests_of_words(asked.names, asked.released)
    if asked.list:
        print(*(it.name for it in tests), sep="\n")
        return 0
    program = path_of_program()
    fault = fault_of(RELEASED) if RELEASED.exists() and RELEASED.samefile(program) else None
    if fault:
        print(f"./test: {fault}", file=sys.stderr)
        return 1
    trials.unwind_at_ends()
    try:
        failed = try_all(tests, Runs(program))
    except KeyboardInterrupt:
        return 130
    except BrokenPipeError:
        drop_output()
        return 1
    print(f"{len(tests) - failed} passed, {failed} failed")
    return 1 if failed else 0
