"""Proves the crates of the program side by side, and builds the program.

    tools/build [LANES]
    tools/build --unproved [--out FILE]    builds it without any proof, to try a change before it is proved

`rt all` proves each crate as soon as the crates that it uses are proved, LANES at a time: by default as many as there
are processors, and fewer if memory is short; at most 999. A crate that was proved before and has not changed takes
seconds. The tool first prints an estimate of the time, and then how much is done, counted in lines of the crates that
are new or have changed.

With --unproved, `rt try` compiles the program to FILE, by default out/lab-unproved, in some two minutes of one
processor. Nothing of that program is proved. It is slow, because it checks each access and each sum; LAB=FILE
cases/check runs the cases with it. FILE may not lie in bin/ or in crates/lab_cli/out/, where proved programs are.

The tool ends with 0 if the program is built, and with 1 if it is not; with 2 if it was called with wrong arguments; and
with 130 if it was interrupted.
"""
import hashlib
import heapq
import json
import os
import pathlib
import re
import signal
import subprocess
import tempfile
import time
from typing import IO, Callable, Dict, Iterable, List, Optional

from labdev import trials, unproved
from labdev.crates import PROGRAM as CRATE_OF_PROGRAM, below, uses_of
from labdev.kit_runs import FOLDER, Failed, Run, last_of, tell, time_since
from labdev.released import sum_of_sources
from labtools.common.program import TOP, counted, end_unless, number_of

PROGRAM = f"{FOLDER}/out/lab_cli"
PARTS = "src", "specs", "proofs"
# The sums of the crates as they were proved last.
PROVED = pathlib.Path(f"{TOP}/out/build.proved")
# What the proof of a crate takes, about, on a processor of 2.5 GHz: so many seconds, for each line, and at least. A
# crate that was proved takes the least.
SECONDS_OF_A_LINE = 0.055
SECONDS_OF_A_CRATE = 10
MOST_LANES = 999
USAGE = "[LANES] | --unproved [--out FILE]"
# What a check needs at most, mostly.
MEMORY_OF_A_CHECK = 3 * 2**30


def free_memory() -> Optional[int]:
    """Returns how many bytes of memory are free, or None where the system does not say."""
    try:
        with open("/proc/meminfo", encoding="ascii") as file:
            for line in file:
                if line.startswith("MemAvailable:"):
                    return int(line.split()[1]) * 1024
    except (OSError, ValueError):
        pass
    return None


def lanes_for_this_machine() -> int:
    """Returns how many crates are proved at a time."""
    processors = len(os.sched_getaffinity(0))
    free = free_memory()
    return processors if free is None else max(1, min(processors, free // MEMORY_OF_A_CHECK))


class Plan:
    """What each crate of the program is likely to take, and when it will be done."""

    def __init__(self, lanes: int) -> None:
        uses = uses_of((TOP / "crates.txt").read_text(encoding="utf-8"))
        self.uses = {name: uses[name] for name in below(uses, CRATE_OF_PROGRAM)}
        self.sums: Dict[str, str] = {}
        proved = proved_before()
        self.seconds = {it: self.seconds_of(it, proved) for it in self.in_order()}
        self.ends = self.schedule(lanes)

    def in_order(self) -> List[str]:
        """Returns the crates as `rt all` takes them: those with the fewest below them first."""
        return sorted(self.uses, key=lambda it: (len(below(self.uses, it)), it))

    def seconds_of(self, name: str, proved: Dict[str, str]) -> float:
        """Returns what a crate takes. Its sum has those of the crates that it uses, which come before it."""
        own = sources_of(name)
        said = [*own, *(self.sums[it].encode() for it in sorted(self.uses[name]))]
        self.sums[name] = hashlib.sha256(b"\0".join(said)).hexdigest()
        lines = 0 if proved.get(name) == self.sums[name] else sum(it.count(b"\n") for it in own)
        return SECONDS_OF_A_CRATE + lines * SECONDS_OF_A_LINE

    def schedule(self, lanes: int) -> Dict[str, float]:
        """Returns when each crate is done: the lane that is free first takes it, and waits there for those below it."""
        ends: Dict[str, float] = {}
        free = [0.0] * lanes
        for name in self.seconds:
            start = max([heapq.heappop(free), *(ends[it] for it in self.uses[name])])
            ends[name] = start + self.seconds[name]
            heapq.heappush(free, ends[name])
        return ends

    def whole(self) -> float:
        """Returns how many seconds all takes."""
        return max(self.ends.values())

    def part_of(self, done: Iterable[str]) -> int:
        """Returns how much of the work these crates are, in a hundred."""
        return round(100 * sum(self.seconds[it] for it in done) / sum(self.seconds.values()))

    def keep(self) -> None:
        """Keeps what is proved now, where a file can be made for it."""
        try:
            PROVED.parent.mkdir(exist_ok=True)
            PROVED.write_text(json.dumps(self.sums, indent=1))
        except OSError:
            pass


def sources_of(name: str) -> List[bytes]:
    """Returns what each source of a crate holds."""
    folders = [pathlib.Path(f"{TOP}/crates/{name}/{part}") for part in PARTS]
    return [path.read_bytes() for folder in folders for path in sorted(folder.rglob("*")) if path.is_file()]


def proved_before() -> Dict[str, str]:
    """Returns the sums of the crates as they were proved last, by their names."""
    try:
        return dict(json.loads(PROVED.read_text()))
    except (OSError, ValueError, TypeError):
        return {}


def cause_of(status: int) -> str:
    """Returns what is to be said of a check that was killed."""
    is_killed = status in (-signal.SIGKILL, 128 + signal.SIGKILL)
    return " (it was killed, most likely for memory: `tools/build 1` proves one crate at a time)" if is_killed else ""


class Progress:
    """What `rt all` has said so far: by the name of each crate that is done its text, and at the end the status of each
    that failed.
    """

    def __init__(self, plan: Plan, start: float) -> None:
        self.plan = plan
        self.start = start
        self.texts: Dict[str, List[str]] = {}
        self.current: List[str] = []
        self.failed: Dict[str, int] = {}

    def take(self, line: str) -> None:
        """Takes the next line. A crate's text stands after `== NAME`, and a summary after `== summary`."""
        if line.startswith("== "):
            self.begin(line[3:])
            return
        self.current.append(line)
        fault = re.fullmatch(r"(\w+): failed \((.*)\)", line)
        if fault and self.current is self.texts.get("summary"):
            self.failed[fault[1]] = int(fault[2])

    def begin(self, name: str) -> None:
        self.current = self.texts[name] = []
        done = self.plan.seconds.keys() & self.texts.keys()
        if name in done:
            part = f"{len(done)} of {len(self.plan.seconds)} crates, {self.plan.part_of(done)} % of the work"
            tell(f"{part}, {time_since(self.start)}: {name}")

    def fault(self) -> str:
        """Returns what is to be told where not all is proved."""
        if not self.failed:
            return f"the crates are not proved:\n{last_of(self.current)}"
        return "\n".join(
            f"{name} is not proved{cause_of(status)}:\n{last_of(self.texts[name])}"
            for name, status in self.failed.items()
        )


def prove(lanes: int, plan: Plan, log: IO[str], start: float) -> None:
    """Proves the crates of the program, so many at a time."""
    progress = Progress(plan, start)
    with Run(["all", "check", "--jobs", str(lanes)], log) as run:
        for line in run.lines():
            progress.take(line)
        if run.process.returncode != 0:
            raise Failed(progress.fault())
    plan.keep()


def build_program(log: IO[str]) -> None:
    """Builds the program, and runs it without words, so that it says how it is called."""
    if os.path.exists(PROGRAM):
        os.remove(PROGRAM)
    with Run(["run"], log) as run:
        said = list(run.lines())
    if not os.path.exists(PROGRAM):
        raise Failed(f"the program is not built:\n{last_of(said)}")


def keep_sum(before: str) -> None:
    """Keeps beside the program from which sources it was built, unless they have changed meanwhile."""
    if sum_of_sources() != before:
        raise Failed("the sources have changed during the build; start it again")
    with open(f"{PROGRAM}.sources", "w", encoding="ascii") as file:
        file.write(f"{before}\n")


def build(lanes: int, log: IO[str]) -> None:
    start = time.monotonic()
    before = sum_of_sources()
    plan = Plan(lanes)
    minutes = f"{plan.whole() / 60:.0f} minutes" if plan.whole() >= 90 else "a minute"
    crates = counted(lanes, "crate", "crates")
    tell(f"proves and builds the program, {crates} at a time, in about {minutes}; later runs start at once")
    prove(lanes, plan, log, start)
    build_program(log)
    keep_sum(before)
    tell(f"the program is built, after {time_since(start)}")


def main(words: List[str]) -> int:
    trials.unwind_at_ends()
    if words[:1] == ["--unproved"]:
        end_unless(len(words) == 1 or len(words) == 3 and words[1] == "--out", USAGE)
        place = unproved.place_of(words[2]) if words[1:] else unproved.STANDARD
        return ended(lambda log: unproved.build(place, log), "nothing is built")
    end_unless(len(words) < 2, USAGE)
    lanes = number_of(words[0], USAGE, MOST_LANES) if words else lanes_for_this_machine()
    return ended(lambda log: build(lanes, log), "what is proved is kept")


def ended(work: Callable[[IO[str]], None], left: str) -> int:
    """Returns the status of a build, whose log it keeps where the build fails. `left` says what an interrupt leaves."""
    status = 0
    with tempfile.NamedTemporaryFile("w", prefix="lab-build-", suffix=".log", delete=False) as log:
        try:
            work(log)
        except (Failed, OSError, subprocess.CalledProcessError) as fault:
            tell(fault)
            tell(f"the whole output is in {log.name}")
            return 1
        except KeyboardInterrupt:
            tell(f"the build was interrupted; {left}")
            status = 130
    os.remove(log.name)
    return status
