"""Times runs of sixteen boards by one, two, four and eight workers.

    tools/workers [--lab PROGRAM] [--times N] [NAME ..]
    tools/workers --list

Each run is made N times, five by default, with each number of workers in turn. The fastest is printed: its seconds, and
in brackets those of all processors. The figures mean something only if as many processors as workers are otherwise
idle. The logs of a run must be the same with every number of workers. Without names all are timed, which takes two
minutes. docs/SPEED.md has the figures of one machine.

    --lab PROGRAM    times this program; by default that of the variable LAB, or the one that ./lab runs
    --times N        makes each run N times
    --list           prints the names of the runs, and makes none

It prints a table in Markdown. It ends with 0; with 1 if a run failed, the logs differ or the table cannot be written;
and with 2 if its arguments are wrong or there is no such program.
"""
import resource
import subprocess
import tempfile
import time
from typing import Dict, List, NamedTuple, Tuple

from labdev import trials
from labdev.speed import program_of_words
from labdev.speed_loads import BOARDS, Form, Run, board, files, programs, run_for
from labtools.common.program import end_wrong, parser_of
from labtools.logs.log_lines import time_text

WORKERS = 1, 2, 4, 8
# How long a run may take, in seconds.
SECONDS = 600
HALTED = "cpu0 IsHalted true"


class Failed(Exception):
    """A run that did not end as it has to: how."""


class Times(NamedTuple):
    """What a run took, in seconds: by the clock, and of all processors."""

    clock: float
    processors: float


def boards(kind: str, quantum: int, micros: int, awake: int = BOARDS, mips: int = 100) -> Run:
    """Returns a run of sixteen boards, of which so many are not halted, in rounds of a quantum, in microseconds."""
    form = Form(mips=mips)
    script = [f'emulation SetGlobalQuantum "{time_text(quantum)}"']
    for number in range(BOARDS):
        script += [*board(number, form), *([HALTED] if number >= awake else [])]
    return Run(["run", "s.resc"], files(form, programs()[kind], [*script, run_for(micros)]), None)


def runs() -> Dict[str, Run]:
    """Returns the runs that are timed, by their names."""
    return {
        "1ms": boards("additions", 1_000, 100_000),
        "100us": boards("additions", 100, 100_000),
        "10us": boards("additions", 10, 100_000),
        "gen": Run(["gen", "7", str(BOARDS)], {}, None),
        "two-awake": boards("additions", 1_000, 1_000_000, awake=2),
        "asleep": boards("waits", 1_000, 1_000_000, mips=1),
        "halted": boards("additions", 1_000, 1_000_000, awake=0),
    }


def timed(program: str, words: List[str], room: str) -> Tuple[Times, bytes]:
    """Makes a run, and returns what it took and what it printed."""
    before = resource.getrusage(resource.RUSAGE_CHILDREN)
    start = time.monotonic()
    ran = subprocess.run([program, *words], cwd=room, stdin=subprocess.DEVNULL, capture_output=True, timeout=SECONDS)
    clock = time.monotonic() - start
    after = resource.getrusage(resource.RUSAGE_CHILDREN)
    if ran.returncode != 0:
        raise Failed(f"it ended with {ran.returncode}: {ran.stdout[-200:].decode(errors='replace')}")
    return Times(clock, after.ru_utime + after.ru_stime - before.ru_utime - before.ru_stime), ran.stdout


def least(program: str, run: Run, times: int) -> List[Times]:
    """Returns the least of so many runs, by the clock, for each number of workers."""
    found: List[List[Times]] = [[] for _ in WORKERS]
    logs = set()
    with tempfile.TemporaryDirectory(prefix="lab-workers-") as room:
        trials.put(room, run.files)
        for _ in range(times):
            for row, workers in zip(found, WORKERS):
                took, log = timed(program, [*run.words, "--workers", str(workers)], room)
                row.append(took)
                logs.add(log)
    if len(logs) > 1:
        raise Failed("its logs differ")
    return [min(row) for row in found]


def main(words: List[str]) -> None:
    parser = parser_of(__doc__)
    parser.add_argument("--lab")
    parser.add_argument("--times", type=int, default=5)
    parser.add_argument("--list", action="store_true")
    parser.add_argument("names", nargs="*")
    asked = parser.parse_args(words)
    every = runs()
    for name in asked.names:
        if name not in every:
            parser.error(f"no run has the name {name}: see --list")
    if asked.times < 1:
        parser.error("--times is at least 1")
    if asked.list:
        print("\n".join(every))
        return
    program = program_of_words(asked.lab)
    print("| Run | " + " | ".join(f"{it} worker{'s' * (it > 1)}" for it in WORKERS) + " |")
    print("|---" * (len(WORKERS) + 1) + "|")
    for name in asked.names or every:
        try:
            took = least(program, every[name], asked.times)
        except (Failed, subprocess.TimeoutExpired) as fault:
            end_wrong(f"{name}: {fault}", 1)
        cells = [f"{it.clock:.3f} ({it.processors:.3f})" for it in took]
        print(f"| {name} | " + " | ".join(cells) + " |", flush=True)
