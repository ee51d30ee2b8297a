"""What a run of the gate costs: the processor seconds of the prover by crate and by kind of work, as /proc has them
while it runs, and those of the whole run, as the system sums them up.

The prover is looked at twice a second, so a process is told with up to half a second too little; what is missing, and
what the kit and the compilers take, is the rest of the whole.
"""
import collections
import contextlib
import dataclasses
import os
import resource
import subprocess
import threading
from typing import DefaultDict, Dict, Iterator, List, Optional, Set, Tuple

TICKS = os.sysconf("SC_CLK_TCK")
LOOKS_EACH = 0.5
KINDS = "proof", "tests", "seed", "edits"


@dataclasses.dataclass(frozen=True)
class Process:
    """A process as /proc has it: its number, when it began, that of its parent, its name, and the seconds that it and
    those of its children that have ended have taken."""

    number: int
    began: str
    parent: int
    name: str
    seconds: float


@dataclasses.dataclass(frozen=True)
class Work:
    """What a process of the prover does: a crate's proof, that of its tests, the check that its edits begin with, or
    an edit."""

    crate: str
    kind: str


def process_of(number: str) -> Optional[Process]:
    """Returns the process of a folder of /proc, unless it has ended."""
    try:
        with open(f"/proc/{number}/stat", encoding="utf-8", errors="replace") as file:
            head, _, rest = file.read().rpartition(")")
    except OSError:
        return None
    fields = rest.split()
    seconds = sum(int(it) for it in fields[11:15]) / TICKS
    return Process(int(number), fields[19], int(fields[1]), head.partition("(")[2], seconds)


def processes_below(root: int) -> Iterator[Process]:
    """Yields the processes that a process has begun, with those that these have begun."""
    children: DefaultDict[int, List[Process]] = collections.defaultdict(list)
    for number in os.listdir("/proc"):
        process = process_of(number) if number.isdigit() else None
        if process:
            children[process.parent].append(process)
    left = [root]
    while left:
        found = children[left.pop()]
        left += [it.number for it in found]
        yield from found


def work_of(process: Process) -> Optional[Work]:
    """Returns what a process of the prover does, unless it has ended or is none."""
    try:
        with open(f"/proc/{process.number}/cmdline", encoding="utf-8", errors="replace") as file:
            words = file.read().split("\0")
        folder = os.readlink(f"/proc/{process.number}/cwd")
    except OSError:
        return None
    if "--crate-name" not in words:
        return None
    kept = words[words.index("--incremental") + 1] if "--incremental" in words else ""
    if "rt-edit-" in folder:
        kind = "seed" if kept.endswith("/seed") else "edits"
    else:
        kind = "tests" if "--test" in words else "proof"
    return Work(words[words.index("--crate-name") + 1], kind)


class Watch:
    """Adds up what the prover takes below a process."""

    def __init__(self) -> None:
        self.works: Dict[Tuple[int, str], Optional[Work]] = {}
        self.seconds: Dict[Tuple[int, str], float] = {}

    def look(self, root: int) -> None:
        provers: Set[int] = set()
        for process in processes_below(root):
            if process.name != "rattle":
                continue
            provers.add(process.number)
            key = process.number, process.began
            if process.parent in provers:
                # (its parent's seconds have it once it has ended)
                continue
            if key not in self.works:
                self.works[key] = work_of(process)
            self.seconds[key] = process.seconds

    def look_until(self, ended: threading.Event, root: int) -> None:
        while not ended.wait(LOOKS_EACH):
            with contextlib.suppress(OSError, ValueError, IndexError):
                self.look(root)

    def table(self) -> Dict[str, Dict[str, float]]:
        """Returns the seconds of each crate by the kind of work."""
        table: DefaultDict[str, Dict[str, float]] = collections.defaultdict(lambda: dict.fromkeys(KINDS, 0.0))
        for key, work in self.works.items():
            if work:
                table[work.crate][work.kind] += self.seconds[key]
        return dict(table)


def rows(table: Dict[str, Dict[str, float]]) -> Iterator[str]:
    """Yields the rows of a table in Markdown, the dearest crates first, with their sum at the end."""
    yield f"| Crate | {' | '.join(KINDS)} | all |"
    yield f"|---|{'---|' * (len(KINDS) + 1)}"
    sums = dict.fromkeys(KINDS, 0.0)
    for crate, found in sorted(table.items(), key=lambda it: -sum(it[1].values())):
        yield row(f"`{crate}`", found)
        sums = {kind: sums[kind] + found[kind] for kind in KINDS}
    yield row("all", sums)


def row(name: str, seconds: Dict[str, float]) -> str:
    cells = [*(seconds[it] for it in KINDS), sum(seconds.values())]
    return f"| {name} | {' | '.join(f'{it:.0f}' if it else '' for it in cells)} |"


def run_watched(words: List[str]) -> Tuple[int, float, Dict[str, Dict[str, float]]]:
    """Runs a command, and returns its status, the processor seconds of all that it has run, and the table."""
    watch, ended = Watch(), threading.Event()
    before = resource.getrusage(resource.RUSAGE_CHILDREN)
    with subprocess.Popen(words) as ran:
        looking = threading.Thread(target=watch.look_until, args=(ended, ran.pid), daemon=True)
        looking.start()
        try:
            status = ran.wait()
        finally:
            ended.set()
            looking.join()
    after = resource.getrusage(resource.RUSAGE_CHILDREN)
    seconds = after.ru_utime + after.ru_stime - before.ru_utime - before.ru_stime
    return status, seconds, watch.table()


def tell_costs(words: List[str]) -> int:
    """Runs a command, prints the processor seconds of each crate and the minutes of all, and returns its status."""
    status, seconds, table = run_watched(words)
    for line in rows(table):
        print(line)
    proved = sum(sum(it.values()) for it in table.values())
    print(f"this took {seconds / 60:.0f} processor minutes, {proved / 60:.0f} of them the prover's, by the table above")
    # A process that a signal has ended counts as a shell counts it.
    return status if status >= 0 else 128 - status
