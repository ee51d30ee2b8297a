"""Laboratories that tests in Python run: the fixture `lab` of pytest is a `Lab`."""
import dataclasses
import itertools
import os
import pathlib
import re
import subprocess
import sys
from typing import List, Mapping, Optional, Sequence, Union

from labtools.logs import log_lines
from labtools.logs.log_lines import Frame
from labtools.scripts import resc
from labtools.suites import kept_logs, lab_runs, suite_tests

ACCESS = re.compile(r"(read|write) ([124]) at 0x([0-9a-f]{8})(?: value 0x([0-9a-f]{8}))?")
VERDICT = re.compile(r"pass|fail \d+")
# Runs tools/where wherever this package stands.
WHERE = "import labtools.where as tool; from labtools.common.program import run_tool; run_tool(tool)"
# How many seconds tools/where has, and how many of its lines are shown.
WHERE_SECONDS = 60
WHERE_LINES = 40

Value = Union[str, int]


@dataclasses.dataclass(frozen=True)
class Access:
    """An access of so many bytes at an address where nothing stands; a read has no value."""

    is_write: bool
    width: int
    address: int
    value: Optional[int]


@dataclasses.dataclass(frozen=True)
class Entry:
    """A line of the log, at a lab time in seconds. A line of the script itself, such as the answer of `cpu PC`, has no
    board, and the time of the line before it."""

    time: float
    board: str
    device: str
    text: str
    kind: str

    @property
    def frame(self) -> Optional[Frame]:
        """The CAN frame that the line tells, if it is one."""
        return log_lines.frame_of(self.text) if self.kind == "can" else None

    @property
    def access(self) -> Optional[Access]:
        """The access that the line tells, if it is one."""
        match = ACCESS.fullmatch(self.text) if self.kind == "bus" else None
        if not match:
            return None
        value = None if match[4] is None else int(match[4], 16)
        return Access(match[1] == "write", int(match[2]), int(match[3], 16), value)


class Run:
    """A run that has ended. `status` is that of lab; where the run was ended it is None, and `ended_by` says by what:
    `time` or `size`."""

    def __init__(self, name: str, script: str, ran: lab_runs.Ran, runs: lab_runs.Runs, fault: str) -> None:
        self.name, self.script, self.runs, self.fault = name, script, runs, fault
        self.status, self.ended_by, self.seconds = ran.status, ran.ended_by, ran.seconds
        ran.log.seek(0)
        self.log = kept_logs.text_of(ran.log.read())
        lines = log_lines.read(script, kept_logs.lines_of(self.log)).lines
        self.entries = [
            Entry(it.start / 10**6, it.lane.board, it.lane.device, it.text, it.lane.kind or "uart") for it in lines
        ]

    def __repr__(self) -> str:
        return f"<run of {self.name}: {self.fault or f'lab ended with {self.status}'}>"

    @property
    def boards(self) -> List[str]:
        """The boards that have printed something, in the order of their first lines."""
        return list(dict.fromkeys(it.board for it in self.entries if it.board))

    @property
    def devices(self) -> List[str]:
        """The same of devices, each as BOARD/DEVICE."""
        return list(dict.fromkeys(f"{it.board}/{it.device}" for it in self.entries if it.board))

    @property
    def verdict(self) -> str:
        """The first `fail N` of a finisher, or else `pass`, or nothing."""
        told = [it.text for it in self.entries if it.kind == "finisher" and VERDICT.fullmatch(it.text)]
        return next((it for it in told if it != "pass"), "pass" if told else "")

    def of(self, device: str) -> List[Entry]:
        """The entries of BOARD/DEVICE, or those of the script, which have no device."""
        board, _, name = device.partition("/")
        return [it for it in self.entries if (it.board, it.device) == ((board, name) if name else ("", "script"))]

    def lines(self, device: str) -> List[str]:
        """What BOARD/DEVICE has printed, or `script`."""
        return [it.text for it in self.of(device)]

    def times(self, device: str) -> List[float]:
        """When it has printed each line, in seconds."""
        return [it.time for it in self.of(device)]

    def time_of(self, device: str, text: str) -> float:
        """When BOARD/DEVICE has first printed this line."""
        found = next((it.time for it in self.of(device) if it.text == text), None)
        if found is None:
            raise LookupError(
                f"{device} has not printed {text!r}; these have printed: {', '.join(self.devices) or 'none'}"
            )
        return found

    def frames(self, device: str) -> List[Entry]:
        """The frames of a CAN controller."""
        return [it for it in self.of(device) if it.frame]

    def bus(self, board: str) -> List[Entry]:
        """The accesses of a board at addresses where nothing stands."""
        return [it for it in self.of(f"{board}/sysbus") if it.access]


@dataclasses.dataclass(frozen=True)
class Snapshot:
    """A laboratory that was kept, which runs may go on from."""

    path: str


class Lab:
    """Runs scripts of a project, in its folder. What is written meanwhile stands in `room`, a folder elsewhere."""

    def __init__(self, runs: lab_runs.Runs, room: pathlib.Path) -> None:
        self.runs, self.room = runs, room
        self.numbers = itertools.count(1)
        # Those since this was emptied, for a report.
        self.recent: List[Run] = []

    def within(self, folder: str) -> "Lab":
        """The same in another folder, from which the paths in scripts are taken."""
        runs = lab_runs.Runs(self.runs.program, self.runs.folder / folder, self.runs.seconds, self.runs.most)
        other = Lab(runs, self.room)
        other.numbers, other.recent = self.numbers, self.recent
        return other

    def run(
        self,
        script: Optional[str] = None,
        *,
        variables: Optional[Mapping[str, Value]] = None,
        after: Optional[Snapshot] = None,
        lines: Sequence[str] = (),
        workers: Optional[int] = None,
        until: Union[None, str, float] = None,
        timeout: Optional[float] = None,
    ) -> Run:
        """Runs a script, and returns its log as values, however it has ended. Variables that the script gives a default
        (`$name?=`) have these values. It goes on from the snapshot `after`, and these further lines come last."""
        path = self.script_for(script, variables or {}, after, lines)
        words = [] if workers is None else ["--workers", str(workers)]
        if until is not None:
            words += ["--until", until if isinstance(until, str) else f"{until:.6f}"]
        with self.runs.run(path, words, timeout) as ran:
            finding = suite_tests.fault_of(ran, path, self.runs, timeout)
            name = " ".join([script or "lines", *(f"{it}={value}" for it, value in (variables or {}).items())])
            run = Run(name, path, ran, self.runs, finding.cause if finding else "")
        self.recent.append(run)
        return run

    def snapshot(
        self, script: str, *, variables: Optional[Mapping[str, Value]] = None, timeout: Optional[float] = None
    ) -> Snapshot:
        """Runs a script, and keeps the laboratory as it is at its end."""
        path = self.room / f"{next(self.numbers)}.snap"
        run = self.run(script, variables=variables, lines=[f"Save @{path}"], timeout=timeout)
        if run.status != 0 or not path.exists():
            raise RuntimeError(f"{script} has kept no snapshot: {run.fault or 'it ends with `quit`'}")
        return Snapshot(str(path))

    def script_for(
        self,
        script: Optional[str],
        variables: Mapping[str, Value],
        after: Optional[Snapshot],
        lines: Sequence[str],
    ) -> str:
        """The script itself, or one that is made to include it."""
        made = [f"Load @{after.path}"] if after else []
        made += [f"${checked_name(name)}={value}" for name, value in variables.items()]
        if script is not None and not made and not lines:
            return script
        made += [f"include @{script}"] if script is not None else []
        path = self.room / f"{next(self.numbers)}.resc"
        path.write_text("".join(f"{line}\n" for line in [*made, *lines]), encoding="utf-8")
        return str(path)


def where(runs: lab_runs.Runs, script: str) -> str:
    """Where the boards of a script stand at its end, as tools/where says it, in its first lines."""
    here = str(pathlib.Path(__file__).resolve().parents[2])
    path = os.pathsep.join(it for it in (here, os.environ.get("PYTHONPATH", "")) if it)
    try:
        ran = subprocess.run(
            [sys.executable, "-c", WHERE, script],
            cwd=str(runs.folder),
            env={**os.environ, "PYTHONPATH": path, "LAB": runs.program},
            stdin=subprocess.DEVNULL,
            stdout=subprocess.PIPE,
            stderr=subprocess.STDOUT,
            timeout=WHERE_SECONDS,
            check=False,
        )
    except subprocess.TimeoutExpired:
        return f"cannot tell where the boards are after {WHERE_SECONDS} s"
    lines = kept_logs.lines_of(kept_logs.text_of(ran.stdout))
    if ran.returncode != 0:
        return f"cannot tell where the boards are: {' '.join(lines[-1:]).partition(': ')[2]}"
    more = [f".. and {len(lines) - WHERE_LINES} lines more"] if len(lines) > WHERE_LINES else []
    return "\n".join(["where the boards are:", *lines[:WHERE_LINES], *more])


def checked_name(name: str) -> str:
    if resc.variable_of(f"${name}") is None:
        raise ValueError(f"{name!r} is not the name of a variable")
    return name


def report_of(run: Run) -> str:
    """What is to be seen of a run where a test has failed."""
    ended = run.fault or f"lab ended with {run.status}"
    log = "\n".join(kept_logs.lines_of(run.log)[-kept_logs.LAST :])
    parts = [f"{ended}, {run.seconds:.2f} s", log and f"the last lines printed:\n{log}"]
    parts += [] if run.ended_by else [where(run.runs, run.script)]
    return "\n\n".join(part for part in parts if part)
