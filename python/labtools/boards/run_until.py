"""Runs a copy of a script up to a lab time, or to its end, and keeps the laboratory there in a snapshot."""
import errno
import os
import pathlib
import re
import subprocess
from typing import Any, Dict, List, Optional, Tuple

from labtools.boards import kept_labs, snapshot
from labtools.common import rooms
from labtools.common.program import program_or
from labtools.logs.log_lines import time_text
from labtools.scripts import reads, resc
from labtools.scripts.reads import Command

PAUSE = re.compile(rb"\[(\d+)\.(\d{6})\] pause [\w-]+/\w+: (?:pass|fail \d+)\n")
REFUSED = re.compile(rb"error: (.*):(\d+): (.*)\n")


Held = Dict[str, Any]


class NoRun(Exception):
    """The script cannot be run so far: why."""


def steps_of(script: str, until: int = reads.DEFAULT_UNTIL) -> List[Command]:
    """Returns the commands of a script, without those that keep snapshots, which change nothing in the laboratory."""
    try:
        content = kept_labs.bytes_of(script, reads.FILE_LIMIT)
        if len(content) > reads.FILE_LIMIT:
            raise OSError(errno.EFBIG, os.strerror(errno.EFBIG), script)
        content.decode("utf-8")
    except OSError as fault:
        raise NoRun(f"{script}: {fault.strerror}") from fault
    except UnicodeDecodeError as fault:
        raise NoRun(f"{script}: neither a script nor a snapshot of lab") from fault
    reading = reads.follow(script, pathlib.Path("."), until)
    if reading.refusal and reading.refusal.cause == reads.COMMANDS:
        # A copy has fewer commands, and would not be refused.
        raise NoRun(f"lab refused {reading.refusal.place}: {reads.COMMANDS}")
    return [step for step in reading.commands if step.name != "Save"]


def loaded(step: Command) -> Held:
    """Returns what the snapshot of a `Load` holds."""
    path = str(step.arguments[0])
    try:
        return snapshot.read(kept_labs.bytes_of(path))[0]
    except snapshot.NoSnapshot as fault:
        raise NoRun(f"{path}, for {step.file}:{step.number}: no snapshot of lab: {fault}") from fault


def length_of(step: Command, time: int, until: int) -> int:
    """Returns for how long a command runs the boards that comes at this lab time, where no finisher ends it."""
    if step.name == "emulation RunFor":
        return int(str(step.arguments[0]))
    return max(until - time, 0) if step.name == "start" else 0


def cut(steps: List[Command], at: int, until: int, pauses: List[int]) -> List[Command]:
    """Returns the commands up to a lab time, with the last run shortened to it. A run ends early where a finisher has
    ended it, at one of the times `pauses`."""
    time = 0
    taken: List[Command] = []
    for step in steps:
        time = loaded(step)["time"] if step.name == "Load" else time
        length = length_of(step, time, until)
        end = min([pause for pause in pauses if time < pause] + [time + length])
        if end > at or (time == at and length > 0):
            rest = f'emulation RunFor "{time_text(at - time)}"'
            return taken + [Command(rest, step.file, step.number)] * (at > time)
        taken.append(step)
        time = end
    if time < at:
        raise NoRun(f"the script ends at {time_text(time)}")
    return taken


def missing(script: str) -> str:
    """Returns which file that a script reads is not there, and the place that asks for it."""
    lost = [file for file in reads.files_read(script, pathlib.Path(".")) if not file.is_there]
    return f": {lost[0].path} is not there, for {lost[0].asked_by}" if lost else ""


def run(file: str, steps: List[Command], until: int, room: rooms.Room) -> Tuple[Held, List[int]]:
    """Runs these commands of a script. Returns what the laboratory is then, and when finishers have ended runs."""
    script, kept, log = room.path / "copy.resc", room.path / "kept", room.path / "log"
    script.write_text("".join(f"{step.text}\n" for step in steps) + f"Save @{kept}\n", encoding="utf-8")
    # (./lab itself would explain the copy)
    words = [program_or(NoRun), "run", str(script), "--until", time_text(until)]
    with log.open("wb") as printed:
        status = room.start(words, stdout=printed, stdin=subprocess.DEVNULL).wait()
    with log.open("rb") as printed:
        if status != 0:
            raise NoRun(fault_of(file, status, steps, printed.readlines()[-1:]))
        found = [match for match in map(PAUSE.fullmatch, printed) if match]
    held, _ = snapshot.read(kept.read_bytes())
    return held, [int(match[1]) * 1_000_000 + int(match[2]) for match in found]


def fault_of(script: str, status: int, steps: List[Command], last: List[bytes]) -> str:
    """Returns why lab has ended so, from the last line that it has printed."""
    refused = REFUSED.fullmatch(last[0]) if last else None
    if status != 3 or refused is None:
        hint = ": stop before that with --at TIME" if status == 1 else missing(script)
        return f"lab ended with {status}{hint}"
    lines = [step for step in steps for _ in step.text.splitlines()]
    at, cause = int(refused[2]), refused[3].decode(errors="replace")
    if refused[1].endswith(b"/copy.resc") and at <= len(lines):
        return f"lab refused {lines[at - 1].file}:{lines[at - 1].number}: {cause}"
    return f"lab refused {refused[1].decode(errors='replace')}:{at}: {cause}"


def laboratory_at(script: str, at: Optional[int], until: int, room: rooms.Room) -> Tuple[Held, List[Command]]:
    """Returns the laboratory of a script at a lab time in microseconds, or at its end, and the commands up to there.
    `room` is a new folder for what is written. Finishers that end runs are known from the log, so that the script is
    run again where one came before that time."""
    steps = steps_of(script, until)
    if at is None:
        return run(script, steps, until, room)[0], steps
    pauses: List[int] = []
    while True:
        taken = cut(steps, at, until, pauses)
        held, found = run(script, taken, until, room)
        if held["time"] == at:
            return held, taken
        if len(found) <= len(pauses):
            raise NoRun(f"the script does not stop at {time_text(at)}")
        pauses = found


def images_of(steps: List[Command]) -> Dict[str, List[str]]:
    """Returns the ELF files that a script loads, by the names of its boards."""
    names: List[str] = []
    images: Dict[str, List[str]] = {}
    selected = ""
    for step in steps:
        if step.name == "Load":
            names = [board["name"] for board in loaded(step)["boards"]]
        elif step.name == "mach create":
            selected = str(step.arguments[0]) if step.arguments else f"machine-{len(names)}"
            names.append(selected)
        elif step.name == "mach set":
            selected = board_of(str(step.arguments[0]), names)
        elif step.name == "sysbus LoadELF":
            images.setdefault(selected, []).append(str(step.arguments[0]))
    return images


def board_of(word: str, names: List[str]) -> str:
    """Returns the name of the board that `mach set` selects: the one of that name, or else of that number."""
    number = resc.number_of(word)
    return names[number] if word not in names and number is not None and number < len(names) else word
