"""Where a run was refused. Its own log has gone to whoever reads it, so a check tells it, which runs no board; and what
a check does not tell, since it depends on the lab time, is told by the lengths of the runs."""
import os
import pathlib
import re
import subprocess
from dataclasses import dataclass
from typing import List, NamedTuple, Optional

from labtools.scripts import reads, resc

HERE = pathlib.Path(".")
REFUSED = re.compile(r"error: (.*:\d+): (\S+ .*)")


@dataclass(frozen=True)
class Refused(reads.Refusal):
    """The lines of its chain lead to a refused line, and at one of the scenes it was refused. The place is empty where
    it is not known."""

    scenes: List[reads.Scene]

    @property
    def code(self) -> str:
        return self.cause.partition(" ")[0]

    @property
    def words(self) -> List[str]:
        return resc.sides_of(self.text)


class Told(NamedTuple):
    """What a check ends with: a place, and the cause."""

    place: str
    cause: str

    @property
    def file(self) -> str:
        return self.place.rpartition(":")[0]


def told_by_check(program: str, script: str) -> Optional[Told]:
    """What a check of the script is refused for, or None where it is not."""
    ran = subprocess.run([program, "check", "--", script], stdout=subprocess.PIPE, check=False)
    last = ran.stdout.decode(errors="replace").rstrip("\n").rpartition("\n")[2]
    match = REFUSED.fullmatch(last)
    return Told(match[1], match[2]) if match and ran.returncode == 3 else None


def text_at(told: Told) -> str:
    """The text of a line; none of line 0, or where the file came from a pipe."""
    lines = resc.lines_of(reads.content_of(told.file).decode(errors="replace"))
    number = int(told.place.rpartition(":")[2])
    return lines[number - 1].strip() if 0 < number <= len(lines) else ""


def steps_to(told: Told, reading: reads.Reading) -> reads.Chain:
    """The lines that lead to a refused one."""
    refusal = reading.refusal
    if refusal and refusal.place == told.place:
        is_own = bool(refusal.chain) and refusal.chain[-1].place == told.place
        return refusal.chain[:-1] if is_own else refusal.chain
    if reading.scenes:
        return reading.scenes[0].chain
    return next((read.chain for read in reading.files if read.path == told.file), ())


def of_check(told: Told, reading: reads.Reading) -> Refused:
    """The refused line. Where the reading has ended there too it was the last time that the line was taken."""
    is_last = reading.refusal is not None and reading.refusal.place == told.place
    scenes = reading.scenes[-1:] if is_last else reading.scenes
    return Refused(told.place, text_at(told), told.cause, steps_to(told, reading), scenes)


def is_taken_first(told: Told, reading: reads.Reading) -> bool:
    """Whether the line that a check is refused for is taken before any that only a run is refused for."""
    refusal, limit, scenes = reading.refusal, reading.past_limit, reading.scenes
    is_of_both = refusal is not None and refusal.place == told.place
    if limit is not None:
        return bool(scenes) and scenes[-1 if is_of_both else 0].taken <= limit[1]
    if refusal is None or refusal.cause != "S21 occupied":
        return True
    if is_of_both:
        return told.cause == refusal.cause
    is_of_platform = told.cause.startswith("P") and any(read.path == told.file for read in reading.files)
    return bool(scenes) or is_of_platform


def of_line(refusal: reads.Refusal) -> Refused:
    return Refused(refusal.place, refusal.text, refusal.cause, refusal.chain[:-1], [])


def by_run_alone(reading: reads.Reading, is_check_refused: bool) -> Optional[Refused]:
    """What a run is refused for and a check is not, if that can be told. A finisher may have ended a run early, so that
    a later one than the first is too long."""
    limit, refusal = reading.past_limit, reading.refusal
    if limit:
        if not any(board.has_finisher for board in reading.boards):
            return of_line(limit[0])
        return None if is_check_refused else Refused("", "", limit[0].cause, (), [])
    if refusal and refusal.cause == "S21 occupied":
        return of_line(refusal)
    if is_check_refused or not reading.saves:
        return None
    asked = reading.saves[0].chain if len(reading.saves) == 1 else ()
    place, text = (asked[-1].place, asked[-1].text) if asked else ("", "")
    return Refused(place, text, "S19 size", asked[:-1], [])


def found(program: str, script: str, until: Optional[int]) -> Optional[Refused]:
    """The line at which a run of the script is refused, where `start` runs to a lab time in microseconds; without such
    a time the one at which a check is."""
    if not os.path.isfile(script):
        return None
    told = told_by_check(program, script)
    reading = reads.follow(script, HERE, until or 0, told.place if told else "")
    if told and (until is None or is_taken_first(told, reading)):
        return of_check(told, reading)
    return by_run_alone(reading, told is not None)
