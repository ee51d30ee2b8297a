"""The lines of a log, by docs/SCRIPTS.md ("The log"), and runs of equal accesses.

A log does not say which device is a UART and which a CAN controller: a device all of whose lines have the form of
frames is taken for a controller. Lab time ends at 10,000 seconds, so a longer number is no time. `lab` has not printed
such a line, and it is taken for one of the script.
"""
import re
from dataclasses import dataclass, field, replace
from typing import Dict, Iterable, Iterator, List, Optional, Tuple

from labtools.logs import folded

LINE = re.compile(r"\[(\d{1,5})\.(\d{6})\] (pause )?([A-Za-z0-9_-]+)/([A-Za-z][A-Za-z0-9_]*): (.*)")
FRAME = re.compile(r"(tx|rx|lost) ([0-7][0-9a-f]{2}) (?:data ([0-8])(?: ((?:[0-9a-f]{2}){1,8}))?|remote ([0-8]))")


@dataclass
class Lane:
    """A device: `kind` is uart, can, bus (accesses where nothing stands), finisher or script. Lines of the script have
    no board: what a command has printed, and the line that was refused."""

    board: str
    device: str
    kind: str = ""

    @property
    def name(self) -> str:
        return f"{self.board}/{self.device}" if self.board else "script"


@dataclass(frozen=True)
class Frame:
    """A CAN frame: what became of it (tx, rx, lost), its identifier, its length and bytes; a remote one has none."""

    became: str
    identifier: int
    length: int
    data: bytes
    is_remote: bool


@dataclass
class Line:
    """A line of the log, or equal accesses of a board that follow each other. Times are microseconds; a line of the
    script has the time of the line before it."""

    number: int
    start: int
    end: int
    lane: Lane
    text: str
    count: int = 1


@dataclass
class Log:
    name: str
    lanes: List[Lane] = field(default_factory=list)
    lines: List[Line] = field(default_factory=list)


def frame_of(text: str) -> Optional[Frame]:
    match = FRAME.fullmatch(text)
    if not match:
        return None
    became, identifier, length, data, remote = match.groups()
    content = bytes.fromhex(data or "")
    if remote is None and len(content) != int(length):
        return None
    return Frame(became, int(identifier, 16), int(length or remote), content, remote is not None)


class Reader:
    """Takes the lines of a log one after another."""

    def __init__(self, name: str) -> None:
        self.log = Log(name)
        self.lanes: Dict[Tuple[str, str], Lane] = {}
        self.time = 0

    def lane(self, board: str, device: str, kind: str) -> Lane:
        lane = self.lanes.get((board, device))
        if lane is None:
            lane = self.lanes[board, device] = Lane(board, device, kind)
            self.log.lanes.append(lane)
        return lane

    def take(self, number: int, text: str) -> Line:
        match = LINE.fullmatch(text)
        if not match:
            return self.made(number, self.lane("", "script", "script"), text)
        seconds, micros, pause, board, device, said = match.groups()
        self.time = int(seconds) * 10**6 + int(micros)
        kind = "finisher" if pause else "bus" if device == "sysbus" else ""
        lane = self.lane(board, device, kind)
        if not kind:
            is_frame = lane.kind in ("", "can") and frame_of(said) is not None
            lane.kind = "can" if is_frame else "uart"
        return self.made(number, lane, said)

    def made(self, number: int, lane: Lane, text: str) -> Line:
        return Line(number, self.time, self.time, lane, text)


def read(name: str, text: Iterable[str], is_folded: bool = False) -> Log:
    """The log of these lines, or the log with its equal accesses folded, which keeps none but the first of them."""
    reader = Reader(name)
    lines = (reader.take(number, line.rstrip("\n")) for number, line in enumerate(text, 1))
    reader.log.lines = list(fold(lines) if is_folded else lines)
    return reader.log


def fold(lines: Iterable[Line]) -> Iterator[Line]:
    """The lines of a log, in order of their beginnings, where equal accesses of a board that follow each other are one,
    whatever its devices say between them."""
    for row in folded.rows(lines, access_of):
        yield replace(row.first, end=row.last.end, count=row.count)


def access_of(line: Line) -> Optional[folded.Access]:
    return (line.lane.board, line.text) if line.lane.kind == "bus" else None


def time_text(micros: int) -> str:
    return f"{micros // 10**6}.{micros % 10**6:06}"
