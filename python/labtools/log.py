"""Shows a log, or converts it for other programs. docs/LOGS.md has examples.

    tools/log --split FOLDER [--no-times] LOG   writes a file for each device into the folder: BOARD.DEVICE.log
    tools/log --candump [--received] LOG        prints CAN frames, sent or received, as `candump -L` does
    tools/log --trace LOG                       prints JSON for Perfetto (ui.perfetto.dev) and chrome://tracing
    tools/log --html FILE LOG [LOG]             writes a page to look at; of two logs, with their differences

LOG is a file, or `-` for the standard input: `./lab run s.resc | tools/log --html out.html -`. It ends with 0; with 1
if a file or the output cannot be read or written; and with 2 if it is called with wrong arguments.
"""
import argparse
import errno
import itertools
import json
import os
import pathlib
import re
import subprocess
import sys
import tempfile
from typing import Dict, Iterator, List, Optional, Tuple, Union

from labtools.common.program import parser_of
from labtools.logs import log_lines
from labtools.logs.log_lines import Line, Log


def read(name: str, is_folded: bool) -> Log:
    if name == "-" and sys.stdin is None:
        raise OSError(errno.EBADF, os.strerror(errno.EBADF), "standard input")
    source: Union[int, str] = sys.stdin.fileno() if name == "-" else name
    with open(source, encoding="ascii", errors="backslashreplace") as file:
        return log_lines.read("standard input" if name == "-" else name, file, is_folded)


# ---- a file a device


def split(log: Log, folder: pathlib.Path, has_times: bool) -> None:
    """Writes a file a device, and `script.log` for what belongs to none."""
    texts: Dict[str, List[str]] = {}
    for line in log.lines:
        time = f"[{log_lines.time_text(line.start)}] " if has_times and line.lane.board else ""
        texts.setdefault(line.lane.name, []).append(f"{time}{line.text}\n")
    folder.mkdir(parents=True, exist_ok=True)
    for lane in log.lanes:
        name = f"{lane.board}.{lane.device}.log" if lane.board else "script.log"
        (folder / name).write_text("".join(texts[lane.name]), encoding="utf-8")


# ---- candump


def candump(log: Log, became: str) -> Iterator[str]:
    """Frames in the form of `candump -L`. The interface is BOARD.DEVICE."""
    for line in log.lines:
        frame = log_lines.frame_of(line.text) if line.lane.kind == "can" else None
        if frame and frame.became == became:
            data = "R" + (str(frame.length) if frame.length else "") if frame.is_remote else frame.data.hex().upper()
            time = f"({line.start // 10**6:010}.{line.start % 10**6:06})"
            yield f"{time} {line.lane.board}.{line.lane.device} {frame.identifier:03X}#{data}"


# ---- Trace Event Format


def names(log: Log) -> Iterator[Dict[str, object]]:
    """Boards are processes, and their devices threads."""
    boards: Dict[str, int] = {}
    for tid, lane in enumerate(log.lanes, 1):
        pid = boards.setdefault(lane.board, len(boards) + 1)
        ids = {"ph": "M", "pid": pid, "tid": tid}
        yield {**ids, "name": "process_name", "args": {"name": lane.board or "script"}}
        yield {**ids, "name": "thread_name", "args": {"name": lane.device}}


def trace(log: Log) -> List[Dict[str, object]]:
    """A line is an instant, and accesses that repeat, which the log has folded, are a slice."""
    events = list(names(log))
    ids = {lane.name: (event["pid"], event["tid"]) for lane, event in zip(log.lanes, events[::2])}
    for line in log.lines:
        pid, tid = ids[line.lane.name]
        event = {"name": line.text, "cat": line.lane.kind, "ts": line.start, "pid": pid, "tid": tid}
        if line.count > 1:
            event.update(ph="X", dur=line.end - line.start)
        else:
            event.update(ph="i", s="g" if line.lane.kind == "finisher" else "t")
        event["args"] = {"line": line.number, "count": line.count}
        events.append(event)
    return events


# ---- a page


def shown(line: Line) -> str:
    """The text of a line on the page: a frame is shown by its bytes."""
    frame = log_lines.frame_of(line.text) if line.lane.kind == "can" else None
    if not frame:
        return line.text
    content = f"remote {frame.length}" if frame.is_remote else frame.data.hex(" ")
    return f"{frame.became} {frame.identifier:03x}  {content}"


def packed(log: Log, lines: List[Line]) -> Dict[str, object]:
    """A log as the page takes it: texts once each, and each line as its times, lane, text and count."""
    texts: Dict[str, int] = {}
    lanes = {lane.name: number for number, lane in enumerate(log.lanes)}
    items = [
        (line.start, line.end, lanes[line.lane.name], texts.setdefault(shown(line), len(texts)), line.count)
        for line in lines
    ]
    told = [{"board": lane.board, "device": lane.device, "kind": lane.kind} for lane in log.lanes]
    return {"name": log.name, "lanes": told, "texts": list(texts), "items": items}


def untimed(lines: List[Line]) -> str:
    return "".join(f"{line.lane.name}: {line.text} {line.count}\n" for line in lines)


Row = Tuple[Optional[int], Optional[int]]


def rows(left: List[Line], right: List[Line]) -> List[Row]:
    """The lines of two logs side by side, by their numbers: equal but for their times, or on one side alone."""
    with tempfile.TemporaryDirectory() as folder:
        paths = [pathlib.Path(folder) / "left", pathlib.Path(folder) / "right"]
        for path, lines in zip(paths, (left, right)):
            path.write_text(untimed(lines), encoding="utf-8")
        signs = ["--old-line-format=-", "--new-line-format=+", "--unchanged-line-format=="]
        command = ["diff", "-a", *signs, *map(str, paths)]
        ran = subprocess.run(command, stdout=subprocess.PIPE, text=True, check=False)
    return paired(ran.stdout)


def paired(signs: str) -> List[Row]:
    """Rows by signs: `=` a line of both, `-` one of the first alone, `+` one of the second. Lines that are replaced
    stand beside those that replace them."""
    found: List[Row] = []
    left = right = 0
    for run in re.findall(r"=+|-*\+*", signs):
        old, new = (len(run), len(run)) if run.startswith("=") else (run.count("-"), run.count("+"))
        found += itertools.zip_longest(range(left, left + old), range(right, right + new))
        left += old
        right += new
    return found


def page(logs: List[Log]) -> str:
    """The page for a log or two, in which accesses that repeat are folded."""
    lines = [log.lines for log in logs]
    data: Dict[str, object] = {"logs": [packed(log, own) for log, own in zip(logs, lines)]}
    if len(logs) == 2:
        data["rows"] = rows(*lines)
    text = json.dumps(data, separators=(",", ":")).replace("<", "\\u003c")
    return pathlib.Path(__file__).with_name("log.html").read_text(encoding="utf-8").replace("/* DATA */", text)


def main(words: List[str]) -> int:
    parser = parser_of(__doc__)
    forms = parser.add_mutually_exclusive_group(required=True)
    forms.add_argument("--split", metavar="FOLDER", type=pathlib.Path)
    forms.add_argument("--candump", action="store_true")
    forms.add_argument("--trace", action="store_true")
    forms.add_argument("--html", metavar="FILE", type=pathlib.Path)
    parser.add_argument("--no-times", action="store_true")
    parser.add_argument("--received", action="store_true")
    parser.add_argument("logs", metavar="LOG", nargs="+")
    given = parser.parse_args(words)
    if len(given.logs) > (2 if given.html else 1):
        parser.error("too many logs")
    if given.logs.count("-") > 1:
        parser.error("only one log can be the standard input")
    write(given, [read(name, is_folded=given.trace or given.html is not None) for name in given.logs])
    return 0


def write(words: argparse.Namespace, logs: List[Log]) -> None:
    if words.split:
        split(logs[0], words.split, not words.no_times)
    elif words.candump:
        print("".join(f"{line}\n" for line in candump(logs[0], "rx" if words.received else "tx")), end="")
    elif words.trace:
        events = ",\n".join(json.dumps(event) for event in trace(logs[0]))
        print(f'{{"displayTimeUnit": "ns", "traceEvents": [\n{events}\n]}}')
    else:
        words.html.write_text(page(logs), encoding="utf-8")
