"""What the tools share that look at a laboratory: their words, how they come to it, and what they say of faults."""
import argparse
import contextlib
from typing import Dict, Iterator, List, Optional, Tuple

from labtools.boards import kept_labs, run_until, snapshot
from labtools.common import program, rooms
from labtools.common.escapes import shown
from labtools.scripts import resc


def time_of(word: str) -> int:
    try:
        return resc.a_time(word)
    except resc.Refused as fault:
        raise argparse.ArgumentTypeError(f"{word} is not a time") from fault


def parser_of(head: Optional[str]) -> argparse.ArgumentParser:
    """Returns a parser of the words that say which laboratory a tool with this head looks at, and when."""
    parser = program.parser_of(head)
    parser.add_argument("--at", type=time_of)
    parser.add_argument("--until", type=time_of, default=1_000_000)
    parser.add_argument("file")
    return parser


def laboratory(given: argparse.Namespace, prefix: str) -> Tuple[run_until.Held, Dict[str, List[str]]]:
    """Returns what the laboratory is of these words, and the ELF files that its script loads, by the names of boards.
    They are not known of a snapshot. The folder that the run needs has a name that begins with the prefix."""
    data = kept_labs.bytes_of(given.file)
    if data.startswith(b"LABSNAP1"):
        return kept_labs.read(data)[0], {}
    with rooms.Room(prefix) as room:
        held, steps = run_until.laboratory_at(given.file, given.at, given.until, room)
    return held, run_until.images_of(steps)


@contextlib.contextmanager
def faults_told(file: str) -> Iterator[None]:
    """Ends the tool with a line where this file cannot be taken."""
    try:
        yield
    except OSError as fault:
        program.end_wrong(shown(f"{fault.filename}: {fault.strerror}"), 1)
    except run_until.NoRun as fault:
        program.end_wrong(shown(f"{file}: {fault}"), 1)
    except snapshot.NoSnapshot as fault:
        program.end_wrong(shown(f"{file}: no snapshot of lab: {fault}"), 1)
