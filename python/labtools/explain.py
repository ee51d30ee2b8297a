"""Says on the standard error what a run of lab leaves unsaid. `./lab` calls it after a run.

    tools/explain PROGRAM STATUS WORDS

PROGRAM was run with WORDS, as `run SCRIPT`, and ended with STATUS. This says after

  0     likely mistakes that lab accepts silently: an image with compressed instructions or a floating-point ABI for
        processors without them, an image that runs from address 0 since no pc was set, a script that never runs,
        `--until` for a script without `start`
  3     the line that was refused, what can be seen to be wrong with it, and the cure in the tables of docs/
  4, 6  the file that could not be read or kept, and the lines that lead to it

It reads the script and the files that it names, but runs no board. It always ends with 0, and prints nothing if it
finds nothing or cannot tell.
"""
import argparse
import os
import pathlib
import stat
import struct
import sys
from typing import List, Optional

from labtools.common import escapes
from labtools.common.program import parser_of
from labtools.scripts import cures, mistakes, reads, refusals, resc

HERE = pathlib.Path(".")
TAB = "\t"
COMPRESSED = 0x1
FLOATING = 0x6


def tell(text: str) -> None:
    print(f"lab: {escapes.shown(text, TAB)}", file=sys.stderr)


def tell_steps(chain: reads.Chain) -> None:
    for step in chain:
        tell(f"  {step.place}: {step.text}")


# ---- a file that is not there


def state_of(path: str) -> str:
    """What is wrong with a file."""
    try:
        is_folder = stat.S_ISDIR(os.stat(path).st_mode)
    except PermissionError:
        return "may not be read"
    except (FileNotFoundError, NotADirectoryError, ValueError):
        return "is not there"
    except OSError as fault:
        return f"cannot be read: {fault.strerror}"
    return "is a folder" if is_folder else "may not be read"


def seen_from_line(path: str, asked_by: str) -> Optional[str]:
    """Where the file stands as seen from the folder of the file that names it."""
    beside = pathlib.Path(asked_by.rpartition(":")[0]).parent / path
    return str(beside) if os.path.isfile(beside) and not os.path.isabs(path) else None


def tell_missing(file: reads.FileRead) -> None:
    tell(f"{file.path} {state_of(file.path)}")
    tell_steps(file.chain)
    beside = seen_from_line(file.path, file.asked_by) if file.chain else None
    if beside:
        tell(f"{beside} is there, but a path is not taken from the folder of the file that names it")
    for cure in cures.instead_of("status 4", [f"@{file.path}"]):
        tell(cure)


def explain_missing(reading: reads.Reading) -> None:
    missing = next((file for file in reading.files if not file.is_there), None)
    if missing:
        tell_missing(missing)


def explain_kept(reading: reads.Reading) -> None:
    """After status 6: a snapshot that is not there, or the last one that cannot be kept."""
    explain_missing(reading)
    for save in reading.saves:
        if not save.is_there:
            tell(f"{os.path.dirname(save.path)}, the folder of {save.path}, is not there")
            tell_steps(save.chain)


# ---- a line that is refused


def explain_refused(program: str, script: str, until: Optional[int]) -> None:
    refused = refusals.found(program, script, until)
    if refused is None:
        return
    chain, seen = mistakes.seen(program, refused)
    tell_steps(chain)
    if refused.text:
        tell(f"  {refused.place}: {refused.text}")
    for text in [*seen, *cures.cures_of(refused.cause, refused.words)]:
        tell(text)


# ---- what is silent


def flags_of(path: str) -> int:
    """The flags of the header of a 32-bit ELF file for RISC-V; none where it came from a pipe."""
    head = reads.content_of(path)[:40]
    return int(struct.unpack("<I", head[36:])[0]) if len(head) == 40 else 0


def warn_of_elf(board: reads.Board, file: reads.FileRead) -> None:
    flags = flags_of(file.path)
    if flags & COMPRESSED and not board.has_compressed:
        tell(
            f"{file.asked_by}: {file.path} has compressed instructions, and the processors of {board.name} have none"
            f' (cpuType "{board.cpu_type}"): each traps as illegal. Build without the letter c, or add it to the'
            " cpuType"
        )
    if flags & FLOATING:
        tell(
            f"{file.asked_by}: {file.path} is built for registers of floating-point numbers, which no processor has:"
            " each such instruction traps as illegal. Build with -mabi=ilp32 and without the letters f and d"
        )


def has_address_0(path: str) -> bool:
    """Whether an Intel HEX file has a byte for address 0."""
    base = 0
    for line in reads.content_of(path).decode("ascii", "replace").splitlines():
        kind, offset = line[7:9], line[3:7]
        if kind in ("02", "04"):
            base = int(line[9:13], 16)
        elif kind == "00" and base == 0 and offset == "0000":
            return True
    return False


def warn_of_images(board: reads.Board) -> None:
    for file in board.files:
        if file.kind == "elf" and board.cpu_type:
            warn_of_elf(board, file)
    last = board.ran_with
    if last and not (last.kind == "hex" and has_address_0(last.path)):
        tell(
            f"{last.asked_by}: {board.name} runs from address 0: LoadHEX, LoadBinary and machine Reset do not set pc,"
            " and no `cpu PC` with an address follows"
        )


def explain_done(reading: reads.Reading, until: Optional[int]) -> None:
    if reading.unseen:
        return
    for board in reading.boards:
        warn_of_images(board)
    images = [file for file in reading.files if file.is_image]
    if images and not reading.runs and not reading.saves:
        tell(f"{reading.files[0].path} never runs: it has no `emulation RunFor` and no `start`")
    if until is not None and not reading.starts:
        tell(f"--until does nothing: it says how far `start` runs, and {reading.files[0].path} has no `start`")


def explain(program: str, status: int, script: str, until: Optional[int], is_check: bool = False) -> None:
    if status == 3:
        limit = reads.DEFAULT_UNTIL if until is None else until
        explain_refused(program, script, None if is_check else limit)
        return
    reading = reads.follow(script, HERE)
    if status == 0:
        explain_done(reading, until)
    elif status == 4:
        explain_missing(reading)
    elif status == 6:
        explain_kept(reading)


def main(words: List[str]) -> None:
    parser = parser_of(__doc__)
    parser.add_argument("program", metavar="PROGRAM")
    parser.add_argument("status", metavar="STATUS", type=int)
    parser.add_argument("words", metavar="WORDS", nargs=argparse.REMAINDER)
    given = parser.parse_args(words)
    if given.words[:1] not in (["run"], ["check"]):
        return
    inner = argparse.ArgumentParser(add_help=False, allow_abbrev=False)
    inner.add_argument("command")
    inner.add_argument("script")
    inner.add_argument("--workers")
    inner.add_argument("--until", type=resc.a_time)
    run = inner.parse_args(given.words)
    explain(given.program, given.status, run.script, run.until, run.command == "check")
