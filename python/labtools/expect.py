"""Uses a log as a test: runs a script and compares what it prints with its kept log.

    tools/expect SCRIPT LOG [WORDS]           runs SCRIPT, with further words for lab (--until 2), and compares with LOG
    tools/expect --bless SCRIPT LOG [WORDS]   runs SCRIPT, and keeps what it prints as LOG

If they differ it prints a diff with line numbers, in which equal accesses that repeat are one line. It ends with

  0       lab ended with 0, and the log equals LOG (or was kept)
  1       lab ended with 0, and the log differs; or a test failed (`pause .. fail`) that does not fail in LOG; or LOG is
          missing or empty
  2 to 6  lab's own status: wrong words, a refused line, a file not read, the output or a snapshot not written
  70, 71  those of ./lab: no kit, or a failed build
  72      lab ended with 1: out of memory
  73      wrong arguments; or LOG is not a plain file or cannot be written; or nothing was printed that could be kept;
          or the output of this script cannot be written

Any other number is lab's too. Only --bless changes LOG, and only if lab ended with 0 and printed something. With LAB
set, that program runs in place of ./lab: LAB=/opt/lab/lab tools/expect .. tools/suite runs many tests.
"""
import errno
import os
import pathlib
import subprocess
import sys
from typing import BinaryIO, List

from labtools.common import plain_files, program, rooms
from labtools.logs import folded
from labtools.scripts import reads
from labtools.suites import kept_logs

NO_MEMORY, REFUSED = 72, 73
UNWRITTEN = REFUSED
NO_FOLDER = (errno.ENOENT, errno.ENOTDIR, errno.EACCES, errno.EROFS)


def tell(text: str) -> None:
    program.tell(f"expect: {text}")


def run(words: List[str], printed: BinaryIO, room: rooms.Room) -> int:
    """Runs a script, whose log is written to a file, and returns the status as a shell tells it."""
    lab = os.environ.get("LAB") or str(program.TOP / "lab")
    try:
        status = room.start([lab, "run", *words], stdout=printed, env=program.environment()).wait()
    except OSError as fault:
        tell(f"{lab}: {fault.strerror}")
        return 126 if isinstance(fault, PermissionError) else 127
    return status if status >= 0 else 128 - status


def end_as_lab(status: int, script: str, printed: BinaryIO) -> int:
    """Tells lab's status, which is not 0, and returns that of this tool. That of want of memory would mean here that
    the log differs."""
    tell(f"lab ended with {status} (docs/SCRIPTS.md): {script}")
    last = kept_logs.last_lines(printed, 1)
    if last.startswith("error: "):
        program.tell(last.rstrip("\n"))
    return NO_MEMORY if status == 1 else status


# ---- a log is kept


def bless(script: str, log: str, printed: BinaryIO) -> int:
    """Keeps what was printed as the log. An empty log would be that of each script that does not run."""
    if not kept_logs.size_of(printed):
        tell("nothing was printed, so no log is kept: is a UART shown, and does the script run its boards?")
        return REFUSED
    try:
        plain_files.replace(pathlib.Path(log), printed)
    except OSError as fault:
        is_of_folder = fault.errno in NO_FOLDER
        why = "its folder is not there, or may not be written" if is_of_folder else str(fault.strerror)
        tell(f"cannot create {log}: {why}")
        return REFUSED
    count = sum(line.endswith(b"\n") for line in kept_logs.lines_in(printed))
    print(f"expect: {log} has {count} lines now")
    warn(script, log, printed)
    return 0


def warn(script: str, log: str, printed: BinaryIO) -> None:
    """Says what is odd in a log that was kept."""
    failures = list(kept_logs.failures_in(printed))
    if failures:
        tell(f"{log} says that a test has failed, so later runs are expected to fail it too:")
        program.tell("\n".join(failures))
    if not kept_logs.has_verdict(printed) and reads.has_finisher(script, pathlib.Path()):
        tell(f"{log} has no verdict (`pause .. pass`), though a board has a finisher: did the test finish?")


# ---- a log is compared


def compare(script: str, log: str, printed: BinaryIO) -> bool:
    """Says how what was printed differs from the log, and returns whether it is the same. It never is where the log is
    not there or empty."""
    if not os.path.exists(log):
        tell(f"there is no {log}: --bless keeps one")
        log = os.devnull
    elif os.path.getsize(log) == 0:
        tell(f"{log} is empty, so it tests nothing: --bless keeps another one")
    with open(log, "rb") as kept:
        known = set(kept_logs.failures_in(kept))
        failures = [line for line in kept_logs.failures_in(printed) if line not in known]
        if failures:
            tell("a test has failed: " + "\n".join(failures))
        is_same = kept_logs.are_equal(kept, printed)
    if not is_same:
        show_difference(log, script, printed.name)
    return is_same and os.path.getsize(log) > 0


def show_difference(log: str, script: str, printed: str) -> None:
    """Prints what `diff -u` prints of two files, byte for byte, with equal accesses folded."""
    words = ["diff", "-a", "-u", f"--label={log}", f"--label=this run of {script}", log, printed]
    with subprocess.Popen(words, stdout=subprocess.PIPE) as process:
        assert process.stdout is not None
        for line in folded.difference(it.decode("latin-1").rstrip("\n") for it in process.stdout):
            sys.stdout.buffer.write(line.encode("latin-1") + b"\n")


def main(words: List[str]) -> int:
    is_kept = words[:1] == ["--bless"]
    given = words[is_kept:]
    if len(given) < 2 or given[0].startswith("-"):
        program.tell(program.forms_of(__doc__))
        return REFUSED
    # Its name is not to be an option of diff.
    log = f"./{given[1]}" if given[1].startswith("-") else given[1]
    if os.path.exists(log) and not os.path.isfile(log):
        tell(f"{log} is not a plain file")
        return REFUSED
    with rooms.Room("lab-expect-") as room, open(room.path / "printed", "w+b") as printed:
        status = run([given[0], *given[2:]], printed, room)
        if status == 0 and is_kept:
            return bless(given[0], log, printed)
        is_same = is_kept or compare(given[0], log, printed)
        return end_as_lab(status, given[0], printed) if status else int(not is_same)
