"""Snapshots as `lab` takes them. Their form is looked at here. Whether a laboratory can be so is asked of `lab`, where
a program of it stands, and is not known where none does."""
import contextlib
import os
import re
import subprocess
from typing import Any, Dict, Iterator, Tuple

from labtools.boards import snapshot
from labtools.common.program import standing_program

LIMIT = 64 * 2**20
REFUSED = re.compile(rb"error: [^:]*:1: S20 snapshot\n")


def bytes_of(path: str, most: int = LIMIT) -> bytes:
    """Returns what a file holds, and of a longer one a byte more than `most`: a device may never end."""
    with open(path, "rb") as file:
        return file.read(most + 1)


def read(data: bytes) -> Tuple[Dict[str, Any], snapshot.Reader]:
    """Returns what a snapshot of these bytes holds, and the reader that has read it."""
    if len(data) > LIMIT:
        raise snapshot.NoSnapshot(f"more than {LIMIT} bytes")
    held, reader = snapshot.read(data)
    if is_refused(data):
        raise snapshot.NoSnapshot("it has the form of one, but no such laboratory is possible")
    return held, reader


def is_refused(data: bytes) -> bool:
    """Whether `lab` says that these bytes are no snapshot."""
    program = standing_program()
    if program is None:
        return False
    try:
        with in_memory(data) as kept, in_memory(f"Load @/dev/fd/{kept}\n".encode()) as script:
            words = [program, "check", f"/dev/fd/{script}"]
            null = subprocess.DEVNULL
            ran = subprocess.run(words, pass_fds=(kept, script), stdin=null, stdout=subprocess.PIPE, stderr=null)
    except OSError:
        return False
    return ran.returncode == 3 and REFUSED.fullmatch(ran.stdout) is not None


@contextlib.contextmanager
def in_memory(data: bytes) -> Iterator[int]:
    """Gives the number of a file that has no name, so that nothing is left behind."""
    number = os.memfd_create("lab")
    try:
        with open(number, "wb", closefd=False) as file:
            file.write(data)
        yield number
    finally:
        os.close(number)
