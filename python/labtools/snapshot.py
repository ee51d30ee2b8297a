"""Prints a snapshot, one line per value with the place of its first byte. docs/SNAPSHOTS.md has the format.

    tools/snapshot FILE

Addresses, registers and sets of sources are hexadecimal, counts and times decimal. A page of memory is shown by its
number and its count of bytes other than 0. It checks the form of the snapshot, and asks `lab` whether such a laboratory
is possible, using the program of LAB or the one that ./lab runs, if there is one. It ends with 0, or with 1 if the file
is no snapshot of lab or cannot be read, or the output cannot be written.
"""
import sys
from typing import List

from labtools.boards import kept_labs, snapshot
from labtools.common.escapes import shown
from labtools.common.program import as_called, end_wrong


def main(words: List[str]) -> None:
    if len(words) != 1:
        sys.exit(as_called(__doc__))
    try:
        _, reader = kept_labs.read(kept_labs.bytes_of(words[0]))
    except OSError as fault:
        end_wrong(shown(f"{words[0]}: {fault.strerror}"), 1)
    except snapshot.NoSnapshot as fault:
        end_wrong(shown(f"{words[0]}: no snapshot of lab: {fault}"), 1)
    for at, path, value in reader.seen:
        print(f"{at:8} {path[len('laboratory.'):]} {shown(value)}")
