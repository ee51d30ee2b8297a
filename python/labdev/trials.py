"""Runs the program in folders of files, and tells which runs went wrong."""
import dataclasses
import glob
import os
import shutil
import signal
import subprocess
import sys
from typing import Any, Dict, Iterable, List, Mapping, Optional, Sequence

from labdev.cases import Files
from labtools.common.program import TOP, drop_output, name_of_script

# How long a run may take where a tool does not say otherwise, in seconds.
SECONDS = 60


@dataclasses.dataclass(frozen=True)
class Ended:
    """The status of a run, or None if it was still going, and what it wrote to the standard output and error."""

    status: Optional[int]
    printed: bytes
    told: bytes = b""


def run(words: Sequence[str], room: str, seconds: Optional[float] = SECONDS, **how: Any) -> Ended:
    """Runs a program in a folder, and ends it after so many seconds."""
    how = {"stdin": subprocess.DEVNULL, "stdout": subprocess.PIPE, "stderr": subprocess.PIPE, "cwd": room, **how}
    try:
        ran = subprocess.run(words, timeout=seconds, **how)
    except subprocess.TimeoutExpired as late:
        return Ended(None, late.stdout or b"")
    return Ended(ran.returncode, ran.stdout or b"", ran.stderr or b"")


def begin(words: Sequence[str], folder: object, env: Optional[Mapping[str, str]] = None) -> "subprocess.Popen[str]":
    """Starts a program in a folder, with a group of its own. What it writes to both outputs is a text to be read."""
    how: Dict[str, Any] = {"stdin": subprocess.DEVNULL, "stdout": subprocess.PIPE, "stderr": subprocess.STDOUT}
    how.update(text=True, errors="replace", start_new_session=True)
    return subprocess.Popen(words, cwd=str(folder), env=env, **how)


def put(room: str, files: Files) -> None:
    """Writes these files into a folder."""
    for name, held in files.items():
        os.makedirs(os.path.dirname(f"{room}/{name}"), exist_ok=True)
        with open(f"{room}/{name}", "wb") as file:
            file.write(held)


def furnish(room: str, files: Files) -> None:
    """Makes a folder that has these files and no others."""
    shutil.rmtree(room, ignore_errors=True)
    os.mkdir(room)
    put(room, files)


def files_in(room: str) -> Files:
    """Returns the files of a folder."""
    found: Files = {}
    for folder, _, names in os.walk(room):
        for name in names:
            with open(f"{folder}/{name}", "rb") as file:
                found[os.path.relpath(f"{folder}/{name}", room)] = file.read()
    return found


def scripts_of_demos() -> List[str]:
    """Returns the script of each demo, by its path below the top."""
    return sorted(os.path.relpath(path, TOP) for path in glob.glob(f"{TOP}/demo/*/s.resc"))


def unwind_at_ends() -> None:
    """Turns signals that end this tool, and a reader that goes away, into exceptions. So its folders are removed, and
    what it has started is ended."""
    signal.signal(signal.SIGPIPE, signal.SIG_IGN)
    for number in (signal.SIGTERM, signal.SIGHUP):
        signal.signal(number, lambda told, _: sys.exit(128 + told))


def lanes() -> int:
    """Returns how many runs are made at a time."""
    return len(os.sched_getaffinity(0))


def tell_wrong(texts: Iterable[str]) -> int:
    """Prints each fault as it is found, and returns the tool's status."""
    status = 0
    unwind_at_ends()
    try:
        for text in texts:
            print(f"{name_of_script()}: {text}", flush=True)
            status = 1
    except BrokenPipeError:
        drop_output()
        return 1
    return status
