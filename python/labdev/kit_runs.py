"""Runs of `rt` for tools that build the program, and what these tools tell."""
import os
import signal
import subprocess
import sys
import time
from typing import IO, Iterator, List

from labdev import trials
from labtools.common.program import TOP

# The crate of the program.
FOLDER = f"{TOP}/crates/lab_cli"
# How many lines of a failed run are shown.
LINES_SHOWN = 20


class Failed(Exception):
    """Crates that are not proved, or a program that is not built: the message to print."""


def tell(text: object) -> None:
    print(f"lab: {text}", file=sys.stderr, flush=True)


def time_since(start: float) -> str:
    minutes, seconds = divmod(int(time.monotonic() - start), 60)
    return f"{minutes} min {seconds:02} s"


class Run:
    """A run of `rt` in the program's crate, whose text is kept in a file too. It is ended with this program."""

    def __init__(self, words: List[str], log: IO[str], **settings: str) -> None:
        self.log = log
        self.process = trials.begin(["rt", *words], FOLDER, {**os.environ, **settings})

    def __enter__(self) -> "Run":
        return self

    def __exit__(self, *_: object) -> None:
        try:
            os.killpg(self.process.pid, signal.SIGTERM)
            self.process.wait(timeout=10)
        except ProcessLookupError:
            pass
        except subprocess.TimeoutExpired:
            os.killpg(self.process.pid, signal.SIGKILL)

    def lines(self) -> Iterator[str]:
        """Yields the lines that the run prints, as it prints them."""
        assert self.process.stdout
        for line in self.process.stdout:
            self.log.write(line)
            yield line.rstrip()
        self.process.wait()


def last_of(lines: List[str]) -> str:
    """Returns the last lines of a text, without those that only count what was read of the kit."""
    telling = [line for line in lines if not line.startswith("statements ")]
    return "\n".join(f"    {line}" for line in telling[-LINES_SHOWN:])
