"""A folder for what a script writes in passing, which goes with the script however that ends.

A signal ends a Python program without a word to it. So a second process keeps the folder: it waits at a pipe, whose
other end is closed when the script ends, for whatever cause. Then it removes the folder, and ends what was started
beside it.
"""
import contextlib
import os
import pathlib
import secrets
import subprocess
import tempfile
import threading
from typing import Any, Optional, Sequence

# The folder takes another name first, under which nobody puts anything into it.
KEEPER = """\
trap '' HUP INT TERM
read -r _
mv -- "$1" "$1.gone" && rm -rf -- "$1.gone"
kill -KILL 0
"""


class Room:
    """The folder, until this process ends or calls `close`. Made by the first thread, before others are there. It
    stands in the folder `within` if one is given, and else where the system has folders for a time."""

    def __init__(self, prefix: str, within: Optional[pathlib.Path] = None) -> None:
        self.path = (within or pathlib.Path(tempfile.gettempdir())) / f"{prefix}{secrets.token_hex(8)}"
        end, self.end = os.pipe()
        self.closing = threading.RLock()
        self.keeper = subprocess.Popen(
            ["sh", "-c", KEEPER, "sh", str(self.path)],
            stdin=end,
            stdout=subprocess.DEVNULL,
            stderr=subprocess.DEVNULL,
            preexec_fn=os.setpgrp,
        )
        os.close(end)
        # Not before, so that nothing is left where this process ends in between.
        try:
            self.path.mkdir(0o700)
        except BaseException:
            self.close()
            raise

    def start(self, words: Sequence[str], **how: Any) -> "subprocess.Popen[bytes]":
        """Starts a process that ends with the folder. No other thread may be there."""
        group = self.keeper.pid
        return subprocess.Popen(words, preexec_fn=lambda: os.setpgid(0, group), **how)

    def close(self) -> None:
        """Removes the folder, and ends what was started beside it. Several threads may call it."""
        with self.closing:
            end, self.end = self.end, -1
            if end >= 0:
                os.close(end)
            with contextlib.suppress(ChildProcessError):
                os.waitpid(self.keeper.pid, 0)

    def __enter__(self) -> "Room":
        return self

    def __exit__(self, *_: object) -> None:
        self.close()
