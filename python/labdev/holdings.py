"""Says what snapshots hold, for cases/check, which starts it once for all snapshots of a case.

    cd python && python3 -m labdev.holdings

It reads lines `FILE<tab>PATH`. To each it answers with the values of the snapshot FILE whose paths begin with PATH, and
a zero byte. A line has the values of one entry of a list, behind the last name of its path. Of a file that is no
snapshot it answers what tools/snapshot says.
"""
import contextlib
import io
import sys
from typing import List

from labtools import snapshot


def entries_of(printed: str, path: str) -> str:
    """Returns a line for each entry below a path, from what tools/snapshot prints."""
    lines: List[str] = []
    last = None
    for _, name, *values in (line.split() for line in printed.split("\n")[:-1]):
        if name.startswith(path):
            entry = (path + name[len(path) :].partition(".")[0]).rpartition(".")[2]
            if entry != last:
                lines.append(entry)
            lines[-1] += f" {''.join(values[:1])}"
            last = entry
    return "".join(f"{line}\n" for line in lines)


def answer(file: str, path: str) -> str:
    printed, told = io.StringIO(), io.StringIO()
    try:
        with contextlib.redirect_stdout(printed), contextlib.redirect_stderr(told):
            snapshot.main([file])
    except SystemExit:
        return told.getvalue()
    return entries_of(printed.getvalue(), path)


def main() -> None:
    for line in sys.stdin:
        print(answer(*line.rstrip("\n").split("\t")), end="\0", flush=True)


if __name__ == "__main__":
    main()
