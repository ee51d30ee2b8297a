"""Runs the program where the system refuses it something: files that cannot be read or never end, outputs that are
closed, full or gone, runs that are killed, calls that a signal interrupts. Prints what is wrong and nothing else.

    tools/edges             these
    tools/edges --limits    also each demo under twenty limits of memory, and with a stack of 64 KB

Under a limit a run must end with the demo's log and status, or with 1 and a beginning of that log: never by a signal,
late, or with other bytes. The lowest limit is the one at which the program, run without words, still prints its usage:
below it the system's loader finds no memory for it. Interrupted calls are tried if `strace` is installed. With LAB set,
that program runs. It ends with 0; with 1 if something was wrong; and with 2 if its arguments are wrong.
"""
import os
import pathlib
import resource
import shutil
import subprocess
import tempfile
import threading
from typing import Any, Dict, Iterator, List, Sequence

from labdev import trials
from labdev.trials import SECONDS, Ended
from labtools.common.program import TOP, end_unless, path_of_program

LIMITS = 20
SCRIPT = b"mach create m0\nmachine LoadPlatformDescription @p.repl\ncpu PC\ncpu PC\n"
PLATFORM = b"""ram: Memory.MappedMemory @ sysbus 0x80000000 { size: 0x1000 }
cpu: CPU.RiscV32 @ sysbus { cpuType: "rv32im" }
"""
LOG = b"0x00000000\n0x00000000\n"
# lui x5, 0x90000; lw x6, 0(x5); jal x0, -4: a line of the log each second slot, for an hour
POLLS = bytes.fromhex("b702009003a302006ff0dfff")
ENDLESS = b"""mach create m0
machine LoadPlatformDescription @p.repl
sysbus LoadBinary @polls.bin 0x80000000
cpu PC 0x80000000
cpu PerformanceInMips 1
emulation RunFor "3600"
"""
POLLED = "[{at:.6f}] m0/sysbus: read 4 at 0x90000000\n"


class Edges:
    """Runs of the program in a folder; each trial yields what is wrong."""

    def __init__(self, program: str, room: str) -> None:
        self.program = program
        self.room = room
        files = {"s.resc": SCRIPT, "p.repl": PLATFORM, "empty": b"", "endless.resc": ENDLESS, "polls.bin": POLLS}
        trials.put(room, files)

    def run(self, *words: str, before: Sequence[str] = (), **how: Any) -> Ended:
        return trials.run([*before, self.program, *words], how.pop("cwd", self.room), **how)

    def wrong(self, what: str, answer: Ended, status: int, printed: bytes) -> Iterator[str]:
        """Yields a line where a run has ended otherwise."""
        if (answer.status, answer.printed) != (status, printed):
            end = f"{answer.status} and {answer.printed[-80:]!r}"
            yield f"{what}: ended with {end} instead of {status} and {printed[-80:]!r}"

    def try_files(self) -> Iterator[str]:
        """Files that are none, that cannot be read, that say another length than they have, or that do not end."""
        os.mkdir(f"{self.room}/folder")
        with open(f"{self.room}/shut", "wb"):
            os.chmod(f"{self.room}/shut", 0)
        unknown = b"error: /proc/sys/kernel/ostype:1: S1 unknown command\n"
        for what, name, status, printed in (
            ("a folder", "folder", 4, b""),
            ("a file whose reads fail", "/proc/self/mem", 4, b""),
            ("a file of length 0 that holds something", "/proc/sys/kernel/ostype", 3, unknown),
            ("a file without an end", "/dev/zero", 3, b"error: /dev/zero:0: S19 size\n"),
            ("a file that may not be read", "shut", 4, b""),
        ):
            # (root may read all)
            if name != "shut" or os.geteuid() != 0:
                yield from self.wrong(what, self.run("run", name), status, printed)

    def try_growing(self) -> Iterator[str]:
        """A file whose bytes come while it is read."""
        os.mkfifo(f"{self.room}/growing")

        def write() -> None:
            with open(f"{self.room}/growing", "wb", buffering=0) as file:
                for at in range(0, len(SCRIPT), 7):
                    file.write(SCRIPT[at : at + 7])

        writer = threading.Thread(target=write, daemon=True)
        writer.start()
        yield from self.wrong("a file that grows", self.run("run", "growing"), 0, LOG)
        writer.join(SECONDS)

    def try_outputs(self) -> Iterator[str]:
        """Outputs that take nothing, or take it no longer."""
        closed = ["bash", "-c", 'exec "$@" >&-', "-"]
        yield from self.wrong("no output", self.run("run", "s.resc", before=closed), 5, b"")
        yield from self.wrong("no output, and none asked for", self.run("run", "empty", before=closed), 0, b"")
        with open("/dev/full", "wb") as full:
            yield from self.wrong("a full output", self.run("run", "s.resc", stdout=full), 5, b"")
            refused = self.run("run", "s.resc", "x", stdout=full)
            yield from self.wrong("a full output for a refusal", refused, 5, b"")
        reader, writer = os.pipe()
        os.close(reader)
        yield from self.wrong("a pipe without a reader", self.run("run", "s.resc", stdout=writer), 5, b"")
        os.close(writer)

    def try_long_run(self, is_killed: bool) -> Iterator[str]:
        """A run prints while its boards run: it ends where nobody reads on, and one that is killed has printed."""
        words = [self.program, "run", "endless.resc"]
        how: Dict[str, Any] = {"stdin": subprocess.DEVNULL, "stdout": subprocess.PIPE, "cwd": self.room}
        with subprocess.Popen(words, **how) as begun:
            timer = threading.Timer(SECONDS, begun.kill)
            timer.start()
            assert begun.stdout
            printed = begun.stdout.readline()
            if is_killed:
                begun.kill()
                printed += begun.stdout.read()
            begun.stdout.close()
            begun.wait()
            timer.cancel()
        count = printed.count(b"\n")
        front = "".join(POLLED.format(at=(2 * n + 1) / 10**6) for n in range(count + 1)).encode()
        is_front = count > 0 and front.startswith(printed)
        if is_killed and not is_front:
            yield f"a long run that is killed: printed {printed[-80:]!r}"
        elif not is_killed:
            ended = Ended(begun.returncode, printed)
            first = POLLED.format(at=0.000001).encode()
            yield from self.wrong("a long run into a pipe whose reader goes", ended, 5, first)

    def try_interrupted(self) -> Iterator[str]:
        """Reads and writes that a signal interrupts are made again."""
        for call, file in ("write", ""), ("read", "s.resc"), ("read", "p.repl"):
            for when in "1", "2", "1..3":
                of_file = ["-P", file] if file else []
                how = ["strace", "-qq", "-o", "trace", *of_file, "-e", f"inject={call}:error=EINTR:when={when}"]
                yield from self.wrong(f"{call} {when} interrupted", self.run("run", "s.resc", before=how), 0, LOG)
                trace = (pathlib.Path(self.room) / "trace").read_bytes()
                if when == "1" and b"INJECTED" not in trace:
                    yield f"no {call} was interrupted"

    def limited(self, words: List[str], kind: int, size: int) -> Ended:
        """Returns the answer of a run of which the system gives no more than so many bytes."""

        def limit() -> None:
            resource.setrlimit(kind, (size, size))

        return self.run(*words, cwd=str(TOP), preexec_fn=limit, env={})

    def least_size(self) -> int:
        """Returns the least limit of memory at which the program starts, in steps of a page."""
        low, high = 0, 2**30
        while high - low > 4096:
            middle = (low + high) // 2 // 4096 * 4096
            is_started = self.limited([], resource.RLIMIT_AS, middle).status == 2
            low, high = (low, middle) if is_started else (middle, high)
        return high

    def try_limits(self) -> Iterator[str]:
        least = self.least_size()
        for script in trials.scripts_of_demos():
            log = (TOP / script).with_name("output").read_bytes()
            for step in range(LIMITS):
                size = least + step * 32768
                it = self.limited(["run", script], resource.RLIMIT_AS, size)
                if not (it.status == 0 and it.printed == log) and not (it.status == 1 and log.startswith(it.printed)):
                    limit = f"{script} with `ulimit -v {size // 1024}`"
                    yield f"{limit}: ended with {it.status} and {it.printed[-80:]!r}"
            small = self.limited(["run", script], resource.RLIMIT_STACK, 65536)
            yield from self.wrong(f"{script} with `ulimit -s 64`", small, 0, log)


def wrong_ends(edges: Edges, is_limited: bool) -> Iterator[str]:
    yield from edges.try_files()
    yield from edges.try_growing()
    yield from edges.try_outputs()
    yield from edges.try_long_run(is_killed=False)
    yield from edges.try_long_run(is_killed=True)
    if shutil.which("strace"):
        yield from edges.try_interrupted()
    else:
        print("passed over: calls that a signal interrupts, without strace")
    if is_limited:
        yield from edges.try_limits()


def main(words: List[str]) -> int:
    end_unless(words in ([], ["--limits"]), "[--limits]")
    program = path_of_program()
    with tempfile.TemporaryDirectory(prefix="lab-edges-") as room:
        return trials.tell_wrong(wrong_ends(Edges(program, room), bool(words)))
