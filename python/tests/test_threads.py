"""Tries the threads of real runs: that there are as many as workers were asked for, that each has work, and that they
stay to the end; that a log does not depend on them where there is one processor, where none can be made, and where a
finisher ends a run in its first round; and that none outlives its run, or burns a processor while nobody calls it.

As root the program is run as another user where no thread may be made, since that limit does not count for root. Where
the limit does not hold at all, that is told in a line."""
import errno
import os
import resource
import shutil
import subprocess
import time
import unittest
from pathlib import Path
from typing import Callable, Dict, List, NamedTuple, Optional, Sequence

from labdev.speed_loads import programs, run_for
from labtools.common.program import TOP, path_of_program
from tests.commands import IS_ROOT, Room, become_nobody

SECONDS = 120
BOARDS = 8
WORKERS = 2, 4, 8
# Words of runs, and by how many workers each is made. The script is that of `Workers`.
SCRIPT = "run", "s.resc"
RUNS = [(words, workers) for words in (SCRIPT, ("gen", "7", "16")) for workers in (2, 3, 4)]
# How often a run by eight workers and one by one are compared, until the one takes no more than twice the other.
PAIRS = 6
# How often a run is made anew, until each of its threads has had a hundredth of a second of a processor.
TRIES = 8
HUNDREDTH = os.sysconf("SC_CLK_TCK") / 100
HAS_ONE_PROCESSOR = len(os.sched_getaffinity(0)) == 1
# A look at a process, and how long it is looked at, in seconds.
LOOK = 0.002
A_WHILE = 0.2
# How long a thread may be there that was joined, in seconds.
GONE = 20

PLATFORM = """ram: Memory.MappedMemory @ sysbus 0x80000000 { size: 0x10000 }
uart: UART.NS16550 @ sysbus 0x10000000
fin: Miscellaneous.SiFiveTest @ sysbus 0x100000
cpu: CPU.RiscV32 @ sysbus { cpuType: "rv32im" }
"""
# A script that comes to this line waits until somebody writes into the pipe.
WAIT = "sysbus LoadBinary @pipe 0x80008000"
IMAGES = {"ping": "demo/hub/ping.bin", "pong": "demo/hub/pong.bin", "sum": "demo/pass/sum.bin"}
# The firmware `ping` sends its five letters in 27 slots, which are over in the first microsecond. Every second board
# has it.
FIRST_LINES = [f"[0.000000] m{number}/uart: ping" for number in range(0, BOARDS, 2)]


def boards(images: Sequence[str], *more: str) -> List[str]:
    """Returns the lines that make a board of each image, at a hundred instructions a microsecond, with further lines
    for each."""
    lines: List[str] = []
    for number, image in enumerate(images):
        lines += [f"mach create m{number}", "machine LoadPlatformDescription @board.repl"]
        lines += [f"sysbus LoadBinary @{image} 0x80000000", "cpu PC 0x80000000", "cpu PerformanceInMips 100", *more]
    return lines


def quantum(micros: int) -> str:
    return f'emulation SetGlobalQuantum "0.{micros:06}"'


def crowd(*lines: str) -> List[str]:
    """Returns a script of eight boards that answer each other, in rounds of a millisecond, each of 100,000 slots."""
    made = boards(["ping", "pong"] * (BOARDS // 2), "connector Connect uart hub", "showAnalyzer uart")
    return ['emulation CreateUARTHub "hub"', *made, quantum(1_000), *lines]


def without_threads() -> None:
    """From now on this process makes no further one, and no thread. Root becomes another user before."""
    if IS_ROOT:
        become_nobody()
    resource.setrlimit(resource.RLIMIT_NPROC, (1, 1))


def on_one_processor() -> None:
    os.sched_setaffinity(0, {max(os.sched_getaffinity(0))})


def are_threads_refused() -> bool:
    """Whether the limit on processes holds here: a process of its own finds out."""
    tried = os.fork()
    if tried == 0:
        made = 1
        try:
            without_threads()
            if os.fork() == 0:
                os._exit(0)
        except BlockingIOError:
            made = 0
        finally:
            os._exit(made)
    return os.waitpid(tried, 0)[1] == 0


class Seen(NamedTuple):
    """What a run came to: its log, how many threads it had at most, and the seconds of all processors."""

    log: str
    threads: int
    processors: float


class Rooms(Room):
    """Each test has a folder of its own with the program and the files of its boards, which anybody may read."""

    def setUp(self) -> None:
        super().setUp()
        self.room.chmod(0o755)
        shutil.copy(path_of_program(), self.room / "lab")
        (self.room / "lab").chmod(0o755)
        self.put({"board.repl": PLATFORM, "additions": programs()["additions"].image})
        for name, path in IMAGES.items():
            shutil.copy(TOP / path, self.room / name)

    def begin(
        self, lines: Sequence[str], workers: int, before: Optional[Callable[[], None]] = None
    ) -> "subprocess.Popen[bytes]":
        """Begins a run of these lines by so many workers. The log goes into a file."""
        self.write("s.resc", "".join(f"{line}\n" for line in lines))
        return self.start(["run", "s.resc", "--workers", str(workers)], before)

    def start(self, words: Sequence[str], before: Optional[Callable[[], None]] = None) -> "subprocess.Popen[bytes]":
        """Begins a run by these words. What it prints goes into a file."""
        with (self.room / "log").open("wb") as log:
            process = subprocess.Popen(
                ["./lab", *words], cwd=self.room, stdin=subprocess.DEVNULL, stdout=log, stderr=log, preexec_fn=before
            )
        self.addCleanup(process.wait)
        self.addCleanup(process.kill)
        return process

    def seen(self, lines: Sequence[str], workers: int, before: Optional[Callable[[], None]] = None) -> Seen:
        """Makes a run, which has to end well, and looks at its threads meanwhile."""
        earlier = resource.getrusage(resource.RUSAGE_CHILDREN)
        process = self.begin(lines, workers, before)
        most = 0
        end = time.monotonic() + SECONDS
        while process.poll() is None:
            most = max(most, threads_of(process))
            self.assertLess(time.monotonic(), end, "the run does not end")
            time.sleep(LOOK)
        log = self.read("log")
        self.assertEqual(process.returncode, 0, log[-300:])
        later = resource.getrusage(resource.RUSAGE_CHILDREN)
        return Seen(log, most, later.ru_utime + later.ru_stime - earlier.ru_utime - earlier.ru_stime)

    def log(self, lines: Sequence[str], workers: int, before: Optional[Callable[[], None]] = None) -> str:
        return self.seen(lines, workers, before).log


def threads_of(process: "subprocess.Popen[bytes]") -> int:
    """Returns how many threads a process has, or 0 where it has ended."""
    try:
        return len(os.listdir(f"/proc/{process.pid}/task"))
    except OSError:
        return 0


def ticks_of(process: "subprocess.Popen[bytes]") -> Dict[str, int]:
    """Returns for each thread of a process how long it has had a processor, in the system's ticks."""
    ticks: Dict[str, int] = {}
    try:
        for task in os.listdir(f"/proc/{process.pid}/task"):
            fields = Path(f"/proc/{process.pid}/task/{task}/stat").read_text().rpartition(")")[2].split()
            ticks[task] = int(fields[11]) + int(fields[12])
    except OSError:
        return {}
    return ticks


class Logs(Rooms):
    def test_on_one_processor_the_log_is_the_same(self) -> None:
        lines = crowd(run_for(10_000))
        alone = self.log(lines, 1)
        self.assertEqual(alone.splitlines()[: len(FIRST_LINES)], FIRST_LINES)
        for workers in WORKERS:
            self.assertEqual(self.log(lines, workers, on_one_processor), alone, workers)

    def test_on_one_processor_eight_workers_take_no_more_than_twice_one(self) -> None:
        # Rounds of 800,000, 80,000 and 8,800 slots: the last have just enough to be shared.
        for micros in 1_000, 100, 11:
            lines = [*boards(["additions"] * BOARDS), quantum(micros), run_for(11_000)]
            pairs = []
            for _ in range(PAIRS):
                pairs.append([self.seen(lines, workers, on_one_processor).processors for workers in (1, BOARDS)])
                if pairs[-1][1] <= 2 * pairs[-1][0]:
                    break
            else:
                self.fail(f"rounds of {micros} microseconds, seconds by one and by eight workers: {pairs}")

    def test_where_no_thread_can_be_made_the_log_is_the_same(self) -> None:
        if not are_threads_refused():
            self.skipTest("runs that can make no thread, since the limit on processes does not hold here")
        lines = crowd(run_for(10_000))
        alone = self.seen(lines, 1)
        self.assertEqual((alone.log.splitlines()[: len(FIRST_LINES)], alone.threads), (FIRST_LINES, 1))
        self.assertGreater(self.seen(lines, BOARDS).threads, 1)
        for workers in WORKERS:
            refused = self.seen(lines, workers, without_threads)
            self.assertEqual((refused.log, refused.threads), (alone.log, 1), workers)

    def test_a_finisher_ends_a_run_in_its_first_round(self) -> None:
        # The finisher of the last board fires in the first round. To its end the run would have 800 million slots.
        lines = [*boards(["additions"] * (BOARDS - 1) + ["sum"]), quantum(1_000), run_for(1_000_000)]
        for workers in (1, *WORKERS):
            for _ in range(5):
                self.assertEqual(self.log(lines, workers), "[0.001000] pause m7/fin: pass\n", workers)


class Workers(Rooms):
    """Runs whose boards have slots enough for as many workers as are asked for: eight boards of a script, in a hundred
    rounds of 100,000 slots each, and the sixteen of a generated laboratory, in a thousand of 1,000 slots each."""

    looked: List[List[Dict[str, int]]] = []

    def setUp(self) -> None:
        super().setUp()
        lines = [*boards(["additions"] * BOARDS), quantum(1_000), run_for(100_000)]
        self.write("s.resc", "".join(f"{line}\n" for line in lines))

    def looks(self, words: Sequence[str], workers: int) -> List[Dict[str, int]]:
        """Makes a run by so many workers, which has to end well. Returns for each look at it how long each of its
        threads has had a processor by then."""
        process = self.start([*words, "--workers", str(workers)])
        looks: List[Dict[str, int]] = []
        end = time.monotonic() + SECONDS
        while process.poll() is None:
            looks.append(ticks_of(process))
            self.assertLess(time.monotonic(), end, "the run does not end")
            time.sleep(LOOK)
        self.assertEqual(process.returncode, 0, self.read("log")[-300:])
        return [look for look in looks if look]

    @classmethod
    def looks_at(cls, test: "Workers") -> List[List[Dict[str, int]]]:
        """Returns the looks at each of the runs, which are made once for all tests."""
        if not cls.looked:
            cls.looked = [test.looks(words, workers) for words, workers in RUNS]
        return cls.looked

    def test_a_run_has_as_many_threads_as_workers(self) -> None:
        for (words, workers), looks in zip(RUNS, self.looks_at(self)):
            self.assertEqual(max(len(look) for look in looks), workers, words)

    def test_a_run_has_no_more_threads_than_boards(self) -> None:
        lines = [*boards(["additions"] * 3), quantum(1_000), run_for(100_000)]
        self.assertEqual(self.seen(lines, BOARDS).threads, 3)

    @unittest.skipIf(HAS_ONE_PROCESSOR, "the processor time of each thread, on one processor")
    def test_each_thread_of_a_run_works(self) -> None:
        # A round of the generated laboratory is over before a helper has come, where others want the processors too.
        for workers in (2, 3, 4):
            tried: List[List[int]] = []
            while not tried or len(tried[-1]) < workers or tried[-1][0] < HUNDREDTH:
                self.assertLess(len(tried), TRIES, f"the ticks of the threads of {workers} workers: {tried}")
                looks = self.looks(SCRIPT, workers)
                tried.append(sorted(max(looks, key=lambda look: (len(look), sum(look.values()))).values()))

    def test_helpers_stay_to_the_end_of_their_run(self) -> None:
        # A helper that is let go before a round, or leaves after one, is not there in nearly all others.
        for (words, workers), looks in zip(RUNS, self.looks_at(self)):
            together = [frozenset(look) for look in looks if len(look) == workers]
            self.assertGreater(len(together), len(looks) / 2, words)
            self.assertEqual(len(set(together)), 1, "other threads come in place of the first")


class Ends(Rooms):
    """Runs that wait at a pipe between two commands: then they have one thread, and it has no processor."""

    def setUp(self) -> None:
        super().setUp()
        os.mkfifo(self.room / "pipe")

    def come(self, process: "subprocess.Popen[bytes]") -> int:
        """Waits until the run waits at the pipe, and returns an open end of it."""
        end = time.monotonic() + SECONDS
        while time.monotonic() < end and process.poll() is None:
            try:
                return os.open(self.room / "pipe", os.O_WRONLY | os.O_NONBLOCK)
            except OSError as fault:
                self.assertEqual(fault.errno, errno.ENXIO)
            time.sleep(LOOK)
        self.fail(f"it has not come to the pipe: {(self.room / 'log').read_text()[-300:]}")

    def is_alone(self, process: "subprocess.Popen[bytes]") -> None:
        """A thread that was joined may be there for a moment more, but no later, and the other one sleeps."""
        end = time.monotonic() + GONE
        while threads_of(process) > 1:
            self.assertLess(time.monotonic(), end, "threads outlive their run")
            time.sleep(LOOK)
        before, end = ticks_of(process), time.monotonic() + A_WHILE
        while time.monotonic() < end:
            self.assertEqual(threads_of(process), 1)
            time.sleep(LOOK)
        self.assertLessEqual(sum(ticks_of(process).values()), sum(before.values()) + 1)

    def go_on(self, pipe: int) -> None:
        os.write(pipe, b"bytes")
        os.close(pipe)

    def test_no_thread_outlives_its_command(self) -> None:
        lines = crowd(run_for(10_000), WAIT, run_for(10_000))
        alone = self.log([line for line in lines if line != WAIT], 1)
        process = self.begin(lines, BOARDS)
        pipe = self.come(process)
        self.is_alone(process)
        self.go_on(pipe)
        # The next command has threads of its own.
        most = 0
        while process.poll() is None:
            most = max(most, threads_of(process))
            time.sleep(LOOK)
        self.assertGreater(most, 1)
        self.assertEqual((process.returncode, self.read("log")), (0, alone))

    def test_no_thread_outlives_a_run_that_a_finisher_ends(self) -> None:
        lines = [*boards(["additions"] * (BOARDS - 1) + ["sum"]), quantum(1_000), run_for(1_000_000), WAIT]
        process = self.begin(lines, BOARDS)
        pipe = self.come(process)
        self.assertEqual(self.read("log"), "[0.001000] pause m7/fin: pass\n")
        self.is_alone(process)
        self.go_on(pipe)
        self.assertEqual(process.wait(SECONDS), 0)

    def test_helpers_that_nobody_calls_take_no_processor(self) -> None:
        # 2,000 rounds in which one board alone is awake: eight workers are there, and one of them works.
        halted = [line for number in range(1, BOARDS) for line in (f"mach set m{number}", "cpu IsHalted true")]
        lines = [*boards(["additions"] * BOARDS), *halted, quantum(100), WAIT, run_for(200_000)]
        process = self.begin(lines, BOARDS)
        self.go_on(self.come(process))
        ticks: Dict[str, int] = {}
        while process.poll() is None:
            now = ticks_of(process)
            ticks = now if len(now) == BOARDS else ticks
            time.sleep(LOOK)
        self.assertEqual((process.returncode, self.read("log")), (0, ""))
        self.assertEqual(len(ticks), BOARDS, "the run had not as many threads as workers")
        leader = ticks.pop(str(process.pid))
        self.assertGreater(leader, 0)
        self.assertLess(sum(ticks.values()), leader / 2 + 1)
