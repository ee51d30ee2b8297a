"""Runs the tests of a suite side by side, or keeps their logs."""
import concurrent.futures
import contextlib
import io
import itertools
import os
import pathlib
from typing import BinaryIO, Callable, Dict, Iterator, List, Sequence

from labtools.common import plain_files
from labtools.scripts import reads
from labtools.suites import kept_logs, lab_runs, preparations, suite_tests
from labtools.suites.suite_reports import Outcome
from labtools.suites.suite_tests import Finding, Undone

# How many lines of a log are warned of at most.
WARNED = 40


def log_of(script: str) -> pathlib.Path:
    """Where the log of a test is kept."""
    return pathlib.Path(script).with_suffix(".log")


def tests_in(paths: Sequence[str]) -> List[str]:
    """The scripts of the tests that are named, each once: those of folders by their names, in the order given."""
    found: Dict[str, None] = {}
    for path in paths:
        if os.path.isdir(path):
            scripts = sorted(os.path.normpath(it) for it in pathlib.Path(path).rglob("*.resc"))
            found.update(dict.fromkeys(it for it in scripts if os.path.lexists(log_of(it))))
        elif os.path.lexists(path):
            found[os.path.normpath(path)] = None
        else:
            raise Undone(f"there is no {path}")
    if not found:
        raise Undone(f"no test is in {' '.join(paths)}: an X.resc with an X.log beside it")
    return list(found)


def warnings_of(test: str, folder: pathlib.Path, log: BinaryIO) -> Iterator[str]:
    """Warnings about the log that was kept of a test."""
    for line in itertools.islice(kept_logs.failures_in(log), WARNED):
        yield f"says that a test has failed, so later runs are expected to fail it too: {line}"
    if not kept_logs.has_verdict(log) and reads.has_finisher(test, folder):
        yield "has no verdict (`pause .. pass`), though a board has a finisher: did the test finish?"


class Trials:
    """Runs tests of a project, or keeps their logs. `tell` takes messages beside the results."""

    def __init__(self, runs: lab_runs.Runs, tell: Callable[[str], None], is_update: bool = False) -> None:
        self.runs = runs
        self.tell = tell
        self.is_update = is_update
        self.before = preparations.Preparations(runs, tell)

    def outcomes(self, tests: Sequence[str], jobs: int) -> Iterator[Outcome]:
        """Runs so many tests at a time, and yields their outcomes in order, each as soon as it is known. The scripts
        that they come after run before the first test, since such a script may be a test itself."""
        with concurrent.futures.ThreadPoolExecutor(jobs) as pool:
            tried: List["concurrent.futures.Future[Outcome]"] = []
            try:
                list(pool.map(self.prepare, tests))
                tried += [pool.submit(self.outcome_of, test) for test in tests]
                for outcome in tried:
                    yield outcome.result()
            finally:
                for outcome in tried:
                    outcome.cancel()
                self.runs.end_all()

    def prepare(self, test: str) -> None:
        """Runs what a test comes after. Each test that this concerns reports a fault later."""
        with contextlib.suppress(Exception):
            self.before.make_for(test)

    def scripts_before(self, test: str) -> List[str]:
        """The scripts that come before a test; none if they cannot be told, which running the test will show."""
        with contextlib.suppress(Undone, OSError, ValueError):
            return self.before.order_for(test)
        return []

    def outcome_of(self, test: str) -> Outcome:
        """Runs a test, or keeps its log. An unexpected exception is an error of this test alone: the others still
        run."""
        try:
            mode = self.before.wishes_of(test).mode
            with self.kept_log(test, mode) as kept:
                self.before.make_for(test)
                with self.run(test) as ran:
                    finding = self.finding_of(test, mode, kept, ran)
                    return Outcome(test, finding, kept_logs.last_lines(ran.log), ran.seconds)
        except (Undone, OSError) as fault:
            cause = str(fault)
        except Exception as fault:
            cause = f"{type(fault).__name__}: {fault}"
        return Outcome(test, Finding(suite_tests.ERROR, "undone", cause), "", 0.0)

    def finding_of(self, test: str, mode: str, kept: BinaryIO, ran: lab_runs.Ran) -> Finding:
        """Judges a run of a test, or keeps its log if that is asked for."""
        fault = suite_tests.fault_of(ran, test, self.runs)
        if fault is not None:
            return fault
        if self.is_update:
            return self.keep(test, kept, ran.log)
        return suite_tests.finding_of(mode, str(log_of(test)), kept, ran)

    @contextlib.contextmanager
    def run(self, test: str) -> Iterator[lab_runs.Ran]:
        """Runs a test. If others come after it, nobody else runs it meanwhile, since it keeps a snapshot."""
        with self.before.alone(test) if self.before.is_known(test) else contextlib.nullcontext():
            with self.runs.run(test) as ran:
                yield ran

    @contextlib.contextmanager
    def kept_log(self, test: str, mode: str) -> Iterator[BinaryIO]:
        """The kept log of a test; an empty one if there is none yet and this run is to keep one."""
        path = log_of(test)
        with contextlib.ExitStack() as held:
            try:
                kept: BinaryIO = held.enter_context(plain_files.opened(self.runs.folder / path))
            except FileNotFoundError as fault:
                if not self.is_update:
                    raise Undone(f"there is no {path}: --update keeps one") from fault
                kept = io.BytesIO()
            except OSError as fault:
                raise suite_tests.unread(path, fault) from fault
            if not self.is_update and mode != suite_tests.VERDICT:
                self.check_size(path, kept)
            yield kept

    def check_size(self, path: pathlib.Path, kept: BinaryIO) -> None:
        """Refuses a kept log that tests nothing, or is longer than any run may print."""
        size = kept_logs.size_of(kept)
        if not size:
            raise Undone(f"{path} is empty, so it tests nothing: --update keeps another one")
        if size > self.runs.most:
            raise Undone(f"{path} has more than {self.runs.most} bytes, which --most allows a test to print")

    def keep(self, test: str, kept: BinaryIO, printed: BinaryIO) -> Finding:
        """Keeps what a test has printed as its log, unless it has printed nothing."""
        if not kept_logs.size_of(printed):
            return Finding(suite_tests.ERROR, "undone", "nothing was printed, so no log is kept")
        if kept_logs.are_equal(kept, printed):
            cause = "the log is as it was"
        else:
            try:
                plain_files.replace(self.runs.folder / log_of(test), printed)
            except OSError as fault:
                cause = f"{log_of(test)} could not be kept: {fault.strerror}"
                return Finding(suite_tests.ERROR, "undone", cause)
            cause = f"the log has {sum(1 for _ in kept_logs.lines_in(printed))} lines now"
        for warning in warnings_of(test, self.runs.folder, printed):
            self.tell(f"{log_of(test)} {warning}")
        return Finding(suite_tests.PASSED, cause=cause)
