"""Runs a script over many values of its variables, as the tests of one suite.

    tools/sweep [-j N] [--log FILE] [--junit FILE] [--shard PART] [--timeout S] [--most BYTES] SCRIPT NAME=VALUES ..

  NAME=1..1000      each of these numbers for the variable $NAME, for which SCRIPT has a line `$NAME?=VALUE`
  NAME=0..1000..50  every 50th of them
  NAME=a,b,@c.elf   these words, as written; several variables are tried in every combination
  -j N              makes N runs at a time; by default as many as there are processors
  --log FILE        compares each log with this one, as a line `# suite:` of the script says: exact, notimes or verdict
  --junit FILE      writes the results as JUnit XML, a test for each value
  --shard PART      makes a share of the runs, as 2/3, and the first of all; `tools/suite --merge` merges the results
  --timeout S       ends a run that takes longer than S seconds; 300 by default, and 1000000 at most
  --most BYTES      ends a run that prints more; 100000000 by default

Without --log a run passes if a finisher says `pass` and none `fail`, as in `# suite: verdict`. If the first run has no
verdict, the others are compared with its log.

It prints a line for each run that has not passed, then how many ended how, with their values, then the first whose log
differs from FILE, or from that of the first run, and finally `N passed, M failed`. Differences go to the standard
error. It ends with 0; with 1 if a run failed; with 2 if one could not be made or something could not be done; and with
130 if it was interrupted, as tools/suite does. With LAB set, that program runs.
"""
import contextlib
import dataclasses
import itertools
import os
import pathlib
import re
import threading
from typing import BinaryIO, Dict, Iterator, List, Optional, Sequence, Tuple

from labtools.common import plain_files
from labtools.common.escapes import shown
from labtools.scripts import reads, resc
from labtools.suites import kept_logs, lab_runs, sessions, shards, suite_tests, trials
from labtools.suites.suite_reports import Outcome
from labtools.suites.suite_tests import Finding, Undone

# What this ends with where what it prints cannot be written.
UNWRITTEN = 2
MOST_RUNS = 100_000
# How many parts of a row of values are printed.
PARTS = 12
RANGE = re.compile(r"(\d{1,10})\.\.(\d{1,10})(?:\.\.(\d{1,10}))?", re.ASCII)
# The word of a variable's value: nothing that ends its line or begins another word.
WORD = re.compile(r"[^\s\"$]+")

Point = Tuple[Tuple[str, str], ...]


def name_of(point: Point) -> str:
    return ",".join(f"{name}={value}" for name, value in point)


def is_word(text: str) -> bool:
    """Whether a text can stand in a script as one word."""
    return WORD.fullmatch(text) is not None and text.isprintable()


def values_of(word: str) -> Tuple[str, List[str]]:
    """Reads NAME=VALUES."""
    name, sign, text = word.partition("=")
    if not sign or resc.variable_of(f"${name}") is None:
        raise Undone(f"{word} is not NAME=VALUES, with the name of a variable")
    numbers = RANGE.fullmatch(text)
    if not numbers:
        values = text.split(",")
        if not all(map(is_word, values)):
            raise Undone(f"{word}: a value is a word without blanks, quotes and $")
        return name, list(dict.fromkeys(values))
    first, last, step = int(numbers[1]), int(numbers[2]), int(numbers[3] or 1)
    if first > last or step == 0 or (last - first) // step >= MOST_RUNS:
        raise Undone(f"{word} has no numbers, or more than {MOST_RUNS}")
    return name, list(map(str, range(first, last + 1, step)))


def points_of(words: Sequence[str]) -> List[Point]:
    """Each value of each variable with each of the others."""
    named = [values_of(word) for word in words]
    if len({name for name, _ in named}) < len(named):
        raise Undone("a variable is named twice")
    count = 1
    for _, values in named:
        count *= len(values)
    if count > MOST_RUNS:
        raise Undone(f"that makes {count} runs; the most is {MOST_RUNS}")
    return [tuple(point) for point in itertools.product(*([(name, it) for it in values] for name, values in named))]


@dataclasses.dataclass
class Base:
    """The log that all others are compared with, whose it is, and how."""

    name: str
    file: pathlib.Path
    mode: str


class Sweep(trials.Trials):
    """Runs of scripts that set variables and include one script."""

    def __init__(self, runs: lab_runs.Runs, script: str, room: pathlib.Path) -> None:
        super().__init__(runs, sessions.tell)
        self.script = script
        self.room = room
        self.base = Base("", room / "first.log", suite_tests.EXACT)
        self.verdicts: Dict[str, str] = {}
        self.lock = threading.Lock()
        self.first: Tuple[int, str] = (MOST_RUNS, "")

    def write(self, number: int, point: Point) -> str:
        """Writes the script of a run, and returns its path."""
        path = self.room / f"{number}.resc"
        lines = [f"# suite: after {it}" for it in self.before.scripts_before(self.script)]
        lines += [*(f"${name}={value}" for name, value in point), f"include @{self.script}"]
        path.write_text("".join(f"{line}\n" for line in lines), encoding="utf-8")
        return str(path)

    def begin(self, log: Optional[str], point: Point) -> None:
        """Takes the log with which all are compared: this one, or else that of the first run. By the verdict alone they
        are compared where no log is given and it has one."""
        mode = self.before.wishes_of(self.script).mode
        if log:
            self.base = Base(log, self.runs.folder / log, mode)
            try:
                with plain_files.opened(self.base.file) as kept:
                    self.check_size(pathlib.Path(log), kept)
            except OSError as fault:
                raise suite_tests.unread(log, fault) from fault
            return
        first = self.write(0, point)
        self.before.make_for(first)
        with self.runs.run(first) as ran:
            if ran.status == 0 and not kept_logs.size_of(ran.log):
                raise Undone(f"{name_of(point)} prints nothing, so there is nothing to compare")
            plain_files.replace(self.base.file, ran.log)
            mode = suite_tests.VERDICT if kept_logs.has_verdict(ran.log) else mode
        self.base = Base(name_of(point), self.base.file, mode)

    @contextlib.contextmanager
    def kept_log(self, test: str, mode: str) -> Iterator[BinaryIO]:
        with plain_files.opened(self.base.file) as kept:
            yield kept

    def finding_of(self, test: str, mode: str, kept: BinaryIO, ran: lab_runs.Ran) -> Finding:
        fault = suite_tests.fault_of(ran, test, self.runs)
        if fault is not None:
            return fault
        verdict = next(kept_logs.failures_in(ran.log), "") or next(kept_logs.verdicts_in(ran.log), "")
        self.verdicts[test] = verdict.rpartition(": ")[2]
        self.compare(test, kept, ran.log)
        return suite_tests.finding_of(self.base.mode, self.base.name, kept, ran)

    def compare(self, test: str, kept: BinaryIO, log: BinaryIO) -> None:
        """Keeps how the first log differs that does."""
        number = int(pathlib.PurePath(test).stem)
        with self.lock:
            if number >= self.first[0]:
                return
        wished = self.before.wishes_of(self.script).mode
        mode = suite_tests.NOTIMES if wished == suite_tests.NOTIMES else suite_tests.EXACT
        difference = suite_tests.difference_of(mode, self.base.name, kept, log)
        with self.lock:
            if difference and number < self.first[0]:
                self.first = number, difference

    def outcomes_of(self, points: Dict[int, Point], jobs: int) -> Iterator[Tuple[Outcome, str]]:
        """Yields what was found of each, and in a word how it has ended."""
        written = [self.write(number, point) for number, point in points.items()]
        for outcome, point in zip(self.outcomes(written, jobs), points.values()):
            kind = outcome.finding.kind
            how = self.verdicts.get(outcome.script) or kind or "the log is as it was"
            yield dataclasses.replace(outcome, script=self.script, label=f"[{name_of(point)}]"), how


def ranges_of(points: Sequence[Point], step: int) -> str:
    """The values of some runs. Numbers of one variable that follow each other are a range."""
    parts: List[str] = []
    if points and len(points[0]) == 1 and step:
        numbers = [int(point[0][1]) for point in points]
        for _, run in itertools.groupby(enumerate(numbers), lambda pair: pair[1] - step * pair[0]):
            these = [number for _, number in run]
            by = f"..{step}" if step > 1 else ""
            parts.append(str(these[0]) if len(these) == 1 else f"{these[0]}..{these[-1]}{by}")
        front = f"{points[0][0][0]}="
    else:
        parts, front = list(map(name_of, points)), ""
    more = f" and {len(parts) - PARTS} more" if len(parts) > PARTS else ""
    return front + ("," if front else " ").join(parts[:PARTS]) + more


def step_of(words: Sequence[str]) -> int:
    """How far the numbers of the one variable are from each other, and 0 where it has others."""
    match = RANGE.fullmatch(words[0].partition("=")[2]) if len(words) == 1 else None
    return int(match[3] or 1) if match else 0


def sweep(session: sessions.Session) -> int:
    """Makes the runs, or a share of them, and prints what was found."""
    given = session.given
    script, words = os.path.normpath(given.paths[0]), given.paths[1:]
    points = dict(enumerate(points_of(words)))
    if not is_word(script):
        raise Undone(f"{script}: a path in a script has no blanks, quotes or $, and is UTF-8")
    check_names(script, points[0])
    swept = Sweep(session.runs(), script, session.room.path)
    swept.begin(given.log, points[0])
    keys = {f"{number:06} {script}[{name_of(point)}]": number for number, point in points.items()}
    share = shards.share_of(given.shard, dict.fromkeys(keys, ()), {}) if given.shard else None
    own = {keys[it]: points[keys[it]] for it in share.tests} if share else points
    lines = sessions.Lines(are_all=False)
    outcomes: List[Outcome] = []
    table: Dict[Tuple[str, str], List[Point]] = {}
    for (outcome, how), point in zip(swept.outcomes_of(own, given.j), own.values()):
        lines.tell(outcome)
        outcomes.append(outcome)
        table.setdefault((outcome.finding.result, how), []).append(point)
    for (result, how), those in table.items():
        print(shown(f"{result:6} {len(those):7}  {how}: {ranges_of(those, step_of(words))}"), flush=True)
    tell_first(swept, points)
    return session.end(outcomes, lines, share)


def check_names(script: str, point: Point) -> None:
    """Refuses a variable that no line has: all runs would be the same."""
    files = [it for it in reads.files_read(script, pathlib.Path.cwd()) if it.kind == "script" and it.is_there]
    text = b"".join(plain_files.content_of(pathlib.Path(it.path), reads.FILE_LIMIT) for it in files)
    for name, _ in point:
        if files and not re.search(rb"\$%s\b" % os.fsencode(name), text):
            raise Undone(f"no line of {script}, or of a file that it includes, has ${name}")


def tell_first(swept: Sweep, points: Dict[int, Point]) -> None:
    """Tells which is the first log that differs, and how."""
    number, difference = swept.first
    if number in points:
        print(
            shown(f"the first log that differs from that of {swept.base.name}: {name_of(points[number])}"), flush=True
        )
        sessions.show(difference)


def main(words: List[str]) -> int:
    made = sessions.parser(__doc__)
    made.add_argument("--log")
    made.add_argument("paths", nargs="*")
    given = sessions.read_words(made, words)
    if len(given.paths) < 2:
        made.error("which script, and which values?")
    return sessions.run(given, sweep)
