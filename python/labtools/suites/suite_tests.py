"""Tests of a suite: what a script's lines `# suite: ..` say, and whether a run has passed."""
import dataclasses
import pathlib
from typing import BinaryIO, List, Optional, Tuple

from labtools.common import plain_files
from labtools.common.escapes import shown
from labtools.scripts import reads
from labtools.suites import kept_logs, lab_runs

EXACT, NOTIMES, VERDICT = MODES = ("exact", "notimes", "verdict")
MARK = "suite:"

PASSED, FAILED, ERROR = "passed", "failed", "error"

STATUSES = {
    1: "memory ran out",
    2: "its arguments are wrong",
    4: "a file could not be read",
    5: "its output could not be written",
    6: "a snapshot could not be kept or read",
}


class Undone(Exception):
    """What could not be done, in words for people."""


@dataclasses.dataclass(frozen=True)
class Wishes:
    """What a script says of itself: how its log is compared, and which scripts come before it."""

    mode: str
    after: Tuple[str, ...]


@dataclasses.dataclass(frozen=True)
class Finding:
    """What is to be said of a run. The kind is a word for programs, the cause is for people; both are empty where the
    test has passed. The difference is empty where there is none, or none is looked for."""

    result: str
    kind: str = ""
    cause: str = ""
    difference: str = ""


def unread(path: object, fault: OSError) -> Undone:
    """Says that a file cannot be read."""
    return Undone(f"{path} cannot be read: {fault.strerror}")


def wishes_of(script: str, folder: pathlib.Path) -> Wishes:
    """Reads what a script of a project says of itself."""
    try:
        text = kept_logs.text_of(plain_files.content_of(folder / script, reads.FILE_LIMIT))
    except OSError as fault:
        raise unread(script, fault) from fault
    modes: List[str] = []
    after: List[str] = []
    for number, line in enumerate(kept_logs.lines_of(text), 1):
        said = said_in(line)
        if said is not None and not take(said.split(), modes, after):
            says = f"{', '.join(MODES)} or `after SCRIPT`, and not {short(said)}"
            raise Undone(f"{script}:{number}: `# suite:` says {says}")
    if len(modes) > 1:
        raise Undone(f"{script}: `# suite:` names {short(' and '.join(modes))}, and takes one of them")
    return Wishes(modes[0] if modes else EXACT, tuple(dict.fromkeys(after)))


def said_in(line: str) -> Optional[str]:
    """What a line `# suite: ..` says, and nothing where it is another one."""
    comment = line.lstrip()
    if not comment.startswith("#"):
        return None
    text = comment[1:].lstrip()
    return text[len(MARK) :].strip() if text.startswith(MARK) else None


def take(words: List[str], modes: List[str], after: List[str]) -> bool:
    """Adds what these words say to one of the lists, if they say anything."""
    if len(words) == 1 and words[0] in MODES:
        modes.append(words[0])
    elif len(words) == 2 and words[0] == "after":
        after.append(words[1])
    else:
        return False
    return True


def short(text: str, most: int = 200) -> str:
    """The beginning of a text that may be long."""
    return text if len(text) <= most else f"{text[:most]} .."


def fault_of(ran: lab_runs.Ran, script: str, runs: lab_runs.Runs, seconds: Optional[float] = None) -> Optional[Finding]:
    """What is wrong with a run of a script that is not done, whatever it has printed. It had these seconds, or those of
    all runs."""
    if ran.ended_by == lab_runs.TIME:
        return Finding(FAILED, "timeout", f"not finished after {runs.seconds if seconds is None else seconds:g} s")
    if ran.ended_by == lab_runs.SIZE:
        polls = ": it polls where nothing stands?" if kept_logs.polls_nothing(ran.log) else ""
        return Finding(FAILED, "size", f"printed more than {runs.most} bytes{polls}")
    return None if ran.status == 0 else Finding(ERROR, "lab", f"lab ended with {ran.status}: {why(ran, script, runs)}")


def why(ran: lab_runs.Ran, script: str, runs: lab_runs.Runs) -> str:
    """Why a run has ended with another status than 0."""
    last = kept_logs.lines_of(kept_logs.last_lines(ran.log, 1))
    if ran.status == 3 and last:
        return short(last[0], 1000)
    if ran.status is not None and ran.status < 0:
        return f"signal {-ran.status}"
    cause = STATUSES.get(ran.status or 0, "see docs/SCRIPTS.md")
    return cause + missing_file(script, runs.folder) if ran.status in (4, 6) else cause


def missing_file(script: str, folder: pathlib.Path) -> str:
    """The first file of a script that is not there, and the line that asks for it, if one is found."""
    reading = reads.follow(script, folder)
    missing = [it for it in [*reading.files, *reading.saves] if not it.is_there]
    return f", {missing[0].path} ({missing[0].asked_by})" if missing else ""


def finding_of(mode: str, name: str, kept: BinaryIO, ran: lab_runs.Ran) -> Finding:
    """What is to be said of a run that is done, beside the log that was kept under this name. A test by its verdict
    alone is not compared with it."""
    if mode == EXACT and kept_logs.are_equal(kept, ran.log):
        return Finding(PASSED)
    log = None if mode == VERDICT else kept
    failure = kept_logs.new_failure(log, ran.log)
    is_wanted = log is None or kept_logs.has_verdict(log)
    difference = "" if log is None else difference_of(mode, name, log, ran.log)
    if failure is not None:
        return Finding(FAILED, "fail", f"a test has failed: {failure}", difference)
    if is_wanted and not kept_logs.has_verdict(ran.log):
        return Finding(FAILED, "no verdict", "no verdict: it hangs?", difference)
    if log is None or not difference:
        return Finding(PASSED)
    if mode == EXACT and kept_logs.differ_by_times(log, ran.log):
        return Finding(FAILED, "times", "only the times differ: `# suite: notimes` ignores them", difference)
    return Finding(FAILED, "difference", "the log differs", difference)


def difference_of(mode: str, name: str, kept: BinaryIO, printed: BinaryIO) -> str:
    """The differences between a kept log and what was printed, as the mode compares them."""
    if mode == EXACT:
        return kept_logs.difference(shown(name), kept, "this run", printed)
    with kept_logs.without_times(kept) as one, kept_logs.without_times(printed) as other:
        return kept_logs.difference(shown(name), one, "this run", other)
