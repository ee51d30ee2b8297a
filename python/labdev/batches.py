"""Tries edits of different functions of a crate together: they are laid on one copy, and one `rt check --only F
--only G ..` names the functions that are no longer proved.

An edit counts as refused only where its own function has a goal that is not proved. What else such a check says is no
answer: that a function calls another that is not proved, that the prover could not tell, that a file does not compile,
a run that was killed. Such edits, and those whose function is still proved, are left to `rt must-fail`.
"""
import contextlib
import dataclasses
import pathlib
import re
import subprocess
from typing import Dict, Iterator, List, Optional, Sequence, Tuple

from labdev.edit_places import Placed

# The last line of a check that has come to its end.
ENDED = re.compile(r"(?m)^only=\d+ proved=\d+$")
# A line by which the kept work of a library could not be used.
STALE = re.compile(r"module .Rattle-\w+-.*Run the lower steps again")
# A line of what the prover refuses, and one of what it has come to of a function or a type.
ERROR = re.compile(r"(?:\./)?(\S+?):\d+:\d+: error")
NOTE = re.compile(r"note: (src/\S+?):(\d+):\d+: it is not proved ")
VERDICT = re.compile(r"[a-z]+ (\S+): ((?:not |no |could not |assumed|proved|depends).*)")
# A function that is not proved because of another.
THROUGH = re.compile(r"\b(?:it calls|it passes|a call of|depends on)\b")
# What a proof file says where it names something that is not there, or that was not proved.
NAMES = re.compile(r"has no field|has no `|is not in scope|not admitted")


@dataclasses.dataclass(frozen=True)
class Said:
    """What a check has said of a function: the words of its line, and the notes above it."""

    words: str
    notes: List[str]


@dataclasses.dataclass
class Answer:
    """What a check of a batch has come to: the edits that were refused, each with the first line of why, and those of
    which it says nothing because their functions call one that is not proved."""

    refused: Dict[str, str]
    through: List[Placed]


def is_same(symbol: str, name: str) -> bool:
    """Returns whether a check speaks of the function that was asked for by this name."""
    return symbol == name or symbol.endswith(f"::{name}")


def functions_in(lines: Sequence[str]) -> Iterator[Tuple[str, Said]]:
    """Yields what a check has said of each function, type and block."""
    notes: List[str] = []
    for line in lines:
        verdict = VERDICT.fullmatch(line)
        if verdict:
            yield verdict[1], Said(verdict[2], notes)
            notes = []
        elif NOTE.match(line):
            notes.append(line)


def errors_in(lines: Sequence[str], one: Placed) -> List[str]:
    """Returns the errors in the files of proofs that belong to the function of an edit."""
    own = re.compile(rf"(?:\./)?proofs/(?:.*/)?{one.function.folder}/\w+\.antt:\d+:\d+: error")
    return [line for line in lines if own.match(line)]


def is_of_batch(symbol: str, batch: Sequence[Placed]) -> bool:
    """Returns whether a check speaks of the function of an edit, or of a closure in its body."""
    closures = (f"::fn::{it.function.name.split('::')[-1]}::" for it in batch)
    return any(is_same(symbol, it.function.name) for it in batch) or any(it in symbol for it in closures)


def goals_in(told: Said, one: Placed) -> List[str]:
    """Returns the notes on goals that stand in the lines of the function of an edit. (An edit changes no number of
    lines.)"""
    found = ((NOTE.match(line), line) for line in told.notes)
    return [line for at, line in found if at and at[1] == one.file and int(at[2]) in one.function.lines]


def reason_for(told: Said, one: Placed, errors: Sequence[str]) -> Optional[str]:
    """Returns the first line of why a function itself is refused, or None where it may not be. Goals speak of what
    a function calls by contracts alone, so one that is not proved is its own, whatever else is not."""
    goals = goals_in(told, one)
    if told.words.startswith("no proof: ") and "`search` did not prove `" in told.words:
        return goals[0] if goals else None
    if told.words == "not proved":
        return next((it for it in [*errors, *goals] if not NAMES.search(it)), None)
    return None


def answer_of(status: int, said: str, batch: Sequence[Placed]) -> Optional[Answer]:
    """Returns what a check of a batch has come to, or None where it says nothing of the batch as a whole."""
    lines, found = said.split("\n"), list(functions_in(said.split("\n")))
    errors = [errors_in(lines, one) for one in batch]
    are_own = sum(bool(ERROR.match(line)) for line in lines) == sum(map(len, errors))
    others = [it.words for symbol, it in found if not is_of_batch(symbol, batch)]
    are_well = all(it.startswith("proved") or THROUGH.search(it) for it in others)
    has_ended = status in (0, 1) and ENDED.search(said) and not STALE.search(said)
    answer = Answer({}, [])
    for one, own in zip(batch, errors):
        told = [it for symbol, it in found if is_same(symbol, one.function.name)]
        if not has_ended or not are_own or not are_well or len(told) != 1:
            return None
        reason = reason_for(told[0], one, own)
        if reason is not None:
            answer.refused[one.edit] = reason
        elif THROUGH.search(told[0].words):
            answer.through.append(one)
    return answer


def check_of(folder: pathlib.Path, batch: Sequence[Placed]) -> Tuple[int, str]:
    """Runs `rt check` on the functions of a batch, and returns its exit status and its output."""
    names = dict.fromkeys(it.function.name for it in batch)
    ran = subprocess.run(
        ["rt", "check", *(word for name in names for word in ("--only", name))],
        cwd=folder,
        stdin=subprocess.DEVNULL,
        stdout=subprocess.PIPE,
        stderr=subprocess.STDOUT,
        text=True,
        errors="replace",
    )
    return ran.returncode, ran.stdout


def proved_in(folder: pathlib.Path, batch: Sequence[Placed]) -> List[Placed]:
    """Returns the edits whose functions are proved as they stand, without an edit."""
    status, said = check_of(folder, batch) if batch else (0, "")
    if status in (0, 1) and ENDED.search(said):
        found = [symbol for symbol, it in functions_in(said.split("\n")) if it.words == "proved"]
        return [one for one in batch if sum(is_same(symbol, one.function.name) for symbol in found) == 1]
    half = len(batch) // 2
    return [*proved_in(folder, batch[:half]), *proved_in(folder, batch[half:])] if half else []


@contextlib.contextmanager
def laid_on(folder: pathlib.Path, batch: Sequence[Placed]) -> Iterator[None]:
    """Puts the bodies of a batch into the files of a crate's folder, and those before it back in the end."""
    before = {one.file: (folder / one.file).read_bytes() for one in batch}
    try:
        for file, data in before.items():
            text = data.decode("utf-8")
            # (from the last, so that the places of the others stay)
            for one in sorted((it for it in batch if it.file == file), key=lambda it: -it.function.opened):
                text = text[: one.function.opened] + one.body + text[one.function.closed :]
            (folder / file).write_bytes(text.encode("utf-8"))
        yield
    finally:
        for file, data in before.items():
            (folder / file).write_bytes(data)


def batches_of(edits: Sequence[Placed]) -> List[List[Placed]]:
    """Returns the edits in batches that have no function twice."""
    batches: List[List[Placed]] = []
    for one in edits:
        batch = next((it for it in batches if one.function not in [other.function for other in it]), None)
        if batch is None:
            batches.append([one])
        else:
            batch.append(one)
    return batches


def refused_together(folder: pathlib.Path, edits: Sequence[Placed]) -> Dict[str, str]:
    """Tries these edits of a crate's folder in batches, and returns those that were refused, each with the first line
    of why. The functions have to be proved first without the edits."""
    refused: Dict[str, str] = {}
    waiting = batches_of(proved_in(folder, edits))
    while waiting:
        batch = waiting.pop(0)
        with laid_on(folder, batch):
            answer = answer_of(*check_of(folder, batch), batch)
        if answer is None:
            half = len(batch) // 2
            waiting += [it for it in (batch[:half], batch[half:]) if it and len(batch) > 1]
            continue
        refused.update(answer.refused)
        if answer.through and len(answer.through) < len(batch):
            waiting.append(answer.through)
    return refused
