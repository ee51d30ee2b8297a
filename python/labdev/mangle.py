"""Runs the program on damaged files: the scripts, platform files, images and snapshots of each case and demo, with one
byte changed, dropped or doubled. A snapshot that an earlier run of a case makes is one of them.

    tools/mangle              at every place of every file
    tools/mangle COUNT        COUNT damaged files, drawn from a fixed seed
    tools/mangle COUNT SEED   drawn from another seed

`lab check` checks each damaged laboratory, and then it is run. These are faults: an end by a signal, or with a status
other than 0, 3 or 4 (or 6, if a file has the word `Save` or `Load`); a text on the standard error; a refusal whose last
line does not have the form in docs/SCRIPTS.md; a line that no log has; a check that takes more than a second; and a
check and a run that disagree. The two agree if they end alike with the same refusal. They may differ in what only a run
sees or does: lab time ends (S14) or has passed before a `Load` (S21), a `Save` cannot keep a file (6), or it keeps one
that a later `Load` of the check does not find (6). A run that goes on for more than a second is ended, and what it has
printed is looked at: a changed time may have made it longer.

Each trial begins with the files of its laboratory and no others: what a run has kept is removed. Laboratories of more
than 100,000 bytes are passed over. With COUNT only faults are printed, each with a folder in which to try it; without
COUNT also how much was tried. As many trials run at a time as there are processors; `taskset` gives it fewer. It ends
with 0; with 1 if there was a fault; and with 2 if its arguments are wrong: COUNT is a number from 1 to as many as there
are.
"""
import bisect
import collections
import concurrent.futures
import glob
import itertools
import os
import pathlib
import random
import re
import shutil
import subprocess
import tempfile
import threading
from typing import Any, Counter, Dict, Iterator, List, Sequence, Tuple, Union

from labdev import cases, trials
from labdev.cases import Files
from labtools.common.program import TOP, end_unless, end_wrong, number_of, path_of_program
from labtools.common.rooms import Room

USAGE = "[COUNT [SEED]]"
SECONDS = 1
LARGEST = 100_000
# So many trials are handed to the workers at a time.
BATCH = 10_000
WAYS = ("changed", "dropped", "doubled")
# Bytes that mean something in scripts, platform files or images; a change mostly puts in one of them.
SIGNS = b" \t\r\n$@#:;=?\"'{}[]<>(),.-+*/\\|_09afAFxX\x00\x01\x7f\x80\xc3\xff"
CAUSES = {
    "S": "unknown command,arguments,variable,no board,board,taken,name,kind,connected,time,depth,commands,boards,"
    "lab time,platform,address,unclosed,not utf-8,size,snapshot,occupied",
    "P": "form,feature,type,attribute,value,missing,twice,reference,overlap,line,count,core",
    "E": "short,not elf,class,order,machine,type,headers,segment",
    "H": "form,sum,no end,kind,length",
}
REFUSALS = {f"{code}{n} {it}" for code, causes in CAUSES.items() for n, it in enumerate(causes.split(","), 1)}
REFUSAL = re.compile(rb"error: (.*):(\d+): ([A-Z]\d+ [a-z0-9 -]+)", re.DOTALL)
LOG = re.compile(
    rb"\[\d+\.\d{6}\] (?:[\w-]+/\w+: .*|pause [\w-]+/\w+: (?:pass|fail \d+))|0x[0-9a-f]{8}|\d+|true|false", re.DOTALL
)

Damage = Tuple["Laboratory", str, int, str]


class Laboratory:
    """Files by name, and the words of a run over them."""

    def __init__(self, name: str, files: Files, words: List[str]) -> None:
        self.name = name
        self.words = words
        self.files = reached(files, words)

    def made(self, program: str) -> Files:
        """Returns the files that a run of it makes."""
        if not has(b"Save", self.files):
            return {}
        with tempfile.TemporaryDirectory(prefix="lab-mangle-") as room:
            trials.put(room, self.files)
            trials.run([program, *self.words], room, SECONDS)
            return {name: held for name, held in trials.files_in(room).items() if name not in self.files}

    def key(self) -> Tuple[Any, ...]:
        return tuple(self.words), tuple(sorted(self.files.items()))

    def count(self) -> int:
        """Returns in how many ways one byte of it can be damaged."""
        return sum(map(len, self.files.values())) * len(WAYS)

    def damage(self, number: int) -> Damage:
        """Returns a damage by its number: a file, a place in it, and what happens to the byte there."""
        place, way = divmod(number, len(WAYS))
        for file, held in self.files.items():
            if place < len(held):
                return self, file, place, WAYS[way]
            place -= len(held)
        raise IndexError(number)


def reached(files: Files, words: List[str]) -> Files:
    """Returns the files that the words name, and those whose names stand in these."""
    found = {name: files[name] for name in words if name in files}
    fresh = list(found.values())
    while fresh:
        held = fresh.pop()
        for name in files:
            if name not in found and os.fsencode(name) in held:
                found[name] = files[name]
                fresh.append(files[name])
    return found


def has(word: bytes, files: Files) -> bool:
    """Whether a file has this word, which is then no part of a longer one."""
    return any(word in held and re.search(rb"\b%s\b" % word, held) for held in files.values())


def of_case(path: str, program: str) -> Iterator[Laboratory]:
    """Yields the laboratories of a case, each with the files that the runs before it have made."""
    for run in cases.runs_of(path):
        if not run.is_again:
            laboratory = Laboratory(os.path.basename(path), dict(run.files), run.words)
            yield laboratory
            run.files.update(laboratory.made(program))


def of_demos() -> Iterator[Laboratory]:
    """Yields the laboratories of the demos, which are all in one folder: one for each script that no other names."""
    files: Files = {}
    for path in glob.glob(f"{TOP}/demo/*/*"):
        with open(path, "rb") as file:
            files[os.path.relpath(path, TOP)] = file.read()
    scripts = {name: held for name, held in files.items() if name.endswith(".resc")}
    for script in sorted(scripts):
        if not any(os.fsencode(script) in held for held in scripts.values()):
            yield Laboratory(os.path.dirname(script), files, ["run", script])


def laboratories() -> List[Laboratory]:
    """Returns the laboratories of all cases and demos that run a script, each once, and no large ones."""
    program = path_of_program()
    found: Dict[Tuple[Any, ...], Laboratory] = {}
    every = [it for path in sorted(glob.glob(f"{TOP}/cases/*.case")) for it in of_case(path, program)]
    for laboratory in [*every, *of_demos()]:
        is_large = sum(map(len, laboratory.files.values())) > LARGEST
        if laboratory.words[:1] in (["run"], ["check"]) and laboratory.files and not is_large:
            found.setdefault(laboratory.key(), laboratory)
    return list(found.values())


def damaged(held: bytes, place: int, way: str, chance: random.Random) -> bytes:
    before, byte, after = held[:place], held[place : place + 1], held[place + 1 :]
    if way == "dropped":
        return before + after
    if way == "doubled":
        return before + byte + byte + after
    others = [it for it in SIGNS if it != byte[0]] if chance.random() < 0.7 else [byte[0] ^ 1 << chance.randrange(8)]
    return before + bytes([chance.choice(others)]) + after


class Answer:
    """How a run has ended, by its status or by None where it went on, and what it has printed: lines of the log, and
    the refusal."""

    def __init__(self, room: str, words: List[str]) -> None:
        ended = trials.run(words, room, SECONDS)
        self.status, self.printed, self.told = ended.status, ended.printed, ended.told
        *lines, self.rest = self.printed.split(b"\n")
        # A run that is ended may have printed its refusal already.
        last = REFUSAL.fullmatch(lines[-1]) if lines and self.status in (3, None) else None
        self.refusal = last if self.status == 3 else None
        self.log = lines[:-1] if last or self.status == 3 else lines

    def wrong(self, files: Files) -> Iterator[str]:
        """Yields what is wrong with this answer alone, over these files."""
        is_unkept = self.status == 6 and (has(b"Save", files) or has(b"Load", files))
        if self.status not in (None, 0, 3, 4) and not is_unkept:
            yield f"ended with {self.status}"
        if self.told:
            yield f"wrote on the standard error: {self.told!r}"
        if self.status == 3 and not (self.refusal and self.refusal[3].decode() in REFUSALS):
            yield "ended with 3 and no line of a refusal"
        if self.status is not None and self.rest:
            yield "ended within a line"
        for line in self.log:
            if not LOG.fullmatch(line):
                yield f"printed {line!r}"

    def is_refused_by(self, code: bytes) -> bool:
        return self.refusal is not None and self.refusal[3].startswith(code + b" ")


def may_differ(checked: Answer, run: Answer, files: Files) -> bool:
    """Whether a check and a run of these files may end otherwise: the run goes on or ends by what it alone sees, or the
    check does not find what the run has kept."""
    saves, loads = has(b"Save", files), has(b"Load", files)
    is_unkept = saves and run.status == 6
    is_unfound = saves and loads and checked.status == 6
    is_late = run.is_refused_by(b"S14") or loads and run.is_refused_by(b"S21")
    return run.status is None or is_unkept or is_unfound or is_late


def disagree(checked: Answer, run: Answer, files: Files) -> bool:
    """Whether a check and a run of these files differ in what both can see."""
    if may_differ(checked, run, files):
        return False
    return checked.status != run.status or (checked.refusal and checked.refusal[0]) != (run.refusal and run.refusal[0])


def seconds_of(room: str, words: List[str]) -> float:
    """Returns how many seconds of the processor a run takes, up to ten."""
    limited = ["bash", "-c", 'ulimit -t 10; exec "$@"', "-", *words]
    child = subprocess.Popen(limited, cwd=room, stdin=subprocess.DEVNULL, stdout=subprocess.DEVNULL)
    _, status, used = os.wait4(child.pid, 0)
    child.returncode = -os.WTERMSIG(status) if os.WIFSIGNALED(status) else os.WEXITSTATUS(status)
    return float(used.ru_utime + used.ru_stime)


class Damages:
    """All damages of some laboratories, by their numbers."""

    def __init__(self, found: List[Laboratory]) -> None:
        self.laboratories = found
        self.ends = list(itertools.accumulate(it.count() for it in found))

    def count(self) -> int:
        return self.ends[-1]

    def damage(self, number: int) -> Damage:
        at = bisect.bisect_right(self.ends, number)
        return self.laboratories[at].damage(number - self.ends[at] + self.laboratories[at].count())


class Trial:
    """Laboratories that are damaged one at a time, each worker in a room of its own in this folder."""

    def __init__(self, program: str, seed: str, folder: pathlib.Path) -> None:
        self.program = program
        self.seed = seed
        self.folder = folder
        self.mine = threading.local()
        self.lock = threading.Lock()
        self.tried = self.went_on = self.wrong = 0
        self.ends: Counter[Union[int, str, None]] = collections.Counter()

    def room_for(self, laboratory: Laboratory) -> str:
        """Returns this worker's room, with the files of the laboratory in it."""
        if getattr(self.mine, "laboratory", None) is not laboratory:
            if not getattr(self.mine, "room", None):
                self.mine.room = tempfile.mkdtemp(dir=self.folder)
            self.mine.laboratory = laboratory
            trials.furnish(self.mine.room, laboratory.files)
        return str(self.mine.room)

    def try_one(self, laboratory: Laboratory, file: str, place: int, way: str) -> None:
        room = self.room_for(laboratory)
        chance = random.Random(f"{self.seed} {laboratory.name} {file} {place} {way}")
        files = {**laboratory.files, file: damaged(laboratory.files[file], place, way, chance)}
        trials.put(room, {file: files[file]})
        script = next(it for it in laboratory.words[1:] if it in laboratory.files)
        check, run = [self.program, "check", script], [self.program, *laboratory.words]
        checked, ran = Answer(room, check), Answer(room, run)
        wrong = [f"check {it}" for it in checked.wrong(files)] + [f"run {it}" for it in ran.wrong(files)]
        if checked.status is None:
            seconds = seconds_of(room, check)
            wrong += [f"check takes {seconds:.1f} s"] if seconds > SECONDS else []
        elif disagree(checked, ran, files):
            ends = [f"{it.status} {it.printed[-80:]!r}" for it in (checked, ran)]
            wrong.append(f"check ends with {ends[0]}, run with {ends[1]}")
        self.count(ran, bool(wrong))
        if has(b"Save", files):
            trials.furnish(room, files)
        for it in wrong:
            kept = tempfile.mkdtemp(prefix="lab-mangled-")
            shutil.copytree(room, kept, dirs_exist_ok=True)
            said = " ".join(laboratory.words)
            print(f"{laboratory.name}: byte {place} of {file} {way}: lab {said} in {kept}: {it}", flush=True)
        trials.put(room, {file: laboratory.files[file]})

    def count(self, ran: Answer, is_wrong: bool) -> None:
        with self.lock:
            self.tried += 1
            self.went_on += ran.status is None
            self.wrong += is_wrong
            self.ends[ran.refusal[3].decode() if ran.refusal else ran.status] += 1

    def try_all(self, damages: Damages, numbers: Sequence[int]) -> None:
        """Tries the damages of these numbers."""
        with concurrent.futures.ThreadPoolExecutor(trials.lanes()) as workers:
            for at in range(0, len(numbers), BATCH):
                list(workers.map(lambda it: self.try_one(*damages.damage(it)), numbers[at : at + BATCH]))


def main(words: List[str]) -> int:
    end_unless(len(words) < 3, USAGE)
    count = number_of(words[0], USAGE) if words else None
    seed = words[1] if words[1:] else "1"
    program = path_of_program()
    damages = Damages(laboratories())
    numbers: Sequence[int] = range(damages.count())
    if count is not None:
        if count > len(numbers):
            end_wrong(f"there are only {len(numbers)} such files, not {count}")
        numbers = sorted(random.Random(seed).sample(numbers, count))
    trials.unwind_at_ends()
    with Room("lab-mangle-") as room:
        trial = Trial(program, seed, room.path)
        trial.try_all(damages, numbers)
    if count is None:
        print(f"{trial.tried} damaged files, {trial.went_on} runs ended after a second, {trial.wrong} answers wrong")
        print(", ".join(f"{cause}: {number}" for cause, number in sorted(trial.ends.items(), key=str)))
    return 1 if trial.wrong else 0
