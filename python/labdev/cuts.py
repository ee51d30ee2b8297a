"""Tests `Save` and `Load`: cuts laboratories in two, and damages snapshots.

    tools/cuts

Each demo is cut at each of its commands. One run takes the commands before it and `Save`, and a new run `Load` and the
rest, with one, two and eight workers. Together they must print and end as the whole script does. `start` runs to 0.02
seconds. What is loaded is saved again, and must give the same bytes. Both halves print the lines that are open at the
cut; those of the first half are ignored. A laboratory of sixteen boards is cut in the same way, at many times. It has
everything: four processors, one halted, one waiting and one with a reservation, a claimed interrupt, full FIFOs, bytes
and frames in flight, held frames, and open lines.

Two snapshots are then damaged. One has less than 2 KB and no page of memory: a board of two processors, a timer, an
interrupt controller, a UART and a CAN controller that hold something, a board with only the two devices, hubs with
delays, a byte and a frame in flight, and open lines. Each of its bytes is changed in two ways, and it is cut off at
each length. The other has 9 KB: two boards with a hub, a byte in flight and an open line. All its bytes and lengths
outside pages of memory are tried, and each 97th inside them; a page has only zeros, pages do not rise, or one comes
twice. To both a byte is added, and each count of a list becomes 2^64 - 1. Each must be refused as S20, or be a
laboratory that is saved again as exactly those bytes, and no memory may be taken for a count that the bytes cannot
hold. A snapshot of 64 MiB is saved and loaded; one with a byte more is refused as S19, and so is a file of that size.

It prints only what is wrong. It ends with 0; with 1 if something was wrong; and with 2 if it is given arguments.
"""
import concurrent.futures
import contextlib
import dataclasses
import itertools
import os
import pathlib
import queue
import re
import subprocess
import tempfile
from typing import Callable, Iterable, Iterator, List, Optional, Set, Tuple

from labdev import cut_labs, trials
from labdev.cases import Files
from labdev.cut_labs import board, is_in_a_page, pages_in
from labtools.boards import snapshot
from labtools.common.program import TOP, end_unless, path_of_program
from labtools.scripts import resc

MOST = 64 * 2**20
# What the program may have of memory where a snapshot of some kilobytes is taken back.
LITTLE_KIB = 40 * 2**10
# How far `start` runs, which takes a second of a processor and more where nothing is said.
UNTIL = "--until", "0.02"
# A shell takes so many damaged snapshots one after another, since Python would take longer to start each run than the
# run takes. It prints what each run prints, its status, and a zero byte.
BATCH = 50
TAKE_EACH = """ulimit -v "$1"
at=0
while [ "$at" -lt "$2" ]; do
  "$3" run "$at.resc" 2>&1 </dev/null
  printf ' %d\\0' "$?"
  at=$((at + 1))
done"""

FENCE = '"""'
# What a run has printed, and its status.
Answer = Tuple[bytes, Optional[int]]
# Lines of a script that belong together, and whether they are a command or set a variable or a macro.
Item = Tuple[List[str], bool]
# What was done to a snapshot, its bytes then, and whether it has to be refused.
Damaged = Tuple[str, bytes, bool]


@dataclasses.dataclass(frozen=True)
class Room:
    """A folder in which the program runs. Paths of the demos are found in it."""

    program: str
    path: str

    def write(self, name: str, data: bytes) -> None:
        trials.put(self.path, {name: data})

    def read(self, name: str) -> bytes:
        return (pathlib.Path(self.path) / name).read_bytes()

    def run(self, script: List[str], *words: str) -> Answer:
        """Runs a script of these lines."""
        self.write("s.resc", "".join(f"{line}\n" for line in script).encode())
        how = [self.program, "run", "s.resc", *UNTIL, *words]
        ended = trials.run(how, self.path, None, stderr=subprocess.STDOUT)
        return ended.printed, ended.status

    def take_each(self, snapshots: List[bytes]) -> List[Answer]:
        """Takes each of these snapshots and saves it again as `0.y` and so on, in little memory."""
        for at, data in enumerate(snapshots):
            self.write(f"{at}.x", data)
        words = ["sh", "-c", TAKE_EACH, "sh", str(LITTLE_KIB), str(len(snapshots)), self.program]
        answers = [it.rpartition(b" ") for it in trials.run(words, self.path, None).printed.split(b"\0")[:-1]]
        return [(printed, int(status)) for printed, _, status in answers]


@contextlib.contextmanager
def new_room(program: str) -> Iterator[Room]:
    with tempfile.TemporaryDirectory(prefix="lab-cuts-") as path:
        os.symlink(f"{TOP}/demo", f"{path}/demo")
        trials.put(path, {f"{at}.resc": f"Load @{at}.x\nSave @{at}.y\n".encode() for at in range(BATCH)})
        yield Room(program, path)


def items_of(text: str) -> List[Item]:
    """Returns the items of a script, with those of the files that it includes in their places."""
    items: List[Item] = []
    for item in resc.items_of(resc.numbered(text)):
        words = resc.words_of(item.line.text)
        included = resc.path_of(words[1]) if words[0] == "include" else None
        if included:
            items += items_of((TOP / included).read_text(encoding="utf-8"))
        elif isinstance(item, resc.Define):
            body = [line.text for line in item.body]
            items.append(([f"macro {item.name}", FENCE, *body, FENCE], False))
        else:
            items.append(([item.line.text], isinstance(item, resc.Command)))
    return items


def lines_in(items: Iterable[Item]) -> List[str]:
    return list(itertools.chain.from_iterable(lines for lines, _ in items))


def front_of(printed: bytes, open_lines: int) -> bytes:
    """Returns what a run has printed before the open lines at its end."""
    lines = printed.splitlines(keepends=True)
    return b"".join(lines[: len(lines) - open_lines])


def selected_after(item: Item, names: List[str], before: int, selected: Optional[str]) -> Optional[str]:
    """Returns which board is selected after an item that leaves boards of these names."""
    found = re.match(r"\s*mach\s+set\s+(\S+)", item[0][0])
    if found:
        return found[1]
    return f'"{names[-1]}"' if len(names) > before else selected


class Cuts:
    """A script, which is cut at each of its commands."""

    def __init__(self, room: Room, name: str, text: str, files: Files) -> None:
        trials.put(room.path, files)
        self.room = room
        self.name = name
        self.items = items_of(text)
        self.whole = room.run(lines_in(self.items))

    def wrong(self) -> Iterator[str]:
        """Yields what is wrong with each cut, up to the first command that ends the script, or is refused as it is."""
        selected, boards = None, 0
        for at, item in enumerate(self.items):
            if not item[1]:
                continue
            if item[0][0].strip() == "quit":
                return
            first, status = self.room.run([*lines_in(self.items[: at + 1]), "Save @x"])
            if status != 0:
                return
            kept = self.room.read("x")
            held, _ = snapshot.read(kept)
            names = [board["name"] for board in held["boards"]]
            selected = selected_after(item, names, boards, selected)
            boards = len(names)
            yield from self.wrong_at(at, front_of(first, len(held["open_lines"])), selected, kept)

    def wrong_at(self, at: int, front: bytes, selected: Optional[str], kept: bytes) -> Iterator[str]:
        """Yields what is wrong where it is cut behind this item. `front` is what was printed before."""
        command = self.items[at][0][0]
        if self.room.run(["Load @x", "Save @y"])[1] != 0 or self.room.read("y") != kept:
            yield f"{self.name}: a loaded laboratory is saved as other bytes, after: {command}"
        rest = [*lines_in(it for it in self.items[: at + 1] if not it[1]), "Load @x"]
        rest += [f"mach set {selected}"] if selected else []
        rest += lines_in(self.items[at + 1 :])
        for workers in "1", "2", "8":
            printed, status = self.room.run(rest, "--workers", workers)
            if (front + printed, status) != self.whole:
                yield f"{self.name}: continues differently with {workers} workers, after: {command}"


def wrong_cuts(program: str, name: str, text: str, files: Files) -> List[str]:
    with new_room(program) as room:
        return list(Cuts(room, name, text, files).wrong())


def try_missing(room: Room) -> Iterator[str]:
    """Yields what no cut of the laboratory of all shows."""
    lines, files = cut_labs.everything()
    trials.put(room.path, files)
    lacks: List[Set[str]] = []
    for at in [at for at, line in enumerate(lines) if line.startswith("emulation RunFor")]:
        room.run([*lines[: at + 1], "Save @x"])
        lacks.append(cut_labs.missing(room.read("x")))
    for lack in sorted(set.intersection(*lacks)):
        yield f"the laboratory of sixteen boards never shows {lack}"


def sample(room: Room) -> bytes:
    """Makes a snapshot of two boards, a hub, a byte under way and an open line."""
    lines = lines_in(items_of((TOP / "demo/slow/s.resc").read_text(encoding="utf-8")))
    made = [line for line in lines if not re.match(r"\s*emulation\s+(RunFor|SetGlobal)", line)]
    room.run([*made, 'emulation SetGlobalQuantum "0.000001"', 'emulation RunFor "0.000020"', "Save @x"])
    return room.read("x")


def with_bytes(data: bytes, at: int, new: bytes) -> bytes:
    return data[:at] + new + data[at + len(new) :]


def damaged(name: str, data: bytes, reader: snapshot.Reader, is_tried: Callable[[int], bool]) -> Iterator[Damaged]:
    """Yields damaged snapshots. Bytes are changed, and it is cut off, at the places that are tried."""
    places = [at for at in range(len(data)) if is_tried(at)]
    for at in places:
        for mask in 1, 0x80:
            yield f"{name}: byte {at} changed by {mask}", with_bytes(data, at, bytes([data[at] ^ mask])), False
        yield f"{name}: cut off at {at}", data[:at], True
    yield f"{name}: a byte more", data + b"\0", True
    for at in reader.counts:
        yield f"{name}: count at {at} of 2^64 - 1", with_bytes(data, at, b"\xff" * 8), True


def damaged_pages(name: str, data: bytes, first: int) -> Iterator[Damaged]:
    """Yields snapshots in which the pages of a memory are damaged, of which the first begins here."""
    own = data[first - 4 : first + snapshot.PAGE]
    later = (1).to_bytes(4, "little") + data[first : first + snapshot.PAGE]
    yield f"{name}: a page of zeros", with_bytes(data, first, bytes(snapshot.PAGE)), True
    yield f"{name}: a page twice", with_pages(data, first, 2, own * 2), True
    yield f"{name}: two pages", with_pages(data, first, 2, own + later), False
    yield f"{name}: two pages that fall", with_pages(data, first, 2, later + own), True


def all_damaged(small: bytes, larger: bytes) -> Iterator[Damaged]:
    """Yields both snapshots damaged."""
    _, reader = snapshot.read(small)
    yield from damaged("the small one", small, reader, lambda at: True)
    _, reader = snapshot.read(larger)
    pages = pages_in(reader)
    yield from damaged("the larger one", larger, reader, lambda at: not is_in_a_page(at, pages) or at % 97 == 0)
    yield from damaged_pages("the larger one", larger, pages[0])


def with_pages(data: bytes, first: int, count: int, pages: bytes) -> bytes:
    """Returns the bytes with so many pages in the place of one, which begins there."""
    return data[: first - 12] + count.to_bytes(8, "little") + pages + data[first + snapshot.PAGE :]


def try_damaged(rooms: "queue.Queue[Room]", jobs: List[Damaged]) -> List[str]:
    """Returns what is wrong with how damaged snapshots are taken."""
    room = rooms.get()
    try:
        answers = room.take_each([data for _, data, _ in jobs])
        wrong = [wrong_with(room, at, job, answer) for at, (job, answer) in enumerate(zip(jobs, answers))]
        return [*filter(None, wrong), *["not every damaged snapshot was tried"] * (len(answers) != len(jobs))]
    finally:
        rooms.put(room)


def wrong_with(room: Room, at: int, job: Damaged, answer: Answer) -> Optional[str]:
    """Returns what is wrong with how a snapshot of such a number was taken, or None."""
    what, data, is_refused = job
    printed, status = answer
    if (printed, status) == (f"error: {at}.resc:1: S20 snapshot\n".encode(), 3):
        return None
    if status != 0 or is_refused or room.read(f"{at}.y") != data:
        return f"a damaged snapshot, {what}, ends with {status}: {printed[:200]!r}"
    return None


def batches(jobs: Iterator[Damaged]) -> Iterator[List[Damaged]]:
    return iter(lambda: list(itertools.islice(jobs, BATCH)), [])


def try_large(room: Room) -> Iterator[str]:
    """Yields what is wrong with how large files are taken."""
    for size, text in (MOST, b"S20 snapshot"), (MOST + 1, b"S19 size"):
        with open(f"{room.path}/x", "wb") as file:
            file.truncate(size)
        printed, status = room.run(["Load @x"])
        if (printed, status) != (b"error: s.resc:1: " + text + b"\n", 3):
            yield f"a file of {size} bytes ends with {status}: {printed[:200]!r}"


def filled(pages: int, more: int) -> List[str]:
    """Returns a script that keeps so many pages of memory, and so many bytes more, which a hub's name has."""
    lines = board("m", "ram.repl")
    for first in range(0, pages, 4096):
        lines.append(f"sysbus LoadBinary @pages{min(4096, pages - first)} 0x{0x80000000 + first * snapshot.PAGE:x}")
    return lines + [f"emulation CreateUARTHub {'h' * (more - 21)}", "Save @x"]


def try_largest(room: Room) -> Iterator[str]:
    """Yields what is wrong with how a snapshot of 64 MiB is kept and taken back, and one of a byte more."""
    ram = "ram: Memory.MappedMemory @ sysbus 0x80000000 { size: 0x4000000 }\n"
    room.write("ram.repl", (ram + 'cpu: CPU.RiscV32 @ sysbus { cpuType: "rv32im" }\n').encode())
    room.write("pages1", b"\1" * snapshot.PAGE)
    room.run(filled(1, 22))
    base = len(room.read("x")) - snapshot.PAGE - 4 - 22
    pages, left = divmod(MOST - base - 22, snapshot.PAGE + 4)
    for count in {4096, pages % 4096}:
        room.write(f"pages{count}", b"\1" * (count * snapshot.PAGE))
    if room.run(filled(pages, left + 22)) != (b"", 0) or len(room.read("x")) != MOST:
        yield "a snapshot of 64 MiB is not saved"
    elif room.run(["Load @x", "Save @y"]) != (b"", 0) or room.read("x") != room.read("y"):
        yield "a snapshot of 64 MiB is not loaded"
    larger = filled(pages, left + 23)
    if room.run(larger) != (f"error: s.resc:{len(larger)}: S19 size\n".encode(), 3):
        yield "a snapshot of more than 64 MiB is saved"
    if room.read("x") != room.read("y"):
        yield "a refused Save changes the file that it names"


def all_wrong(program: str) -> Iterator[str]:
    """Yields what is wrong, and makes the runs side by side."""
    with contextlib.ExitStack() as stack:
        room = stack.enter_context(new_room(program))
        rooms: "queue.Queue[Room]" = queue.Queue()
        for _ in range(trials.lanes()):
            rooms.put(stack.enter_context(new_room(program)))
        pool = stack.enter_context(concurrent.futures.ThreadPoolExecutor(trials.lanes()))
        lines, files = cut_labs.small()
        trials.put(room.path, files)
        room.run(lines)
        small, larger = room.read("x"), sample(room)
        jobs: List[Tuple[str, str, Files]] = [
            (it, (TOP / it).read_text(encoding="utf-8"), {}) for it in trials.scripts_of_demos()
        ]
        lines, files = cut_labs.everything()
        jobs.append(("a laboratory of all", "\n".join(lines), files))
        cuts = pool.map(lambda it: wrong_cuts(program, *it), jobs)
        damages = pool.map(lambda jobs: try_damaged(rooms, jobs), batches(all_damaged(small, larger)))
        yield from itertools.chain.from_iterable(cuts)
        yield from itertools.chain.from_iterable(damages)
        yield from (f"the small snapshot does not show {it}" for it in cut_labs.missing_in_small(small))
        yield from try_missing(room)
        yield from try_large(room)
        yield from try_largest(room)


def main(words: List[str]) -> int:
    end_unless(not words, "")
    return trials.tell_wrong(all_wrong(path_of_program()))
