"""Tries tools/snapshot and tools/where on damaged snapshots and ELF files: those of data/where, with some bytes or a
count changed, or cut off: DAMAGED snapshots, 150 if that is not set, and half as many ELF files, from the seed SEED.

A snapshot that `lab check` refuses is reported as `no snapshot of lab` in one line, and each other one is shown. A
damaged ELF file is a warning of a report. A stand-in shows what becomes of faults of pyelftools. The program is that of
LAB, or else the one that ./lab runs. A damaged file that is not reported so is kept in a folder, which the test names.
"""
import contextlib
import dataclasses
import io
import os
import pathlib
import random
import shutil
import subprocess
import sys
import tempfile
import traceback
import types
from typing import Any, Callable, Dict, Iterator, List
from unittest import mock

from labdev import cut_labs
from labdev.pythons import with_pyelftools
from labtools import snapshot as snapshot_tool, where as where_tool
from labtools.boards import snapshot
from labtools.common.program import TOP, path_of_program
from labtools.elf.elf import is_readable
from tests.commands import Room

DATA = TOP / "python/tests/data/where"

COUNT = int(os.environ.get("DAMAGED", "150"))
SEED = os.environ.get("SEED", "1")
# Values that a byte of a number, of a count or of a variant is set to.
VALUES = 0, 1, 2, 3, 4, 15, 16, 0x7F, 0x80, 0xFF
ELF_HEADER = 52
IMAGES = "asker=x.elf", "answerer=x.elf"


@dataclasses.dataclass(frozen=True)
class Said:
    """How a script of tools/ has ended, and what it has printed. Its status is none where a fault of Python ended it,
    which `told` has."""

    status: Any
    printed: str
    told: str


TOOLS = {"snapshot": snapshot_tool, "where": where_tool}


def said_by(name: str, *words: str) -> Said:
    """Runs a script in this process, since a process each would take most of the time."""
    printed, told, status = io.StringIO(), io.StringIO(), 0
    with contextlib.redirect_stdout(printed), contextlib.redirect_stderr(told):
        with mock.patch.object(sys, "argv", [str(TOP / "tools" / name), *words]):
            try:
                TOOLS[name].main(list(words))
            except SystemExit as ended:
                status = ended.code if isinstance(ended.code, int) else 1
                told.write("" if isinstance(ended.code, int) else f"{ended.code}\n")
            except Exception as fault:
                last = traceback.extract_tb(fault.__traceback__)[-1]
                return Said(None, "", f"{type(fault).__name__}: {fault}, {last.filename}:{last.lineno}")
    return Said(status, printed.getvalue(), told.getvalue())


def damaged(data: bytes, places: List[int], chance: random.Random) -> bytes:
    """Returns the bytes with one to four of them changed at these places, or cut off."""
    new = bytearray(data)
    if chance.random() < 0.1:
        return bytes(new[: chance.randrange(len(new))])
    for _ in range(chance.choice((1, 1, 1, 2, 4))):
        at = chance.choice(places)
        new[at] = chance.choice([*VALUES, new[at] ^ 1 << chance.randrange(8)])
    return bytes(new)


# ---- snapshots


def kept(name: str) -> bytes:
    """Returns the snapshot NAME.snap of a script of data/where at its end."""
    lines = (DATA / f"{name}.resc").read_text().split("quit\n")[0]
    pathlib.Path("keep.resc").write_text(f"{lines}Save @{name}.snap\n")
    how: Dict[str, Any] = {"stdout": subprocess.DEVNULL, "stdin": subprocess.DEVNULL}
    subprocess.run([os.environ["LAB"], "run", "keep.resc"], check=True, **how)
    return pathlib.Path(f"{name}.snap").read_bytes()


def damaged_snapshots(whole: List[bytes], count: int, chance: random.Random) -> Iterator[bytes]:
    """Yields damaged snapshots. Pages of memory, in which a change is no damage, stay as they are."""
    for data in whole:
        _, reader = snapshot.read(data)
        pages = cut_labs.pages_in(reader)
        places = [at for at in range(len(data)) if not cut_labs.is_in_a_page(at, pages)]
        for number in range(count // 2):
            # one of four in a count, of which its lowest byte tells most
            yield damaged(data, places if number % 4 else reader.counts, chance)


def is_refused(name: str) -> bool:
    """Whether lab refuses a snapshot."""
    pathlib.Path("load.resc").write_text(f"Load @{name}\n")
    words = [os.environ["LAB"], "check", "load.resc"]
    ran = subprocess.run(words, stdin=subprocess.DEVNULL, stdout=subprocess.PIPE, stderr=subprocess.DEVNULL)
    return ran.stdout == b"error: load.resc:1: S20 snapshot\n"


def is_told(said: Said, tool: str, data: bytes) -> bool:
    """Whether a line says that a file is no snapshot, and nothing else is printed. tools/where takes for a script what
    does not begin as one."""
    has_words = said.told.startswith(f"tools/{tool}: x: no snapshot of lab: ")
    is_script = tool == "where" and not data.startswith(b"LABSNAP1")
    return (has_words or is_script) and (said.status, said.printed, said.told.count("\n")) == (1, "", 1)


def wrong_with_snapshot(data: bytes) -> Iterator[str]:
    """Yields what the scripts say otherwise of a snapshot than lab does."""
    pathlib.Path("x").write_bytes(data)
    is_wanted = is_refused("x")
    for tool in TOOLS:
        said = said_by(tool, "x")
        is_shown = said.status == 0 and said.printed != "" and said.told == ""
        if not (is_told(said, tool, data) if is_wanted else is_shown):
            yield f"tools/{tool} of a snapshot that lab {'refuses' if is_wanted else 'takes'}: {said}"
    with mock.patch.dict(os.environ, LAB="/none/lab"):
        for tool in TOOLS:
            said = said_by(tool, "x")
            if not (said.status == 0 or is_told(said, tool, data)):
                yield f"tools/{tool} of a snapshot, without lab: {said}"


# ---- ELF files


def damaged_elf_files(count: int, chance: random.Random) -> Iterator[bytes]:
    """Yields damaged files. The header and what stands behind the code, which has a small part, are damaged most."""
    for name in "ask.elf", "work.elf":
        data = (DATA / name).read_bytes()
        parts = [range(ELF_HEADER), range(len(data)), range(len(data) // 2, len(data))]
        for number in range(count // 2):
            yield damaged(data, list(parts[number % 3]), chance)


def wrong_with_elf_file(data: bytes) -> Iterator[str]:
    pathlib.Path("x.elf").write_bytes(data)
    said = said_by("where", "ask.snap", *IMAGES)
    if said.status != 0 or said.told:
        yield f"tools/where with a damaged ELF file: {said}"
    if len(data) < ELF_HEADER or data[:6] != b"\x7fELF\1\1" or is_cut(data):
        if said.printed.count("  warning: x.elf: ") != len(IMAGES):
            yield f"tools/where does not tell a file that is cut off, or none: {said}"


def is_cut(data: bytes) -> bool:
    """Whether a file ends before the last header of its sections, which stand at its end."""
    at, count = (int.from_bytes(data[place:end], "little") for place, end in ((32, 36), (48, 50)))
    return len(data) < at + 40 * count


# ---- a stand-in of pyelftools


def raises(fault: Exception) -> Callable[..., Any]:
    def call(*_: object) -> None:
        raise fault

    return call


def stand_in(stage: str, fault: Exception) -> Dict[str, types.ModuleType]:
    """Returns the modules of a pyelftools of which one call fails."""
    dwarf = types.SimpleNamespace(
        has_CFI=lambda: False, has_EH_CFI=lambda: False, has_debug_info=True, iter_CUs=lambda: iter(())
    )
    calls: Dict[str, Callable[..., Any]] = {
        "ELFFile": lambda _: types.SimpleNamespace(**calls),
        "iter_segments": lambda: iter(()),
        "iter_sections": lambda: iter(()),
        "get_section_by_name": lambda _: None,
        "has_dwarf_info": lambda: True,
        "get_dwarf_info": lambda: dwarf,
    }
    (dwarf.__dict__ if hasattr(dwarf, stage) else calls)[stage] = raises(fault)
    file = types.ModuleType("elftools.elf.elffile")
    file.__dict__.update({"ELFFile": calls["ELFFile"]})
    told = types.ModuleType("elftools.common.exceptions")
    told.__dict__.update({"ELFError": NotImplementedError})
    packages = ("elftools", "elftools.elf", "elftools.common")
    return {it.__name__: it for it in (*map(types.ModuleType, packages), file, told)}


def wrong_with_faults() -> Iterator[str]:
    """Yields where a fault of pyelftools is not told as a warning, with its words."""
    shutil.copy(DATA / "ask.elf", "x.elf")
    stages = "ELFFile", "iter_sections", "get_section_by_name", "get_dwarf_info", "has_EH_CFI", "iter_CUs"
    for stage in stages:
        for fault in AttributeError("no such thing"), KeyError(110), AssertionError(), RecursionError("too deep"):
            with mock.patch.dict(sys.modules, stand_in(stage, fault)):
                said = said_by("where", "ask.snap", *IMAGES)
            line = f"  warning: x.elf: cannot be read: {type(fault).__name__}: {fault}"
            if said.status != 0 or said.printed.splitlines().count(line) != len(IMAGES):
                yield f"tools/where where {stage} of pyelftools fails, without the line '{line}': {said}"


# ---- all of it


def kept_room() -> str:
    """Keeps the damaged files of this moment, and returns their folder."""
    folder = tempfile.mkdtemp(prefix="lab-damaged-")
    shutil.copytree(".", folder, dirs_exist_ok=True)
    return folder


class InRoom(Room):
    """In a folder with what data/where has, and a snapshot of each of its laboratories."""

    def setUp(self) -> None:
        super().setUp()
        shutil.copytree(DATA, self.room, dirs_exist_ok=True)
        self.enter()
        self.given = {"LAB": path_of_program()}
        setting = mock.patch.dict(os.environ, self.given)
        setting.start()
        self.addCleanup(setting.stop)
        self.kept = [kept(name) for name in ("ask", "work")]

    def assert_well(self, faults: Iterator[str]) -> None:
        for fault in faults:
            with self.subTest(fault=fault, room=kept_room()):
                self.fail()


class Snapshots(InRoom):
    def test_a_damaged_one_is_told_in_a_line(self) -> None:
        for data in damaged_snapshots(self.kept, COUNT, random.Random(f"snapshots {SEED}")):
            self.assert_well(wrong_with_snapshot(data))


class ElfFiles(InRoom):
    """No program is asked here: the snapshot is a whole one."""

    def setUp(self) -> None:
        super().setUp()
        os.environ["LAB"] = "/none/lab"

    def test_a_damaged_one_is_a_warning(self) -> None:
        if not is_readable():
            self.run_where_pyelftools_are()
            return
        for data in damaged_elf_files(COUNT // 2, random.Random(f"ELF files {SEED}")):
            self.assert_well(wrong_with_elf_file(data))

    def run_where_pyelftools_are(self) -> None:
        """Runs this test by another Python."""
        python = with_pyelftools()
        if python is None:
            self.skipTest("damaged ELF files, without pyelftools")
        words = [python, "-m", "unittest", "-q", "tests.test_damaged.ElfFiles.test_a_damaged_one_is_a_warning"]
        env = {**os.environ, **self.given}
        ran = subprocess.run(words, cwd=TOP / "python", env=env, capture_output=True, text=True, check=False)
        self.assertEqual(ran.returncode, 0, ran.stderr)

    def test_each_fault_of_pyelftools_is_a_warning(self) -> None:
        self.assert_well(wrong_with_faults())
