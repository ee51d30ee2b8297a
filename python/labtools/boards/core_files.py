"""ELF core files of boards, as gdb reads them for a processor without an operating system: a note NT_PRSTATUS for each
hart, which is a thread to gdb; a description of the registers; the CSRs of each hart, in the order of the description;
and what the memories hold. gdb has these layouts in riscv-none-tdep.c and bfd/elfnn-riscv.c.
"""
import contextlib
import itertools
import os
import pathlib
import struct
from dataclasses import dataclass
from typing import Dict, Iterable, List, Optional

from labtools.boards.machine import ABI_NAMES, Hart, Machine, Region, there
from labtools.boards.snapshot import PAGE, NoSnapshot
from labtools.common import plain_files, rooms

HEADER, SEGMENT = struct.Struct("<16sHHIIIIIHHHHHH"), struct.Struct("<8I")
IDENT = b"\x7fELF\x01\x01\x01".ljust(16, b"\0")
CORE, RISCV, HAS_COMPRESSED = 4, 243, 1
LOAD, NOTE, EVERY_RIGHT = 1, 4, 7
# The number of the process (pr_pid), pc and x1 to x31, each where gdb looks for it in the 204 bytes.
PRSTATUS = struct.Struct("<24xI44x32I4x")
NT_PRSTATUS, NT_RISCV_CSR, NT_GDB_TDESC = 1, 0x900, 0xFF000000
POINTERS = {name: "data_ptr" for name in ("sp", "gp", "tp", "s0")}
POINTERS.update({name: "code_ptr" for name in ("ra", "pc", "mtvec", "mepc")})
# What the memories of a board may have together (docs/PLATFORMS.md), and how many pages of zeros a segment has at most.
MEMORY_LIMIT = 64 * 2**20
ZERO_PAGES = 16


class Refused(Exception):
    """Why no core file is written."""


@dataclass(frozen=True)
class Segment:
    """Some of a memory's bytes at their address; `data` is None where all are 0."""

    address: int
    size: int
    data: Optional[bytes]


def segments_of(region: Region) -> List[Segment]:
    """Returns all bytes of a memory: gdb takes what a core lacks from the ELF file of the firmware, also where a
    segment is said to be longer in memory than in the core."""
    found = []
    pages = range(-(-region.size // PAGE))
    for stretch, run in itertools.groupby(pages, lambda it: -1 if it in region.pages else it // ZERO_PAGES):
        numbers = list(run)
        at = numbers[0] * PAGE
        address, size = region.base + at, min(len(numbers) * PAGE, region.size - at)
        found.append(Segment(address, size, region.read(address, size) if stretch < 0 else None))
    return found


def csrs_of(machine: Machine, hart: Hart) -> Dict[str, int]:
    """Returns the CSRs of docs/DEVICES.md as an instruction of the next slot reads them."""
    state, letters = hart.state, hart.state["letters"]
    has_timer = there(machine.plan["frequency"]) and there(machine.state["timer"])
    time = machine.mtime(there(machine.state["timer"])) if has_timer else 0
    values = {
        "mstatus": 0x1800 | state["mie_bit"] << 3 | state["mpie_bit"] << 7,
        "mstatush": 0,
        "misa": 0x40001100 | letters["a"] | letters["c"] << 2,
        **{name: state[name] for name in ("mie", "mtvec", "mscratch", "mepc", "mcause", "mtval")},
        "mip": sum(1 << pin for pin in machine.pending(hart)),
        **dict.fromkeys(("mvendorid", "marchid", "mimpid"), 0),
        "mhartid": state["number"],
    }
    counters = {"mcycle": state["mcycle"], "minstret": state["minstret"], "time": time}
    counters.update(cycle=state["mcycle"], instret=state["minstret"])
    for name, value in counters.items():
        values.update({name: value & 0xFFFFFFFF, f"{name}h": value >> 32})
    return values


def description(csrs: Iterable[str]) -> bytes:
    """Returns what gdb is to know of the registers, and that there is no operating system: the gdb of Debian expects
    Linux, and shows no CSRs then."""

    def feature(name: str, registers: Iterable[str], kind: str) -> str:
        lines = [f'<reg name="{it}" bitsize="32" type="{POINTERS.get(it, kind)}"/>' for it in registers]
        return f'<feature name="org.gnu.gdb.riscv.{name}">{"".join(lines)}</feature>'

    features = feature("cpu", [*ABI_NAMES, "pc"], "int") + feature("csr", csrs, "uint32")
    head = '<?xml version="1.0"?><!DOCTYPE target SYSTEM "gdb-target.dtd"><target version="1.0">'
    return f"{head}<architecture>riscv:rv32</architecture><osabi>none</osabi>{features}</target>\0".encode()


def note(owner: str, kind: int, data: bytes) -> bytes:
    parts = f"{owner}\0".encode(), data
    padded = [part + bytes(-len(part) % 4) for part in parts]
    return struct.pack("<3I", *map(len, parts), kind) + b"".join(padded)


# The first note of each core, by which one is known that may be replaced. Its kind is none that gdb knows.
MARK = note("lab", 0x6C6162, b"")


def notes_of(machine: Machine) -> bytes:
    """Returns the notes of a board. A hart is the thread of the number above its own, since gdb knows no thread 0."""
    notes = [MARK]
    for hart in machine.harts:
        csrs = csrs_of(machine, hart)
        registers = PRSTATUS.pack(hart.number + 1, hart.pc, *hart.registers[1:])
        notes.append(note("CORE", NT_PRSTATUS, registers))
        notes += [note("GDB", NT_GDB_TDESC, description(csrs))] * (hart.number == 0)
        notes.append(note("GDB", NT_RISCV_CSR, struct.pack(f"<{len(csrs)}I", *csrs.values())))
    return b"".join(notes)


def core_of(machine: Machine) -> bytes:
    """Returns the core file of a board. All segments of zeros share the bytes of the longest one."""
    if sum(region.size for region in machine.memory.regions) > MEMORY_LIMIT:
        raise NoSnapshot(f"a board has more than {MEMORY_LIMIT} bytes of memory")
    segments = [it for region in machine.memory.regions for it in segments_of(region)]
    notes, count = notes_of(machine), 1 + len(segments)
    flags = HAS_COMPRESSED * any(hart.state["letters"]["c"] for hart in machine.harts)
    sizes = HEADER.size, SEGMENT.size, count, 0, 0, 0
    parts = [HEADER.pack(IDENT, CORE, RISCV, 1, 0, HEADER.size, 0, flags, *sizes)]
    notes_at = HEADER.size + SEGMENT.size * count
    zeros_at = notes_at + len(notes)
    zeros = bytes(max((it.size for it in segments if it.data is None), default=0))
    at = zeros_at + len(zeros)
    parts.append(SEGMENT.pack(NOTE, notes_at, 0, 0, len(notes), 0, 0, 4))
    for it in segments:
        offset = zeros_at if it.data is None else at
        parts.append(SEGMENT.pack(LOAD, offset, it.address, it.address, it.size, it.size, EVERY_RIGHT, 1))
        at += len(it.data or b"")
    return b"".join([*parts, notes, zeros, *(it.data for it in segments if it.data)])


def is_core(path: pathlib.Path) -> bool:
    """Whether a file is a core file that was written here."""
    with plain_files.opened(path) as file:
        head = file.read(HEADER.size + SEGMENT.size)
        if len(head) < HEADER.size + SEGMENT.size or head[: len(IDENT)] != IDENT:
            return False
        file.seek(SEGMENT.unpack_from(head, HEADER.size)[1])
        return file.read(len(MARK)) == MARK


def check(folder: pathlib.Path, names: Iterable[str]) -> None:
    """Refuses a folder that is none, and files of these names in it that are no core files."""
    if os.path.lexists(folder) and not folder.is_dir():
        raise Refused(f"{folder}: it is not a folder")
    for path in (folder / name for name in names):
        if os.path.lexists(path) and not (path.is_file() and is_core(path)):
            raise Refused(f"{path}: it is not a core of a board, and is not replaced")


def write(folder: pathlib.Path, files: Dict[str, bytes]) -> None:
    """Writes files into a folder, which is made if it is not there: all of them, or none where that fails."""
    try:
        check(folder, files)
        if folder.is_dir():
            put(folder, files)
            return
        folder.mkdir()
        try:
            put(folder, files)
        except BaseException:
            with contextlib.suppress(OSError):
                folder.rmdir()
            raise
    except OSError as fault:
        raise Refused(f"{folder}: {fault.strerror}") from fault


def put(folder: pathlib.Path, files: Dict[str, bytes]) -> None:
    with rooms.Room(".lab-core-", folder) as room:
        for name, data in files.items():
            (room.path / name).write_bytes(data)
        for name in files:
            os.replace(room.path / name, folder / name)
