"""What the tests of scripts share: the program, what tools/explain says, boards, and ELF files."""
import contextlib
import functools
import io
import struct
import subprocess
from typing import Dict, List

from labtools import explain
from labtools.common.program import path_of_program
from tests.commands import Content, Room

Files = Dict[str, Content]

RAM = "ram: Memory.MappedMemory @ sysbus 0x80000000 { size: 0x10000 }\n"
UART = "uart: UART.NS16550 @ sysbus 0x10000000\n"
CPU = 'cpu: CPU.RiscV32 @ sysbus { cpuType: "rv32im" }\n'


@functools.lru_cache(maxsize=None)
def lab() -> str:
    """The program: that of LAB, or else the one that ./lab runs."""
    return path_of_program()


class Explained(Room):
    """A test of what tools/explain says, in a folder from which paths are taken. It is a part of the test, to take less
    time."""

    def setUp(self) -> None:
        super().setUp()
        self.enter()

    def explained(self, status: int, *words: str) -> List[str]:
        """What is said after a run with these words, which ends with this status."""
        ran = subprocess.run([lab(), *words], stdout=subprocess.PIPE, check=False)
        self.printed = ran.stdout.decode(errors="replace")
        self.assertEqual(ran.returncode, status, self.printed)
        said = io.StringIO()
        with contextlib.redirect_stderr(said):
            explain.main([lab(), str(status), *words])
        return said.getvalue().splitlines()


def elf(flags: int = 0, segments: int = 1, **changes: int) -> bytes:
    """An ELF file for RISC-V whose entry is 0x80000000, with a segment of no bytes or with none. Each change is a
    number of 16 bits at a place, as at24=2."""
    head = b"\x7fELF\x01\x01\x01".ljust(16, b"\0")
    head += struct.pack("<HHIIIIIHHHHHH", 2, 243, 1, 0x80000000, 52, 0, flags, 52, 32, segments, 0, 0, 0)
    held = bytearray(head + struct.pack("<8I", 1, 84, 0x80000000, 0x80000000, 0, 4, 5, 4) * segments)
    for place, value in changes.items():
        struct.pack_into("<H", held, int(place[2:]), value)
    return bytes(held)
