"""Looks under valgrind whether the program frees each page of its memories, which no clause says.

Three boards whose memories are empty, three with bytes in four pages each, and the latter taken back from a snapshot:
no run may leave a block, and each page takes 4 KiB of the heap that valgrind watches."""
import re
import shutil
from typing import List

from labtools.common.program import path_of_program
from tests.commands import Room

BOARDS = 3
PAGE = 4096
PAGES = 4
PLATFORM = """low: Memory.MappedMemory @ sysbus 0x80000000 { size: 0x100000 }
high: Memory.MappedMemory @ sysbus 0x90000000 { size: 0x100000 }
cpu: CPU.RiscV32 @ sysbus { cpuType: "rv32im" }
"""


def boards(loads: List[str]) -> List[str]:
    """The lines of a script that makes the boards, each with these loads."""
    lines: List[str] = []
    for number in range(BOARDS):
        lines += [f"mach create m{number}", "machine LoadPlatformDescription @board.repl", *loads]
    return lines


class Pages(Room):
    def setUp(self) -> None:
        super().setUp()
        if shutil.which("valgrind") is None:
            self.skipTest("whether each page is freed, without valgrind")
        self.put({"board.repl": PLATFORM, "bytes": b"x" * (PAGE + 1)})

    def taken(self, lines: List[str]) -> int:
        """Runs the program under valgrind, and returns how many bytes it took from the heap."""
        self.write("script", "".join(f"{line}\n" for line in lines))
        words = ["valgrind", "--leak-check=full", "--show-leak-kinds=all", path_of_program(), "run", "script"]
        ran = self.ran(*words)
        told = ran.stderr
        self.assertEqual((ran.returncode, ran.stdout), (0, ""), told)
        self.assertIn("All heap blocks were freed", told)
        self.assertIn("ERROR SUMMARY: 0 errors", told)
        usage = re.search(r"total heap usage: [\d,]+ allocs, [\d,]+ frees, ([\d,]+) bytes allocated", told)
        assert usage, told
        return int(usage[1].replace(",", ""))

    def test_each_page_is_taken_from_the_heap_and_given_back(self) -> None:
        loads = [f"sysbus LoadBinary @bytes {base}" for base in ("0x80000000", "0x900fe000")]
        empty = self.taken(boards([]))
        full = self.taken([*boards(loads), "Save @kept"])
        loaded = self.taken(["Load @kept"])
        pages = BOARDS * PAGES * PAGE
        self.assertGreaterEqual(full, empty + pages)
        self.assertGreaterEqual(loaded, pages)
