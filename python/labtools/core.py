"""Writes the state of each board at a lab time as an ELF core file, which gdb opens.

    tools/core [--at TIME] [--until TIME] SCRIPT or SNAPSHOT FOLDER

It runs a copy of the script to its end, or to the lab time of --at. For each board that has a platform it writes
FOLDER/BOARD.core, with the board's memories and the registers and CSRs of each processor, which gdb sees as a thread,
and prints the command that opens the core in gdb, with the ELF files that the script loads. Where these are not known,
as for a snapshot, put your own file in place of FILE.elf. The command names the first gdb for RISC-V on the path:
riscv64-unknown-elf-gdb, riscv32-unknown-elf-gdb or gdb-multiarch; it must be version 11 or later. --until is lab's. The
program is that of the variable LAB, or else ./lab of this repository.

FOLDER is made if needed. Core files of an earlier call are replaced; other files stay. If one of them has the name of a
core, nothing is written. If anything fails, the folder keeps what it had before.

It ends with 0; with 1 if the script or the snapshot cannot be taken that far, or the cores or the output cannot be
written; with 2 if it is called with wrong arguments; and with 130 if it was interrupted.
"""
import argparse
import pathlib
import re
import shlex
import shutil
from typing import Any, Dict, Iterator, List

from labtools.boards import core_files, looks
from labtools.boards.machine import machine_of
from labtools.boards.run_until import Held
from labtools.boards.snapshot import NoSnapshot
from labtools.common.escapes import shown
from labtools.common.program import end_wrong
from labtools.logs.log_lines import time_text

DEBUGGERS = "riscv64-unknown-elf-gdb", "riscv32-unknown-elf-gdb", "gdb-multiarch"
# The names that lab takes for boards, so that none leads out of the folder.
NAME = re.compile(r"[\w-]+", re.ASCII)


def debugger() -> str:
    return next(filter(shutil.which, DEBUGGERS), DEBUGGERS[-1])


def word(path: str) -> str:
    """Returns a path as a word of a shell's line, which is no option."""
    return shlex.quote(f"./{path}" if path.startswith("-") else path)


def core_name(name: str) -> str:
    return f"{name}.core"


def cores_of(held: Held) -> Dict[str, bytes]:
    """Returns the core files of the boards by their names."""
    cores = {}
    for board in held["boards"]:
        if not NAME.fullmatch(board["name"]):
            raise NoSnapshot(f"{board['name']} is not the name of a board")
        if core_name(board["name"]) in cores:
            raise NoSnapshot(f"two boards are {board['name']}")
        machine = machine_of(board, held["time"])
        if machine is not None:
            cores[core_name(board["name"])] = core_files.core_of(machine)
    return cores


def lines_of(board: Dict[str, Any], images: List[str], folder: pathlib.Path) -> Iterator[str]:
    """Yields what is said of a board: the line that opens its core in gdb."""
    name = board["name"]
    if board["machine"][0] == "none":
        yield f"{name}: it has no platform, so no core is written"
        return
    harts = len(board["machine"][1][""]["plan"]["processors"])
    known = "" if images else "; its ELF file is not known: put yours in place of FILE.elf"
    first, *rest = dict.fromkeys(images or ["FILE.elf"])
    yield f"{name}: {harts} hart{'s' * (harts != 1)}{known}"
    more = [f" -ex {shlex.quote(f'add-symbol-file {word(it)}')}" for it in rest]
    yield f"    {debugger()} {word(first)} {word(str(folder / core_name(name)))}{''.join(more)}"


def asked(words: List[str]) -> argparse.Namespace:
    parser = looks.parser_of(__doc__)
    parser.add_argument("folder", type=pathlib.Path)
    return parser.parse_args(words)


def main(words: List[str]) -> None:
    given = asked(words)
    with looks.faults_told(given.file):
        try:
            core_files.check(given.folder, [])
            held, images = looks.laboratory(given, "lab-core-")
            core_files.write(given.folder, cores_of(held))
        except core_files.Refused as fault:
            end_wrong(shown(str(fault)), 1)
    print(f"at {time_text(held['time'])}")
    for board in held["boards"]:
        for line in lines_of(board, images.get(board["name"], []), given.folder):
            print(shown(line))
