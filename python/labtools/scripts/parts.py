"""What a board is made of: the entries of its platform file, as the program has read it, or those of a snapshot."""
import os
import pathlib
import subprocess
import tempfile
from dataclasses import dataclass
from typing import Any, Dict, List, Optional

from labtools.boards import snapshot
from labtools.scripts.reads import Board

KINDS = {
    "processor": "a processor",
    "memory": "a memory",
    "timer": "the timer",
    "controller": "the interrupt controller",
    "uart": "a UART",
    "can": "a CAN controller",
    "finisher": "the finisher",
}


@dataclass(frozen=True)
class Part:
    """An entry by its name and its kind, with its addresses if it has some."""

    name: str
    kind: str
    base: int = 0
    size: int = 0

    @property
    def last(self) -> int:
        return self.base + self.size - 1

    def holds(self, address: int) -> bool:
        return self.size > 0 and self.base <= address <= self.last


def parts_of_plan(plan: Dict[str, Any]) -> List[Part]:
    """The entries of a plan, in order."""
    regions = {str(region["what"]): region for region in plan["regions"]}
    parts = []
    for entry in plan["names"]:
        if entry["what"][0] == "processor":
            parts.append(Part(entry["name"], "processor"))
            continue
        what = entry["what"][1][""]
        kind = plan["kinds"][what[1]["number"]][0] if what[0] == "device" else what[0]
        region = regions[str(what)]
        parts.append(Part(entry["name"], kind, region["base"], region["size"]))
    return parts


class Parts:
    """The entries of boards. The program is asked once for each platform file."""

    def __init__(self, program: str) -> None:
        self.program = program
        self.of_files: Dict[str, List[Part]] = {}

    def of(self, board: Optional[Board]) -> List[Part]:
        """The entries of a board; none where its platform is not taken, or comes from a pipe."""
        if board is None or board.plan is not None:
            return parts_of_plan(board.plan) if board and board.plan else []
        files = [file.path for file in board.files if file.kind == "platform"]
        if not files or not all(map(os.path.isfile, files)):
            return []
        if files[0] not in self.of_files:
            self.of_files[files[0]] = self.of_file(files[0])
        return self.of_files[files[0]]

    def of_file(self, platform: str) -> List[Part]:
        """What the program makes of a platform file, by a snapshot of a board that has nothing else."""
        with tempfile.TemporaryDirectory(prefix="lab-parts-") as folder:
            kept, script = pathlib.Path(folder, "kept"), pathlib.Path(folder, "s.resc")
            lines = f"mach create\nmachine LoadPlatformDescription @{platform}\nSave @{kept}\n"
            script.write_text(lines, encoding="utf-8")
            ran = subprocess.run([self.program, "run", str(script)], stdout=subprocess.DEVNULL, check=False)
            if ran.returncode != 0:
                return []
            board = snapshot.read(kept.read_bytes())[0]["boards"][0]
        return parts_of_plan(board["machine"][1][""]["plan"])
