"""What the tests share: each has a folder of its own, in which its commands run, or a package too."""
import os
import pathlib
import shutil
import subprocess
import tempfile
import unittest
from typing import Any, Dict, Mapping, Optional, Tuple, Union

from labtools.common.program import TOP, path_of_program
from tests import tools

Word = Union[str, pathlib.Path]
Content = Union[str, bytes]
BOARD = """ram: Memory.MappedMemory @ sysbus 0x80000000 { size: 0x10000 }
fin: Miscellaneous.SiFiveTest @ sysbus 0x100000
cpu: CPU.RiscV32 @ sysbus { cpuType: "rv32im" }
"""
SCRIPT = """mach create m0
machine LoadPlatformDescription @test/board.repl
sysbus LoadBinary @test/image.bin 0x80000000
cpu PC 0x80000000
start
"""
# How a finisher of this board ends the run: demo/pass has the program.
LOG = "[0.000100] pause m0/fin: pass\n"
IS_ROOT = os.geteuid() == 0
NOBODY = 65534


def become_nobody() -> None:
    os.setgroups([])
    os.setgid(NOBODY)
    os.setuid(NOBODY)


class Room(unittest.TestCase):
    """A test with an empty folder of its own, in which its commands run."""

    maxDiff = None

    def setUp(self) -> None:
        folder = tempfile.TemporaryDirectory(prefix="lab-tests-")
        self.addCleanup(folder.cleanup)
        self.room = pathlib.Path(folder.name).resolve()
        self.environment: Dict[str, str] = dict(os.environ)

    def enter(self) -> None:
        """From now on to the end of the test paths are taken from the folder."""
        self.addCleanup(os.chdir, os.getcwd())
        os.chdir(self.room)

    def write(self, path: str, held: Content, mode: Optional[int] = None) -> None:
        file = self.room / path
        file.parent.mkdir(parents=True, exist_ok=True)
        file.write_bytes(held if isinstance(held, bytes) else held.encode())
        if mode is not None:
            file.chmod(mode)

    def put(self, files: Mapping[str, Content]) -> None:
        for path, held in files.items():
            self.write(path, held)

    def read(self, path: str) -> str:
        return (self.room / path).read_text(encoding="utf-8")

    def ran(self, *words: Word, **how: Any) -> "subprocess.CompletedProcess[str]":
        """Runs a tool or a program, and returns how it has ended and what it has printed."""
        given: Dict[str, Any] = {"cwd": self.room, "env": self.environment, **how}
        return tools.call(*words, **given)


class Commands(Room):
    """What commands write in passing goes into the folder too."""

    def setUp(self) -> None:
        super().setUp()
        self.environment["TMPDIR"] = str(self.room)

    def call(self, *words: Word, **settings: str) -> Tuple[int, str]:
        """Runs a command, and returns its status and what it has printed on both outputs."""
        ran = self.ran(*words, env={**self.environment, **settings}, stderr=subprocess.STDOUT)
        return ran.returncode, ran.stdout

    def wants(self, status: int, text: str, *words: Word, **settings: str) -> str:
        """Runs a command that has to end with this status and to print this text, and returns all that it printed."""
        ended, printed = self.call(*words, **settings)
        self.assertEqual(ended, status, f"{words} printed {printed}")
        self.assertIn(text, printed, str(words))
        return printed

    def wants_by_shell(self, status: int, text: str, script: str, *words: Word) -> str:
        """The same of a script of bash, which has the words as "$0", "$1" and so on."""
        return self.wants(status, text, "bash", "-c", script, *words)


class Packaged(Commands):
    """A folder as a package has it, whose ./lab takes the program that is tried, whatever the sources are."""

    def setUp(self) -> None:
        super().setUp()
        (self.room / "package/bin").mkdir(parents=True)
        for name in "lab", "VERSION":
            shutil.copy(TOP / name, self.room / "package")
        for name in "tools", "python":
            (self.room / "package" / name).symlink_to(TOP / name)
        (self.room / "package/bin/lab").symlink_to(path_of_program())
        self.lab = str(self.room / "package/lab")
        self.environment["LAB"] = self.lab
        self.put({"test/board.repl": BOARD, "test/s.resc": SCRIPT})
        for name in "pass", "fail":
            shutil.copy(TOP / f"demo/{name}/sum.bin", self.room / f"test/{name}.bin")
        self.use("pass")

    def use(self, name: str) -> None:
        """Has the board pass its test or fail it."""
        shutil.copy(self.room / f"test/{name}.bin", self.room / "test/image.bin")

    def add_unknown_command(self) -> None:
        self.write("test/s.resc", f"{SCRIPT}foo\n")
