"""Tries tools/explain, the last table of docs/RENODE.md, and what ./lab says after a run.

The program is that of LAB, or else the one that ./lab runs. What is wanted was written down from the documents.
"""
import os
import pty
import shutil
import subprocess
import unittest
from typing import List, Tuple

from labtools.common.program import TOP
from tests.scripts import CPU, RAM, UART, Explained, Files, elf, lab

EXPLAIN = str(TOP / "tools" / "explain")

MAKE = 'emulation CreateUARTHub "hub"\nmach create "m0"\nmachine LoadPlatformDescription @board.repl\n'
BOARD = RAM + UART + CPU.replace(" }", "; PerformanceInMips: 1 }")
FINISHER = "fin: Miscellaneous.SiFiveTest @ sysbus 0x100000\n"
RUN = 'emulation RunFor "0.000001"\n'

# a line of Renode's, the cause by which it is refused, and how the advice begins
TRIALS: List[Tuple[str, str, str]] = [
    ("logLevel 3", "S1", "Leave it out. The log has what shown devices send"),
    ("logLevel -1 sysbus.uart", "S1", "Leave it out. The log has what shown devices send"),
    ("sysbus LogAllPeripheralsAccess true", "S1", "Leave it out. The log has what shown devices send"),
    ("sysbus LogPeripheralAccess sysbus.uart", "S1", "Leave it out. The log has what shown devices send"),
    ("cpu LogFunctionNames true", "S1", "Leave it out. The log has what shown devices send"),
    ("logFile @a.log", "S1", "Leave it out, and send the output to a file"),
    ("machine StartGdbServer 3333", "S1", "Leave it out: no debugger can be joined"),
    ('sysbus Tag <0x40021000, 0x400213ff> "RCC" 0x1', "S1", "Leave it out: an access to an unmapped address is a line"),
    ("cpu VectorTableOffset 0x80000000", "S1", "Leave it out: firmware for RISC-V sets `mtvec` itself"),
    ("sysbus.uart WriteChar 0x41", "S1", "A script sends no bytes to a UART, but a board on its hub can"),
    ('sysbus.uart WriteLine "help"', "S1", "A script sends no bytes to a UART, but a board on its hub can"),
    ("sysbus WriteByte 0x80000000 1", "S1", "`sysbus WriteDoubleWord ADDRESS VALUE` with the whole word"),
    ("sysbus WriteWord 0x80000000 1", "S1", "`sysbus WriteDoubleWord ADDRESS VALUE` with the whole word"),
    ("sysbus ReadByte 0x80000000", "S1", "`sysbus ReadDoubleWord ADDRESS` of the word"),
    ("sysbus ReadWord 0x80000000", "S1", "`sysbus ReadDoubleWord ADDRESS` of the word"),
    ("sysbus LoadSymbolsFrom @a.elf", "S1", "Leave it out: a script knows no symbols"),
    ('sysbus GetSymbolAddress "main"', "S1", "The address as a number"),
    ('cpu PC `sysbus GetSymbolAddress "main"`', "S2", "The address as a number"),
    ('echo "begins"', "S1", "Leave it out: a script prints only what it reads"),
    ('mach create "m1" # the second', "S2", "A comment stands on a line of its own"),
    ('mach create "m1" // the second', "S2", "A comment stands on a line of its own"),
    ("pause #why", "S2", "A comment stands on a line of its own"),
    ('emulation CreateUARTHub "h" false', "S10", "Leave the last word out: the word after a hub's name is its delay"),
    ('emulation CreateUARTHub "h" true', "S10", "Leave the last word out: the word after a hub's name is its delay"),
    ('emulation CreateCANHub "h" false', "S10", "Leave the last word out: the word after a hub's name is its delay"),
    ('emulation CreateCANHub "h" true', "S10", "Leave the last word out: the word after a hub's name is its delay"),
    ("showAnalyzer uart Antmicro.Renode.Analyzers.LoggingUartAnalyzer", "S2", "Leave the last word out: there is one"),
    ("sysbus LoadELF @https://dl.antmicro.com/a.elf", "S2", "Fetch the file first"),
    ("sysbus LoadELF @http://dl.antmicro.com/a.elf", "S2", "Fetch the file first"),
    ("include $ORIGIN", "S3", "Set the variable before"),
    ("include $CWD", "S3", "Set the variable before"),
    ("include $ORIGIN/a.resc", "S2", "`include @FILE`, with the path from the folder"),
    ("sysbus LoadELF $ORIGIN/a.elf", "S2", "`@FILE`, with the path from the folder"),
    ("sysbus LoadHEX $ORIGIN/a.hex", "S2", "`@FILE`, with the path from the folder"),
    ("sysbus LoadBinary $ORIGIN/a.bin 0x80000000", "S2", "`@FILE`, with the path from the folder"),
    ("machine LoadPlatformDescription $ORIGIN/a.repl", "S2", "`@FILE`, with the path from the folder"),
    ("include @$ORIGIN/a.resc", "4", "The path from the folder in which `lab` is started"),
    ("include @$CWD/a.resc", "4", "The path from the folder in which `lab` is started"),
    ('machine LoadPlatformDescriptionFromString "a: B @ sysbus 0"', "S1", "Write the text into a platform file"),
    ("emulation SetGlobalSerialExecution true", "S1", "Leave it out: the log is the same"),
    ("emulation SetSeed 5", "S1", "Leave it out: the log is the same"),
    ('emulation CreateServerSocketTerminal 3456 "term"', "S1", "Leave it out: nothing outside joins a run"),
    ('emulation CreateUartPtyTerminal "term" "/tmp/uart"', "S1", "Leave it out: nothing outside joins a run"),
    ("cpu Step", "S1", '`emulation RunFor "0.000001"` runs a microsecond'),
    ("cpu ExecutionMode SingleStep", "S1", '`emulation RunFor "0.000001"` runs a microsecond'),
    ('cpu AddHook 0x80000000 "print"', "S1", "Nothing is like it"),
    ("cpu SetRegister 10 5", "S1", "Nothing is like it"),
    ('python "1"', "S1", "Nothing is like it"),
    ("using sysbus.uart", "S1", "Leave it out: `sysbus.` may be left out"),
    ("i @a.resc", "S1", "The whole word"),
    ("s", "S1", "The whole word"),
    ("q", "S1", "The whole word"),
    ("start @a.resc", "S2", "`include @FILE`, and then `start`"),
]

# what the rows say to do instead is taken
INSTEAD = """\
sysbus WriteDoubleWord 0x80000000 0x00000001
sysbus LoadBinary @byte 0x80000001
sysbus ReadDoubleWord 0x80000000
$main=0x80000124
cpu PC $main
: a comment
emulation CreateUARTHub "h"
emulation CreateCANHub "c"
showAnalyzer uart
emulation RunFor "0.000001"
mach create "m1"
machine LoadPlatformDescription @tagged.repl
sysbus WriteDoubleWord 0x40021000 0x00000001
include @empty.resc
start
quit
"""

# files, the status with which a run with these words ends, and what is said
SAID: List[Tuple[Files, int, str, List[str]]] = [
    (
        {
            "s.resc": "# a test\n$p=@boards/m0.repl\nmach create\nmachine LoadPlatformDescription $p\n",
            "boards/m0.repl": '\nusing "boards/base.repl"\n',
            "boards/base.repl": 'using "uart.repl"\n',
            "boards/uart.repl": "",
        },
        4,
        "check s.resc",
        [
            "lab: uart.repl is not there",
            "lab:   s.resc:2: $p=@boards/m0.repl",
            "lab:   s.resc:4: machine LoadPlatformDescription $p",
            'lab:   boards/m0.repl:2: using "boards/base.repl"',
            'lab:   boards/base.repl:1: using "uart.repl"',
            "lab: boards/uart.repl is there, but a path is not taken from the folder of the file that names it",
        ],
    ),
    (
        {"s.resc": "include @make.resc\nsysbus LoadELF @build\n", "build/a.elf": ""},
        4,
        "run --until=2 -- s.resc",
        ["lab: build is a folder", "lab:   s.resc:2: sysbus LoadELF @build"],
    ),
    ({}, 4, "run none.resc", ["lab: none.resc is not there"]),
    ({"s.resc": "Load @kept\n"}, 6, "run s.resc", ["lab: kept is not there", "lab:   s.resc:1: Load @kept"]),
    (
        {"s.resc": "Save @none/kept\n"},
        6,
        "run s.resc",
        ["lab: none, the folder of none/kept, is not there", "lab:   s.resc:1: Save @none/kept"],
    ),
    (
        {
            "s.resc": "include @make.resc\ninclude @a.resc\nrunMacro $m\n",
            "a.resc": 'macro m """\n\n\techo "ready"\n"""\n',
        },
        3,
        "run s.resc",
        [
            "lab:   s.resc:3: runMacro $m",
            'lab:   a.resc:3: echo "ready"',
            "lab: docs/RENODE.md: Leave it out: a script prints only what it reads, and a line that begins with `#` is"
            " a comment",
        ],
    ),
    (
        {
            "s.resc": "mach create\nmachine LoadPlatformDescription @p.repl\n",
            "p.repl": 'using "q.repl"\n',
            "q.repl": BOARD + "gpio: GPIOPort.None @ sysbus 0x0\n",
        },
        3,
        "run s.resc",
        [
            "lab:   s.resc:2: machine LoadPlatformDescription @p.repl",
            'lab:   p.repl:1: using "q.repl"',
            "lab:   q.repl:4: gpio: GPIOPort.None @ sysbus 0x0",
            'lab: docs/PLATFORMS.md: there is no such type; capital and small letters differ. Take one of "Types"; for'
            " registers that only keep what is stored a `Memory.MappedMemory` does",
        ],
    ),
]

# a script, the words of a run that refuses it, and the first line that is said: what depends on the lab time is told by
# the lengths of the runs, since a check is not refused there, but at a line after it
FIRST: List[Tuple[str, str, str]] = [
    ("emulation RunFor 10000\nemulation RunFor 1\nfoo\n", "run s.resc", "2: emulation RunFor 1"),
    ("start\nemulation RunFor 1\nfoo\n", "run s.resc --until 10000", "2: emulation RunFor 1"),
    ("emulation RunFor 10000\nemulation RunFor 1\nfoo\n", "check s.resc", "3: foo"),
    ("foo\nemulation RunFor 10000\nemulation RunFor 1\n", "run s.resc", "1: foo"),
    ("start\nLoad @kept\nfoo\n", "run s.resc", "2: Load @kept"),
    ("start\nLoad @s.resc\n", "run s.resc", "2: Load @s.resc"),
    ("mach create a\nmach set " + "0" * 5000 + "\nnone\n", "run s.resc", "3: none"),
    ("include @make.resc\ncpu0 PC 0x80000000\n", "run s.resc", "2: cpu0 PC 0x80000000"),
    ("foo \x1b[2J\t\u202e.\n", "run s.resc", "1: foo \\x1b[2J\t\\u202e."),
]


class Said(Explained):
    """What is said after a run that has not ended with 0."""

    def setUp(self) -> None:
        super().setUp()
        self.put({"board.repl": BOARD, "make.resc": MAKE})

    def test_what_is_said(self) -> None:
        for files, status, words, wanted in SAID:
            with self.subTest(words=words, wanted=wanted[0]):
                self.put(files)
                self.assertEqual(self.explained(status, *words.split()), wanted)
                if words == "check s.resc":
                    self.assertEqual(self.explained(status, "run", "s.resc"), wanted)

    def test_the_line_is_told_first(self) -> None:
        self.put({"a.resc": "Save @kept\n"})
        self.explained(0, "run", "a.resc")
        for script, words, line in FIRST:
            with self.subTest(words=words, line=line):
                self.put({"s.resc": script})
                self.assertEqual(self.explained(3, *words.split())[0], f"lab:   s.resc:{line}")

    def test_a_word_of_lab_alone_has_one_cure(self) -> None:
        self.put({"s.resc": "include @make.resc\ncpu0 PC 0x80000000\n"})
        self.assertEqual(len(self.explained(3, "run", "s.resc")), 3)

    def test_time_has_passed_before_load(self) -> None:
        self.put({"s.resc": "start\nLoad @s.resc\n"})
        self.assertIn("before each `mach create`", self.explained(3, "run", "s.resc")[1])

    def test_paths_that_no_file_can_have(self) -> None:
        (self.room / "self").symlink_to("self")
        for path, state in (
            ("n" * 256, "cannot be read: File name too long"),
            ("s.resc/a.elf", "is not there"),
            ("self", "cannot be read: Too many levels of symbolic links"),
            ("a\0b", "is not there"),
        ):
            self.put({"s.resc": f"include @{path}\n"})
            shown = path.replace("\0", "\\x00")
            wanted = [f"lab: {shown} {state}", f"lab:   s.resc:1: include @{shown}"]
            self.assertEqual(self.explained(4, "run", "s.resc"), wanted)

    @unittest.skipIf(os.geteuid() == 0, "a folder that may not be entered, as root, who may read all")
    def test_a_folder_that_may_not_be_entered(self) -> None:
        self.put({"s.resc": "include @shut/a.resc\n", "shut/a.resc": ""})
        (self.room / "shut").chmod(0)
        self.addCleanup((self.room / "shut").chmod, 0o700)
        wanted = ["lab: shut/a.resc may not be read", "lab:   s.resc:1: include @shut/a.resc"]
        self.assertEqual(self.explained(4, "run", "s.resc"), wanted)

    def test_an_image_from_a_pipe_is_not_read_again(self) -> None:
        self.put({"s.resc": f"{MAKE}sysbus LoadELF @pipe\nemulation RunFor 0.000001\n"})
        os.mkfifo(self.room / "pipe")
        with subprocess.Popen(["sh", "-c", "cat >pipe"], cwd=self.room, stdin=subprocess.PIPE) as writer:
            assert writer.stdin
            writer.stdin.write(elf(0x7))
            writer.stdin.close()
            self.assertEqual(self.explained(0, "check", "s.resc"), [])

    def test_where_a_finisher_may_have_ended_a_run_no_line_is_told(self) -> None:
        """The first run ends in its first round, and it is the third that is too long. Rounds are long, and so few."""
        program = ("0x001002B7", "0x00005337", "0x55530313", "0x0062A023", "0x0000006F")
        words = "".join(f"sysbus WriteDoubleWord {0x80000000 + 4 * n} {word}\n" for n, word in enumerate(program))
        runs = "cpu PC 0x80000000\n" + "emulation RunFor 6000\ncpu IsHalted true\n" * 2 + "emulation RunFor 6000\n"
        made = "emulation SetGlobalQuantum 1\nmach create\nmachine LoadPlatformDescription @finisher.repl\n"
        self.put({"finisher.repl": BOARD + FINISHER, "s.resc": made + words + runs})
        said = self.explained(3, "run", "s.resc")
        self.assertEqual(self.printed.splitlines()[-1], "error: s.resc:14: S14 lab time")
        self.assertEqual([line[:26] for line in said], ["lab: docs/SCRIPTS.md: the "])
        self.put({"s.resc": made + words + runs.replace("6000", "10") + "foo\n"})
        self.assertEqual(self.explained(3, "run", "s.resc")[0], "lab:   s.resc:15: foo")

    def test_a_snapshot_that_is_too_large_is_told_where_it_is_saved(self) -> None:
        """A check writes none, and takes the line. The memory is full, so that the snapshot has all of it."""
        loads = "".join(f"sysbus LoadBinary @full {0x80000000 + part * 2**24}\n" for part in range(4))
        self.put({"full": b"x" * 2**24, "board.repl": BOARD.replace("0x10000 }", "0x4000000 }")})
        self.put({"s.resc": f"{MAKE}{loads}Save @kept\n", "kept": b"old"})
        said = self.explained(3, "run", "s.resc")
        self.assertEqual(said[0], "lab:   s.resc:8: Save @kept")
        self.assertIn("A snapshot has the pages that the firmware has used", said[1])
        self.assertEqual([line for line in said if "kept has" in line], [])
        self.assertEqual((self.room / "kept").read_bytes(), b"old")


class Table(Explained):
    """The rows of docs/RENODE.md, each by the program."""

    def test_each_line_is_refused_so(self) -> None:
        self.put({"board.repl": BOARD, "make.resc": MAKE})
        for line, cause, advice in TRIALS:
            with self.subTest(line=line):
                self.put({"s.resc": f"include @make.resc\n{line}\n"})
                said = self.explained(4 if cause == "4" else 3, "run", "s.resc", "--until", "0")
                advised = [row for row in said if row.startswith(f"lab: docs/RENODE.md: {advice}")]
                self.assertEqual(len(advised), 1, said)
                self.assertIn(f"lab:   s.resc:2: {line}", said)
                told = "" if cause == "4" else f"error: s.resc:2: {cause} "
                self.assertEqual(self.printed[: len(told)], told)

    def test_each_form_is_tried(self) -> None:
        table = (TOP / "docs" / "RENODE.md").read_text().partition("## What to do instead")[2]
        cells = [line.split(" | ")[0] for line in table.splitlines() if line.startswith("| `")]
        forms = [form.split() for cell in cells for form in cell.split("`")[1::2]]
        self.assertGreater(len(forms), 30)
        for form in forms:
            with self.subTest(form=form):
                self.assertTrue(any(self.is_of(form, line.split()) for line, _, _ in TRIALS))

    def is_of(self, form: List[str], words: List[str]) -> bool:
        """Whether each word of the form that is no placeholder stands in a line."""
        own = [word.rstrip(".") for word in form if word != ".." and not word.isupper() or word.startswith("$")]
        return all(any(word.startswith(part) for word in words) for part in own)

    def test_what_is_said_to_do_is_taken(self) -> None:
        memory = "spare: Memory.MappedMemory @ sysbus 0x40021000 { size: 0x1000 }\n"
        self.put({"board.repl": BOARD, "s.resc": MAKE + INSTEAD, "byte": "A", "empty.resc": ""})
        self.put({"tagged.repl": f'using "board.repl"\n{memory}'})
        self.assertEqual(self.explained(0, "run", "s.resc", "--until", "0.00001"), [])


COMPRESSED = (
    'lab: s.resc:4: a.elf has compressed instructions, and the processors of m0 have none (cpuType "{}"): each traps as'
    " illegal. Build without the letter c, or add it to the cpuType"
)
FLOATING = (
    "lab: s.resc:4: a.elf is built for registers of floating-point numbers, which no processor has: each such"
    " instruction traps as illegal. Build with -mabi=ilp32 and without the letters f and d"
)
NO_PC = (
    "lab: s.resc:4: m0 runs from address 0: LoadHEX, LoadBinary and machine Reset do not set pc, and no `cpu PC` with"
    " an address follows"
)
NEVER = "lab: s.resc never runs: it has no `emulation RunFor` and no `start`"
AT_0 = BOARD.replace("0x80000000", "0")
LOAD = "sysbus LoadELF @a.elf\n"

# lines of a script after those of a board, the flags of its ELF file, its platform file, and what is said
SILENT: List[Tuple[str, int, str, List[str]]] = [
    (LOAD + RUN, 1, BOARD, [COMPRESSED.format("rv32im")]),
    (LOAD + RUN, 1, BOARD.replace("rv32im", "rv32ima_zicsr"), [COMPRESSED.format("rv32ima_zicsr")]),
    (LOAD + RUN, 1, BOARD.replace("rv32im", "rv32imc"), []),
    (LOAD + RUN, 1, BOARD.replace("rv32im", "rv32imac"), []),
    (LOAD + RUN, 1, BOARD.replace("rv32im", "rv32imac_zicsr"), []),
    (LOAD + RUN, 1, BOARD + 'cpu: { cpuType: "rv32imc" }\n', []),
    (LOAD + RUN, 2, BOARD, [FLOATING]),
    (LOAD + RUN, 4, BOARD, [FLOATING]),
    (LOAD + RUN, 8, BOARD, []),
    ("sysbus LoadHEX @high.hex\n" + RUN, 0, BOARD, [NO_PC]),
    ("sysbus LoadBinary @a 0x80000000\ncpu PC\n" + RUN, 0, BOARD, [NO_PC]),
    ("sysbus LoadHEX @high.hex\ncpu PC 0x80000000\n" + RUN, 0, BOARD, []),
    ("cpu PC 0x80000000\nsysbus LoadBinary @a 0x80000000\n" + RUN, 0, BOARD, []),
    (LOAD + "machine Reset\n" + RUN, 0, BOARD, [NO_PC]),
    ("sysbus LoadHEX @low.hex\n" + RUN, 0, AT_0, []),
    ("sysbus LoadBinary @a 0\n" + RUN, 0, AT_0, []),
    (LOAD, 0, BOARD, [NEVER]),
    (LOAD + 'emulation RunFor "0"\n', 0, BOARD, [NEVER]),
    (LOAD + "Save @kept\n", 0, BOARD, []),
    ("", 0, BOARD, []),
]


class Silent(Explained):
    """What is mostly a mistake, and silent."""

    def test_what_is_said_after_0(self) -> None:
        self.put({"a": b"\x6f\0\0\0", "high.hex": ":0200000480007A\n:0400000013000000E9\n:00000001FF\n"})
        self.put({"low.hex": ":040000006F0000008D\n:00000001FF\n"})
        for lines, flags, board, wanted in SILENT:
            with self.subTest(lines=lines, flags=flags, board=board):
                self.put({"s.resc": MAKE + lines, "a.elf": elf(flags, 0), "board.repl": board})
                self.assertEqual(self.explained(0, "run", "s.resc"), wanted)

    def test_until_does_nothing_without_start(self) -> None:
        self.put({"on.resc": "start\n"})
        wanted = ["lab: --until does nothing: it says how far `start` runs, and s.resc has no `start`"]
        for script, words, said in (
            ("emulation RunFor 1\n", "--until 2", wanted),
            ("emulation RunFor 1\n", "", []),
            ("include @on.resc\n", "--until 2", []),
        ):
            with self.subTest(script=script, words=words):
                self.put({"s.resc": script})
                self.assertEqual(self.explained(0, "run", "s.resc", *words.split()), said)

    def test_other_words_are_none_of_a_script(self) -> None:
        """Nor is anything read where they are."""
        said = subprocess.run([EXPLAIN, lab(), "0", "gen", "1", "1"], stderr=subprocess.PIPE, check=True)
        self.assertEqual(said.stderr, b"")


class Started(Explained):
    """./lab, around the program: what it prints and how it ends is the program's, and the rest is on the standard
    error."""

    def setUp(self) -> None:
        super().setUp()
        top = self.room / "top"
        out = top / "crates" / "lab_cli" / "out"
        out.mkdir(parents=True)
        for folder in ("bin", "tools"):
            (top / folder).mkdir()
        shutil.copy(TOP / "lab", top / "lab")
        (top / "tools" / "sources").write_text("#!/bin/sh\necho sum\n")
        (top / "tools" / "sources").chmod(0o755)
        (top / "tools" / "explain").symlink_to(EXPLAIN)
        (out / "lab_cli.sources").write_text("sum\n")
        for program in (top / "bin" / "lab", out / "lab_cli"):
            program.symlink_to(lab())
        self.lab = str(top / "lab")

    def ends(self, status: int, said: List[str], *words: str) -> None:
        """A run ends with this status, prints what the program does, and says these lines."""
        program = subprocess.run([lab(), *words], cwd=self.room, stdout=subprocess.PIPE)
        ran = subprocess.run([self.lab, *words], cwd=self.room, stdout=subprocess.PIPE, stderr=subprocess.PIPE)
        self.assertEqual((ran.returncode, ran.stdout), (status, program.stdout))
        self.assertEqual(program.returncode, status)
        self.assertEqual(ran.stderr.decode().splitlines()[-len(said) :] if said else ran.stderr, said or b"")

    def test_statuses(self) -> None:
        self.put({"board.repl": BOARD, "kept.resc": "Load @kept\n"})
        self.put({"done.resc": MAKE + "cpu PC\n", "refused.resc": "cpu\n", "missing.resc": "include @a\n"})
        self.ends(0, [], "run", "done.resc")
        self.ends(0, [], "check", "done.resc")
        self.ends(2, [], "run")
        self.ends(2, [], "run", "missing.resc", "--until", "x")
        cure = 'the first words are not a command. Begin the line with a command of "Commands"; capital and small'
        said = ["lab:   refused.resc:1: cpu", f"lab: docs/SCRIPTS.md: {cure} letters differ"]
        self.ends(3, said, "run", "refused.resc")
        self.ends(4, ["lab: a is not there", "lab:   missing.resc:1: include @a"], "run", "missing.resc")
        self.ends(6, ["lab: kept is not there", "lab:   kept.resc:1: Load @kept"], "run", "kept.resc")

    def test_warnings(self) -> None:
        self.put({"board.repl": BOARD, "a.elf": elf(0, 0)})
        self.put({"s.resc": MAKE + "sysbus LoadELF @a.elf\n"})
        wanted = ["lab: s.resc never runs: it has no `emulation RunFor` and no `start`"]
        self.ends(0, [], "run", "s.resc")
        self.ends(0, wanted, "check", "s.resc")
        master, slave = pty.openpty()
        subprocess.run([self.lab, "run", "s.resc"], cwd=self.room, stderr=slave, check=True)
        os.close(slave)
        self.assertEqual(os.read(master, 1000).decode().splitlines(), wanted)
        os.close(master)
