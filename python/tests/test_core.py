"""Tries tools/core on the firmware in data/where, whose README.md derives what is expected, through gdb, pyelftools and
readelf. The program is that of the variable LAB, and else ./lab. Without one of these the tests that need it are passed
over, and a line says so.
"""
import json
import os
import pathlib
import random
import re
import resource
import shutil
import subprocess
import unittest
from typing import Any, Callable, Dict, List, Sequence, Tuple
from unittest import mock

from labdev import cut_labs
from labdev.pythons import with_pyelftools
from labtools import core
from labtools.boards import snapshot
from labtools.common.program import TOP
from tests.test_where import DATA, LAB, InRoom

# A core, its ELF file, and a thread.
Board = Tuple[str, str, int]

GDB = next(filter(shutil.which, ("gdb-multiarch", "riscv64-unknown-elf-gdb", "riscv32-unknown-elf-gdb")), "")

# What gdb prints, a line a command: of boards of work.resc in 300, each by its core and its ELF file, and its thread.
# The first processor of the worker has counted from 35 on, four instructions a time, and had done one more than a whole
# number of them when it was interrupted in 100. The entry is a slot in which no instruction retires. The second one has
# done 6 instructions of _start, 4 of main and the wfi. The talker has done 22, and then traps in each slot.
WORKER, OTHER = ("worker.core", "work.elf", 1), ("worker.core", "work.elf", 2)
TALKER, FAULTY = ("talker.core", "talk.elf", 1), ("faulty.core", "fault.elf", 1)
HALTED = "machine-3.core", "fault.elf", 1
# The same of ask.resc in 1000: the asker waits, and the handler of the other board was not called.
ASKER, ANSWERER = ("asker.core", "ask.elf", 1), ("answerer.core", "answer.elf", 1)
SHOWN = (
    (WORKER, "print main::counter", "$1 = 16"),
    (WORKER, "print is_done", "$1 = 0"),
    (WORKER, "info registers pc", "pc 0x80000018 0x80000018 <serve>"),
    (WORKER, "info registers ra", "ra 0x80000052 0x80000052 <on_interrupt+46>"),
    (WORKER, "info registers mepc", "mepc 0x80000080 0x80000080 <count_up+2>"),
    (WORKER, "info registers mtvec", "mtvec 0x80000024 0x80000024 <on_interrupt>"),
    (WORKER, "output/x {$sp, $s0, $s1, $a0, $a1, $a3}", "{0x8000ffa0, 0xc200000, 0x1, 0x800000ec, 0x0, 0xffffffff}"),
    (WORKER, "output/x {$mcause, $mtval, $mie, $mip}", "{0x8000000b, 0x0, 0x800, 0x0}"),
    (WORKER, "output/x {$mstatus, $mstatush, $misa, $mscratch}", "{0x1880, 0x0, 0x40001104, 0x0}"),
    (WORKER, "output {$mcycle, $minstret, $cycle, $instret, $time}", "{300, 299, 300, 299, 300}"),
    (WORKER, "output {$mhartid, $mvendorid, $marchid, $mimpid}", "{0, 0, 0, 0}"),
    (WORKER, "x/xw 0x800000ec", "0x800000ec <counter.0>: 0x00000010"),
    (WORKER, "x/xb 0x80010000", "0x80010000: Cannot access memory at address 0x80010000"),
    (WORKER, "x/xb 0x10000000", "0x10000000: Cannot access memory at address 0x10000000"),
    (OTHER, "info registers pc", "pc 0x8000008a 0x8000008a <park+4>"),
    (OTHER, "output/x {$ra, $sp, $t0, $a0}", "{0x800000c0, 0x8000eff0, 0x1000, 0x1}"),
    (OTHER, "output/x {$mstatus, $mtvec, $mcause}", "{0x1800, 0x0, 0x0}"),
    (OTHER, "output {$mhartid, $mcycle, $minstret}", "{1, 300, 11}"),
    (TALKER, "info registers pc", "pc 0x20000000 0x20000000"),
    (TALKER, "output/x {$sp, $t0, $mtvec, $mcause, $mtval}", "{0x70000000, 0x10001000, 0x20000000, 0x1, 0x20000000}"),
    (TALKER, "output {$mcycle, $minstret, $time}", "{300, 22, 0}"),
    (FAULTY, "print last_cause", "$1 = 2"),
    (FAULTY, "print cause", "$1 = 2"),
    (FAULTY, "info symbol $mepc", "half_of + 6 in section .text"),
    (FAULTY, "output/x {$mcause, $mepc, $mtval}", "{0x2, 0x8000003e, 0xffffffff}"),
    (FAULTY, "output/x *(unsigned int *)0x80000034", "0xabcd3020"),
    (HALTED, "info registers pc", "pc 0x80000000 0x80000000 <_start>"),
    (HALTED, "output {$mcycle, $minstret, $sp}", "{0, 0, 0}"),
    (ASKER, "output/x {$sp, $ra, $a0, $mtvec}", "{0x8000ffe0, 0x8000003c, 0x61, 0x0}"),
    (ASKER, "x/4xw 0x8000ffe0", "0x8000ffe0: 0x00000000 0x00000000 0x00000000 0x80000052"),
    (ASKER, "x/4xw 0x8000fff0", "0x8000fff0: 0x00000000 0x00000000 0x00000000 0x80000016"),
    (ASKER, "frame function ask", "#2 0x8000003c in ask (question=question@entry=97 'a') at ./ask.c:19"),
    (ANSWERER, "print answered", "$1 = 0"),
    (ANSWERER, "output/x {$mie, $mip, $mstatus, $mtvec, $mepc}", "{0x800, 0x800, 0x1880, 0x80000038, 0x800000be}"),
    (ANSWERER, "info line *$mepc", 'Line 22 of "./hart.h"'),
)
STACKS = (
    (WORKER, ["serve () at ./work.c:14", "0x80000052 in on_interrupt () at ./work.c:21"]),
    (OTHER, ["0x8000008a in wait_for_interrupt () at ./hart.h:22", "park () at ./work.c:34"]),
    (FAULTY, ["handle_trap (cause=2) at ./fault.c:11", "0x80000028 in trap_entry ()"]),
    (ASKER, ["has_byte () at ./ask.c:6", "receive () at ./ask.c:11"]),
)
# A board of a processor with atomic instructions and without compressed ones. Its program sets the upper half of mcycle
# and mscratch to 5: addi x5, x0, 5; csrrw x0, mcycleh, x5; csrrw x0, mscratch, x5; jal x0, 0
SMALL = """ram: Memory.MappedMemory @ sysbus 0x80000000 { size: 0x1000000 }
low: Memory.MappedMemory @ sysbus 0x1000 { size: 0x1000 }
cpu: CPU.RiscV32 @ sysbus { cpuType: "rv32ima"; PerformanceInMips: 1 }
"""
COUNTING = """mach create "small"
machine LoadPlatformDescription @small.repl
sysbus WriteDoubleWord 0x80000000 0x00500293
sysbus WriteDoubleWord 0x80000004 0xB8029073
sysbus WriteDoubleWord 0x80000008 0x34029073
sysbus WriteDoubleWord 0x8000000C 0x0000006F
sysbus WriteDoubleWord 0x80FFFFFC 0x12345678
sysbus WriteDoubleWord 0x1FFC 0x9ABCDEF0
cpu PC 0x80000000
emulation RunFor "0.000004"
mach create "bare"
"""
# Prints an ELF file as pyelftools reads it: its header, and its segments and notes.
READER = """
import json, sys
from elftools.elf.elffile import ELFFile
file = ELFFile(open(sys.argv[1], "rb"))
names = "p_type", "p_offset", "p_vaddr", "p_filesz", "p_memsz"
loads = [[it[name] for name in names] + [it.data().hex()] for it in file.iter_segments()]
noted = [it for one in file.iter_segments("PT_NOTE") for it in one.iter_notes()]
notes = [[it["n_name"], it["n_type"], it["n_descsz"]] for it in noted]
print(json.dumps([file["e_type"], file["e_machine"], file.elfclass, file.little_endian, file["e_flags"], loads, notes]))
"""


class Cores(InRoom):
    def call(self, *words: str, **how: Any) -> Tuple[int, str, str]:
        """Returns how tools/core ends, and what it prints."""
        ran = self.ran(TOP / "tools/core", *words, **how)
        return ran.returncode, ran.stdout, ran.stderr

    def core(self, *words: str) -> List[str]:
        status, printed, told = self.call(*words)
        self.assertEqual((status, told), (0, ""))
        return printed.splitlines()

    def lab(self, script: str, *more: str) -> str:
        """Runs a script of data/where with more lines at its end, and returns the log."""
        lines = self.read(script).split("quit\n")[0]
        self.write("more.resc", "\n".join([lines, *more, ""]))
        ran = self.ran(LAB, "run", "more.resc")
        self.assertEqual(ran.returncode, 0, ran.stdout)
        return ran.stdout

    def held(self, folder: str = ".") -> Dict[str, bytes]:
        """Returns the files below a folder."""
        paths = sorted(it for it in (self.room / folder).rglob("*") if it.is_file())
        return {str(it.relative_to(self.room)): it.read_bytes() for it in paths}


@unittest.skipUnless(GDB, "what gdb says of core files, without gdb-multiarch")
class Debugger(Cores):
    def gdb(self, asked: Sequence[Tuple[Board, str]]) -> List[List[str]]:
        """Returns the lines that gdb prints for each command in a thread of a core, with one blank for each stretch of
        them. One gdb opens all."""
        words, board = [GDB, "-q", "-nx", "-batch"], None
        for of, command in asked:
            if of != board:
                core, elf, thread = board = of
                words += [it for line in (f"file {elf}", f"core-file cores/{core}") for it in ("-ex", line)]
                words += ["-ex", f"thread {thread}"]
            words += [it for line in ("echo \\n<<\\n", command, "echo \\n>>\\n") for it in ("-ex", line)]
        printed = self.ran(*words, stderr=subprocess.STDOUT).stdout
        found = re.findall(r"\n<<\n(.*?)\n+>>\n", printed, re.DOTALL)
        self.assertEqual(len(found), len(asked), printed)
        return [[" ".join(line.split()) for line in text.splitlines()] for text in found]

    def test_variables_registers_csrs_memory_and_stacks_are_those_of_the_boards(self) -> None:
        for script in "work.resc", "ask.resc":
            self.core(script, "cores")
        asked = [(board, command) for board, command, _ in SHOWN] + [(board, "bt") for board, _ in STACKS]
        told = self.gdb(asked)
        for (board, command, wanted), lines in zip(SHOWN, told):
            with self.subTest(board=board, command=command):
                self.assertIn(re.sub(r"^\$1", "$", wanted), re.sub(r"^\$\d+", "$", "\n".join(lines)))
        for (board, calls), lines in zip(STACKS, told[len(SHOWN) :]):
            with self.subTest(board=board):
                self.assertEqual(lines[: len(calls)], [f"#{at} {line}" for at, line in enumerate(calls)])

    def test_harts_are_threads(self) -> None:
        self.core("work.resc", "cores")
        ((first, *rest),) = self.gdb([(WORKER, "info threads")])
        self.assertRegex(rest[0], r"^\* 1 .* serve \(\) at ./work.c:14$")
        self.assertRegex(rest[1], r"^2 .* 0x8000008a in wait_for_interrupt \(\) at ./hart.h:22$")
        self.assertEqual((first, len(rest)), ("Id Target Id Frame", 2))

    def test_zeros_of_a_board_are_shown_where_its_file_has_other_bytes(self) -> None:
        """The first page of the firmware was made zero, so that the snapshot has no such page."""
        made = 'mach create "m"\nmachine LoadPlatformDescription @board.repl\nsysbus LoadELF @fault.elf\n'
        self.put({"zeros": bytes(4096), "zeros.resc": f"{made}sysbus LoadBinary @zeros 0x80000000\n"})
        self.core("zeros.resc", "cores")
        (lines,) = self.gdb([(("m.core", "fault.elf", 1), "x/2xw 0x80000000")])
        self.assertEqual(lines, ["0x80000000 <_start>: 0x00000000 0x00000000"])

    def test_each_printed_line_opens_a_core_with_all_its_files(self) -> None:
        """A second file is loaded where the first one was, so that its names alone can tell it."""
        made = 'mach create "m"\nmachine LoadPlatformDescription @board.repl\n'
        self.write("-l.elf", (DATA / "ask.elf").read_bytes())
        self.write("two.resc", f"{made}sysbus LoadELF @-l.elf\nsysbus LoadELF @fault.elf\nsysbus LoadELF @-l.elf\n")
        lines = self.core("two.resc", "its cores")
        self.assertEqual(lines[:2], ["at 0.000000", "m: 1 hart"])
        printed = self.ran(
            "sh", "-c", f"{lines[2]} -q -nx -batch -ex 'info address ask' -ex 'info address half_of'"
        ).stdout
        self.assertIn('Symbol "ask" is a function at address ', printed)
        self.assertIn('Symbol "half_of" is a function at address 0x80000038.\n', printed)


class Files(Cores):
    """What is written, as other programs than gdb read it."""

    def parts(self, name: str) -> List[Any]:
        python = with_pyelftools()
        if not python:
            self.skipTest("what is in core files, without pyelftools")
        read: List[Any] = json.loads(self.ran(python, "-c", READER, name).stdout)
        return read

    def memory(self, segments: List[Any]) -> Dict[int, bytes]:
        """Returns the memories of a core by their addresses, those that lie one behind the other as one."""
        memories: Dict[int, bytes] = {}
        for kind, _, address, in_file, size, data in segments:
            if kind == "PT_LOAD":
                self.assertEqual((in_file, len(data)), (size, 2 * size))
                below = next((it for it, held in memories.items() if it + len(held) == address), address)
                memories[below] = memories.get(below, b"") + bytes.fromhex(data)
        return memories

    def test_a_core_has_the_form_of_one_and_its_notes(self) -> None:
        self.core("work.resc", "cores")
        kind, machine, width, is_little, flags, segments, notes = self.parts("cores/worker.core")
        self.assertEqual((kind, machine, width, is_little, flags), ("ET_CORE", "EM_RISCV", 32, True, 1))
        self.assertEqual([it[0] for it in segments].count("PT_NOTE"), 1)
        size = (self.room / "cores/worker.core").stat().st_size
        self.assertLessEqual(max(offset + held for _, offset, _, held, _, _ in segments), size)
        names = [(name, kind) for name, kind, _ in notes]
        csrs = ("GDB", 0x900)
        self.assertEqual([names[1], *names[3:]], [("CORE", "NT_PRSTATUS"), csrs, ("CORE", "NT_PRSTATUS"), csrs])
        self.assertEqual((names[2], [it[2] for it in notes if it[0] == "CORE"]), (("GDB", 0xFF000000), [204, 204]))

    def test_readelf_finds_nothing_wrong(self) -> None:
        if not shutil.which("readelf"):
            self.skipTest("what readelf says of core files, without readelf")
        self.core("work.resc", "cores")
        for name in self.held("cores"):
            ran = self.ran("readelf", "--all", "--wide", name, env={**os.environ, "LC_ALL": "C"})
            self.assertEqual((ran.returncode, ran.stderr), (0, ""))
            self.assertIn("CORE (Core file)", ran.stdout)
            self.assertNotRegex(ran.stdout, "(?i)warning|error|corrupt")

    def test_the_memories_are_those_that_lab_shows(self) -> None:
        """Each 64th word of the memory, and the first and the last ones."""
        places = sorted({*range(0, 256, 4), *range(0, 0x10000, 256), *range(0xFF00, 0x10000, 4)})
        reads = [f"sysbus ReadDoubleWord 0x{0x80000000 + at:X}" for at in places]
        log = self.lab("ask.resc", "mach set asker", *reads)
        shown = [int(it, 16) for it in re.findall("(?m)^0x([0-9a-f]{8})$", log)]
        self.assertEqual(len(shown), len(places))
        self.core("ask.resc", "cores")
        memories = self.memory(self.parts("cores/asker.core")[5])
        self.assertEqual({address: len(held) for address, held in memories.items()}, {0x80000000: 0x10000})
        words = [int.from_bytes(memories[0x80000000][at : at + 4], "little") for at in places]
        self.assertEqual(words, shown)

    def test_large_memories_that_are_mostly_zero_take_little_room(self) -> None:
        """Of 16 MiB and 4 KiB, three pages have a byte that is not 0."""
        self.put({"small.repl": SMALL, "small.resc": COUNTING})
        lines = self.core("small.resc", "cores")
        self.assertEqual(lines[0], "at 0.000004")
        self.assertEqual(lines[-1], "bare: it has no platform, so no core is written")
        self.assertEqual(list(self.held("cores")), ["cores/small.core"])
        self.assertLess((self.room / "cores/small.core").stat().st_size, 2**17)
        _, _, _, _, flags, segments, _ = self.parts("cores/small.core")
        program = "930250007390 02b8 7390 0234 6f000000"
        wanted = {0x1000: bytes(0xFFC) + bytes.fromhex("f0debc9a"), 0x80000000: bytes.fromhex(program)}
        wanted[0x80000000] = wanted[0x80000000].ljust(0xFFFFFC, b"\0") + bytes.fromhex("78563412")
        self.assertTrue(self.memory(segments) == wanted)
        self.assertEqual(flags, 0, "no compressed instructions")

    @unittest.skipUnless(GDB, "the upper halves of counters, without gdb-multiarch")
    def test_counters_have_two_halves_and_misa_the_letters(self) -> None:
        """mcycle counts the first instruction, and the two after the one that sets its upper half."""
        self.put({"small.repl": SMALL, "small.resc": COUNTING})
        self.core("small.resc", "cores")
        shown = "output/x {$misa, $mcycle, $mcycleh, $cycleh, $minstret, $minstreth, $mscratch, $pc}"
        ran = self.ran(GDB, "-q", "-nx", "-batch", "-ex", "echo --", "-ex", shown, "-c", "cores/small.core")
        wanted = "{0x40001101, 0x3, 0x5, 0x5, 0x4, 0x0, 0x5, 0x8000000c}"
        self.assertEqual(ran.stdout.partition("--")[2], wanted)

    def test_a_time_within_a_run_and_a_snapshot(self) -> None:
        """The first of the asker's four instructions comes at 16."""
        self.lab("ask.resc", "Save @kept")
        self.core("ask.resc", "cores")
        line = "its ELF file is not known: put yours in place of FILE.elf"
        lines = self.core("kept", "others")
        self.assertEqual((lines[0], lines[1]), ("at 0.001000", f"asker: 1 hart; {line}"))
        self.assertRegex(lines[2], r"^    \S*gdb\S* FILE\.elf others/asker\.core$")
        self.assertEqual(list(self.held("cores").values()), list(self.held("others").values()))
        self.assertEqual(self.core("--at", "0.000501", "ask.resc", "cores")[0], "at 0.000501")
        pc = (0x8000001C).to_bytes(4, "little")
        self.assertIn(pc + (0x8000003C).to_bytes(4, "little"), (self.room / "cores/asker.core").read_bytes())


class Faults(Cores):
    def setUp(self) -> None:
        super().setUp()
        self.lab("ask.resc", "Save @kept")

    def refuses(self, line: str, *words: str, **how: Any) -> None:
        """The tool prints this line alone, and ends with 1."""
        self.assertEqual(self.call(*words, **how), (1, "", f"tools/core: {line}\n"))

    def test_what_is_no_core_of_a_board_stays_and_nothing_is_written(self) -> None:
        self.core("kept", "cores")
        foreign = bytearray((self.room / "cores/answerer.core").read_bytes())
        foreign[52 + 4] += 4  # where its notes begin
        cores = self.room / "others"
        cores.mkdir()
        path = cores / "answerer.core"
        makers: Dict[str, Callable[[pathlib.Path], Any]] = {
            "a core of another program": lambda path: path.write_bytes(foreign),
            "a text": lambda path: path.write_text("mine"),
            "nothing": lambda path: path.write_bytes(b""),
            "a folder": lambda path: path.mkdir(),
            "a pipe": os.mkfifo,
            "a link that leads nowhere": lambda path: path.symlink_to("none"),
        }
        for kind, make in makers.items():
            with self.subTest(kind=kind):
                make(path)
                before = os.lstat(path).st_ino, self.held("others")
                self.refuses("others/answerer.core: it is not a core of a board, and is not replaced", "kept", "others")
                self.assertEqual((os.lstat(path).st_ino, self.held("others")), before)
                self.assertEqual(os.listdir(cores), ["answerer.core"])
                path.rmdir() if path.is_dir() else path.unlink()

    def test_where_the_disk_is_full_the_folder_is_as_before(self) -> None:
        def limit() -> None:
            resource.setrlimit(resource.RLIMIT_FSIZE, (32768, 32768))

        self.refuses("cores: File too large", "kept", "cores", before=limit)
        self.assertFalse((self.room / "cores").exists())
        self.core("--at", "0.0005", "ask.resc", "cores")
        before = self.held()
        self.refuses("cores: File too large", "kept", "cores", before=limit)
        self.assertEqual(self.held(), before)
        self.assertEqual(len(os.listdir(self.room / "cores")), 2)

    def test_an_interrupted_call_leaves_nothing(self) -> None:
        folder = self.room / "cores"
        with mock.patch.object(pathlib.Path, "write_bytes", side_effect=KeyboardInterrupt):
            with self.assertRaises(KeyboardInterrupt):
                core.main([str(self.room / "kept"), str(folder)])
        self.assertFalse(folder.exists())

    def test_names_that_lead_out_of_the_folder_or_are_twice_there(self) -> None:
        """No lab is there to refuse such a snapshot."""
        kept, before = (self.room / "kept").read_bytes(), self.held()
        asker, answerer = (bytes([len(name)]) + bytes(7) + name for name in (b"asker", b"answerer"))
        for old, new, said in (
            (b"asker", b"../up", "../up is not the name of a board"),
            (b"answerer", b"\x1b[2Jmine", "\\x1b[2Jmine is not the name of a board"),
            (answerer, asker, "two boards are asker"),
        ):
            self.write("bad", kept.replace(old, new))
            env = {**os.environ, "LAB": "/none/lab"}
            self.refuses(f"bad: no snapshot of lab: {said}", "bad", "cores", env=env)
        (self.room / "bad").unlink()
        self.assertEqual(self.held(), before)

    def test_a_damaged_snapshot_is_refused_or_has_cores(self) -> None:
        kept = (self.room / "kept").read_bytes()
        _, reader = snapshot.read(kept)
        pages = cut_labs.pages_in(reader)
        places = [at for at in range(8, len(kept)) if not cut_labs.is_in_a_page(at, pages)]
        chance = random.Random(1)
        refused = 0
        for _ in range(400):
            damaged = bytearray(kept)
            for _ in range(chance.choice((1, 1, 2, 4))):
                damaged[chance.choice(places)] = chance.choice((0, 1, 2, 4, 16, 0x7F, 0xFF))
            try:
                cores = core.cores_of(snapshot.read(bytes(damaged))[0])
            except snapshot.NoSnapshot:
                refused += 1
                continue
            self.assertTrue(all(it.startswith(b"\x7fELF") for it in cores.values()))
        self.assertTrue(40 < refused < 360, refused)

    def test_an_output_that_is_full_is_told(self) -> None:
        with open("/dev/full", "wb") as full:
            status, _, told = self.call("kept", "cores", stdout=full.fileno())
        line = "tools/core: [Errno 28] No space left on device\n"
        self.assertEqual((status, told, len(self.held("cores"))), (1, line, 2))

    def test_what_cannot_be_read_run_or_made(self) -> None:
        self.put({"file": "mine", "bad.resc": "mach create\ncpu Wrong\n"})
        self.write("cut", (self.room / "kept").read_bytes()[:-1])
        for words, line in (
            ("none.resc file", "file: it is not a folder"),
            ("kept no/cores", "no/cores: No such file or directory"),
            ("kept file/cores", "file/cores: Not a directory"),
            ("none.resc cores", "none.resc: No such file or directory"),
            ("bad.resc cores", "bad.resc: lab refused bad.resc:2: S1 unknown command"),
            ("--at 0.002 ask.resc cores", "ask.resc: the script ends at 0.001000"),
        ):
            with self.subTest(words=words):
                self.refuses(line, *words.split())
        status, _, told = self.call("cut", "cores")
        self.assertEqual(status, 1)
        self.assertIn("tools/core: cut: no snapshot of lab: ends within a value", told)
        self.assertFalse((self.room / "cores").exists())
        self.assertEqual(self.read("file"), "mine")

    def test_words_that_are_wrong(self) -> None:
        for words in "", "kept", "kept cores more", "--at soon kept cores":
            self.assertEqual(self.call(*words.split())[:2], (2, ""))
