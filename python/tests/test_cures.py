"""Tries that tools/explain prints a cure of each cause for which lab refuses a line, and what can be seen of the line
besides.

Each script is refused by the program, that of LAB or else the one that ./lab runs. What is wanted was written down
beforehand, from the tables of docs/ and from the rules of scripts and platform files.
"""
import os
import re
import subprocess
from typing import List, Tuple

from labtools.common.program import TOP
from labtools.scripts import cures, parts, reads
from tests.commands import Content
from tests.scripts import CPU, RAM, UART, Explained, Files, elf, lab

BARE = RAM + CPU
BOARD = f"{RAM}{UART}can0: CAN.SJA1000 @ sysbus 0x10001000\n{CPU}"
CLINT = "clint: IRQControllers.CoreLevelInterruptor @ sysbus 0x2000000 { frequency: 1 }\n"
PAIR = BARE + CPU.replace("cpu:", "c:")
MAKE = 'emulation CreateUARTHub "wire"\nemulation CreateCANHub "bus"\nmach create "m0"\n'
EQUIP = "machine LoadPlatformDescription @board.repl\n"
SCRIPTS, PLATFORMS, IMAGES = "docs/SCRIPTS.md", "docs/PLATFORMS.md", "docs/IMAGES.md"
TROUBLE, RENODE = "docs/TROUBLESHOOTING.md", "docs/RENODE.md"


def with_line(line: str, **files: Content) -> Files:
    """A script whose fifth line is this one, after a board of two devices and two hubs."""
    return {"s.resc": f"{MAKE}{EQUIP}{line}\n", **{name.replace("_", "."): held for name, held in files.items()}}


def with_entry(entry: str, before: str = BARE) -> Files:
    """A script with a platform file that ends with this entry."""
    return {"s.resc": "mach create\nmachine LoadPlatformDescription @p.repl\n", "p.repl": f"{before}{entry}\n"}


def with_elf(content: bytes) -> Files:
    return with_line("sysbus LoadELF @a.elf", a_elf=content)


def with_hex(content: str) -> Files:
    return with_line("sysbus LoadHEX @a.hex", a_hex=content)


# a cause, the files of a script that is refused by it, the document that has its cure, and how the cure begins
CODES: List[Tuple[str, Files, str, str]] = [
    ("S1 unknown command", with_line("foo"), SCRIPTS, "Begin the line with a command of"),
    ("S2 arguments", with_line("mach create a b"), SCRIPTS, "Give the words that"),
    ("S3 variable", with_line("include $none"), SCRIPTS, "Set it in a line before"),
    ("S4 no board", {"s.resc": "showAnalyzer uart\n"}, SCRIPTS, "Make a board by `mach create` before this line"),
    ("S5 board", with_line("mach set m7"), SCRIPTS, "Name a board that `mach create` has made"),
    ("S6 taken", with_line("mach create bus"), SCRIPTS, "Choose another name"),
    ("S7 name", with_line("showAnalyzer usart"), SCRIPTS, "Write the name of the entry in the platform file"),
    ("S8 kind", with_line("showAnalyzer ram"), SCRIPTS, "Name a processor for `PC`"),
    ("S9 connected", with_line("connector Connect uart wire\n" * 2), SCRIPTS, "Join a device to one hub"),
    ("S10 time", with_line("emulation RunFor soon"), SCRIPTS, "Write seconds without a unit"),
    ("S11 depth", {"s.resc": "include @s.resc\n"}, SCRIPTS, "Open fewer within one another"),
    ("S12 commands", {"s.resc": "pause\n" * 100_001}, SCRIPTS, "Write fewer"),
    ("S13 boards", {"s.resc": "mach create\n" * 17}, SCRIPTS, "Leave a board out"),
    ("S14 lab time", {"s.resc": "emulation RunFor 10000\n" * 2}, SCRIPTS, "Make the runs shorter"),
    ("S15 platform", with_line(EQUIP), SCRIPTS, "Give each board one platform"),
    ("S16 address", with_line("sysbus LoadELF @a.elf", a_elf=elf(at24=2)), TROUBLE, "`riscv64-unknown-elf-readelf -l"),
    ("S17 unclosed", {"s.resc": 'macro m """\nstart\n'}, SCRIPTS, 'Write a line `"""` after the last line'),
    ("S18 not utf-8", {"s.resc": b"\xff\n"}, SCRIPTS, "Save the file as UTF-8"),
    ("S19 size", with_line("sysbus LoadHEX @big", big=bytes(2**24 + 1)), SCRIPTS, "Make the file smaller"),
    ("S20 snapshot", {"s.resc": "Load @kept\n", "kept": "LABSNAP"}, SCRIPTS, "Load a file as `Save` has written it"),
    ("S21 occupied", {"s.resc": "start\nLoad @kept\n"}, SCRIPTS, "Put `Load` first"),
    ("P1 form", with_entry("a: B C"), PLATFORMS, "Write an entry as `name: Type @ sysbus ADDRESS`"),
    ("P2 feature", with_entry("init:"), PLATFORMS, "Leave it out"),
    ("P3 type", with_entry("g: GPIOPort.None @ sysbus 0x0"), PLATFORMS, 'Take one of "Types"'),
    ("P4 attribute", with_entry("ram: { baud: 1 }"), PLATFORMS, "Leave it out, or take one of those"),
    ("P5 value", with_entry("cpu: { PerformanceInMips: 1001 }"), PLATFORMS, 'Take a value that "Types" allows'),
    ("P6 missing", with_entry("m: Memory.MappedMemory @ sysbus 0x1000"), PLATFORMS, 'Add what "Types" says'),
    ("P7 twice", with_entry("ram: UART.NS16550 @ sysbus 0x100"), PLATFORMS, "Choose another name, write"),
    ("P8 reference", with_entry("v:"), PLATFORMS, "Write the name of an entry before it"),
    ("P8 reference", with_entry("cpu: { timeProvider: t }"), PLATFORMS, "Write the name of an entry: of a timer"),
    ("P9 overlap", with_entry("u: UART.NS16550 @ sysbus 0x80000100"), PLATFORMS, "Move one of the two"),
    ("P10 line", with_entry("clint: { 0 -> cpu@4 }", BARE + CLINT), PLATFORMS, "Lead lines to the pins 3, 7 and 11"),
    ("P11 count", {**with_entry(""), "p.repl": RAM}, PLATFORMS, "Give the board a memory and a processor"),
    ("P12 core", with_entry('cpu: { cpuType: "rv64gc" }'), PLATFORMS, 'Write `"rv32im"`'),
    ("E1 short", with_elf(elf()[:51]), IMAGES, "The file is cut, empty, or not an ELF file"),
    ("E2 not elf", with_elf(b"text" * 20), IMAGES, "Load plain bytes by `LoadBinary`"),
    ("E3 class", with_elf(elf(at4=0x0102)), IMAGES, "Build for 32 bits"),
    ("E4 order", with_elf(elf(at4=0x0201)), IMAGES, "Link little-endian"),
    ("E5 machine", with_elf(elf(at18=40)), IMAGES, "The file was built for another processor"),
    ("E6 type", with_elf(elf(at16=1)), IMAGES, "Link it"),
    ("E7 headers", with_elf(elf()[:60]), IMAGES, "The file is cut or broken"),
    ("E8 segment", with_elf(elf(at68=8)), IMAGES, "The first two: the file is cut or broken"),
    ("H1 form", with_hex("S00600004844521B\n"), IMAGES, "Look for a blank before or after the record"),
    ("H2 sum", with_hex(":0200000480007B\n"), IMAGES, "The line was changed"),
    ("H3 no end", with_hex(":0200000480007A\n"), IMAGES, "The file is cut"),
    ("H4 kind", with_hex(":00000006FA\n"), IMAGES, "Types above 05 are of other makers"),
    ("H5 length", with_hex(":0200000480007A00\n"), IMAGES, "The line is cut or was joined"),
    ("H5 length", with_hex(":0100000100FE\n"), IMAGES, "The record was cut or changed"),
]

# What a new user writes as the fifth line, the code by which it is refused, what is seen of it, and the document that
# has the cure.
MISTAKES: List[Tuple[str, str, str, str]] = [
    ("sysbus LoadElf @a.elf", "S1", "`LoadElf`: did you mean `LoadELF`?", SCRIPTS),
    ("sysbus LoadBin @a.bin 0x80000000", "S1", "`LoadBin`: did you mean `LoadBinary`?", SCRIPTS),
    ("LoadELF @a.elf", "S1", "`LoadELF`: did you mean `sysbus LoadELF`?", SCRIPTS),
    ("sysbus.LoadELF @a.elf", "S1", "`sysbus.LoadELF`: did you mean `sysbus LoadELF`?", SCRIPTS),
    ("Mach create m1", "S1", "`Mach create`: did you mean `mach create`?", SCRIPTS),
    ("machine create m1", "S1", "`machine create`: did you mean `mach create`?", SCRIPTS),
    ("showanalyzer uart", "S1", "`showanalyzer`: did you mean `showAnalyzer`?", SCRIPTS),
    ("emulation runfor 0.1", "S1", "`runfor`: did you mean `RunFor`?", SCRIPTS),
    ("RunFor 0.1", "S1", "`RunFor`: did you mean `emulation RunFor`?", SCRIPTS),
    ("cpu pc 0x80000000", "S1", "`pc`: did you mean `PC`?", SCRIPTS),
    ("emulation CreateUartHub x", "S1", "`CreateUartHub`: did you mean `CreateUARTHub`?", SCRIPTS),
    ("showAnalyzer sysbus.uart0", "S7", "the board `m0` has `uart`, `can0`, and no `uart0`", SCRIPTS),
    ("connector Connect can wire", "S7", "the board `m0` has `uart`, `can0`, and no `can`", TROUBLE),
    ("connector Connect uart wires", "S7", "no hub is `wires`; there are: `wire`, `bus`", TROUBLE),
    ("cpu0 PC 0x80000000", "S7", "the board `m0` has `cpu`, and no `cpu0`", TROUBLE),
    ("connector Connect sysbus.uart bus", "S8", "`uart` is a UART, and `bus` is a hub for CAN controllers", SCRIPTS),
    ("connector Connect can0 wire", "S8", "`can0` is a CAN controller, and `wire` is a hub for UARTs", SCRIPTS),
    ("showAnalyzer cpu", "S8", "`cpu` is a processor", SCRIPTS),
    ("connector Connect wire uart.0", "S2", "the device comes first, then the hub", SCRIPTS),
    ("sysbus LoadELF a.elf", "S2", "a path begins with `@`: `@a.elf`", SCRIPTS),
    ('sysbus LoadELF "a.elf"', "S2", "a path begins with `@`: `@a.elf`", SCRIPTS),
    ('sysbus LoadELF "@a.elf"', "S2", "a path has no quotes: `@a.elf`", SCRIPTS),
    ("sysbus LoadELF @ a.elf", "S2", "a path follows its `@` without a blank", SCRIPTS),
    ("sysbus LoadBinary @a.bin", "S2", "the form is `sysbus LoadBinary @FILE ADDRESS`", SCRIPTS),
    ("emulation RunFor 10ms", "S10", 'a time has no unit: 10ms is "0.010000", in seconds', SCRIPTS),
    ('emulation RunFor "3 s"', "S10", 'a time has no unit: 3 s is "3.000000", in seconds', SCRIPTS),
    ("emulation SetGlobalQuantum 50us", "S10", 'a time has no unit: 50us is "0.000050", in seconds', SCRIPTS),
    ("emulation RunFor 1e-3", "S10", 'a time has no exponent: 1e-3 is "0.001000", in seconds', SCRIPTS),
    ("emulation RunFor 0,5", "S10", 'a time has a point, and digits on both sides of it: 0,5 is "0.500000"', SCRIPTS),
    ("emulation RunFor 0.0000005", "S10", "the shortest time is a microsecond", SCRIPTS),
    ("emulation RunFor 1:30", "S10", "1:30 lacks the hours, 0:1:30", SCRIPTS),
    ("emulation RunFor 0:90:00", "S10", "minutes and seconds are at most 59", SCRIPTS),
    ("emulation RunFor -1", "S10", "a time has no sign", SCRIPTS),
    ("emulation SetGlobalQuantum 2", "S10", "a quantum is 1 microsecond to 1 second, and not 2", SCRIPTS),
    ("emulation CreateUARTHub x 5", "S10", "the delay of a hub is at most 1 second, and not 5", SCRIPTS),
    ("cpu PC main", "S2", "a name is not an address: `riscv64-unknown-elf-nm a.elf | grep main` prints it", SCRIPTS),
    ("sysbus ReadDoubleWord counter", "S2", "a name is not an address", SCRIPTS),
    ("cpu PC 8000abcd", "S2", "a hexadecimal number begins with `0x`: `0x8000abcd`", SCRIPTS),
    ('cpu PC "0x80000000"', "S2", "a number has no quotes: `0x80000000`", SCRIPTS),
    ("cpu PC 0x180000000", "S2", "0x180000000 is above 0xffffffff", SCRIPTS),
    ("cpu IsHalted yes", "S2", "`yes` is neither `true` nor `false`", SCRIPTS),
    ("cpu PerformanceInMips 2000", "S2", "2000 is not a number from 1 to 1000", TROUBLE),
    ("mach create 'm1'", "S2", "' is not a quote: put a text between double quotes", SCRIPTS),
    ("mach create \u201cm1\u201d", "S2", "\u201c is not a quote: put a text between double quotes", SCRIPTS),
    ('mach create "m1', "S2", "a quote is not closed on its line", SCRIPTS),
    ("mach create board.one", "S2", "`board.one` is not a name", SCRIPTS),
    ("runMacro load", "S2", "a macro is run by its name behind `$`: `runMacro $load`", SCRIPTS),
    ("$name=two words", "S2", "one word follows the sign", SCRIPTS),
    ("cpu PC 0x80000002", "S16", "0x80000002 is not a multiple of 4: 0x80000000 is the one before it", TROUBLE),
    ("sysbus ReadDoubleWord 0x10000004", "S16", "0x10000004 is a register of `uart`, and scripts", TROUBLE),
    ("sysbus WriteDoubleWord 0x10001000 1", "S16", "0x10001000 is a register of `can0`, and scripts", TROUBLE),
    ("sysbus ReadDoubleWord 0x20000000", "S16", "no memory has 0x20000000: `ram` has 0x80000000 to 0x8000f", TROUBLE),
    ("sysbus LoadBinary @text 0x8000fff8", "S16", "no memory has 0x8000fff8 to 0x80010003", TROUBLE),
    ("sysbus LoadELF @high.elf", "S16", "no memory has 0x8000fffc to 0x80010003", TROUBLE),
    ("sysbus LoadHEX @high.elf", "H1", "high.elf is an ELF file: `sysbus LoadELF @high.elf` loads it", IMAGES),
    ("sysbus LoadELF @text.hex", "E1", "text.hex begins as an Intel HEX file does", IMAGES),
    ("mach set m1", "S5", "the boards are `m0`", SCRIPTS),
    ("mach create m0", "S6", "s.resc:3 has made `m0`", SCRIPTS),
    ("runMacro $load", "S3", "there is no macro `$load`", TROUBLE),
    ("machine LoadPlatformDescription @board.repl", "S15", "`m0` has board.repl, by s.resc:4", SCRIPTS),
    ("Load @kept", "S21", "s.resc:1 has made `wire`", SCRIPTS),
    ("$bin?=@https://dl.antmicro.com/a.elf", "S2", "", RENODE),
    ("$bin=@http://dl.antmicro.com/a.elf", "S2", "", RENODE),
]

# The same of scripts of another form: their files, what is seen, and the document.
OTHERS: List[Tuple[Files, str, str]] = [
    ({"s.resc": "$image=@a.elf\ninclude $imag\n"}, "no line before sets `$imag`: did you mean `$image`?", SCRIPTS),
    ({"s.resc": 'macro load\n"""\n"""\ninclude $load\n'}, "`$load` is a macro: `runMacro` takes it", SCRIPTS),
    ({"s.resc": "mach create\nstart\n"}, "`machine-0` has no platform", SCRIPTS),
    ({"s.resc": "\ufeffmach create\n"}, "the file begins with a byte order mark, U+FEFF: save it without one", SCRIPTS),
    ({"s.resc": "mach create\n".encode("utf-16")}, "the file is UTF-16", SCRIPTS),
    ({"s.resc": 'mach create "\u00e4"\n'.encode("latin-1")}, "byte 0xe4 is not UTF-8: the file may be L", SCRIPTS),
    ({"s.resc": "Load @keep\ncpu PC\n"}, 'no board is selected: `mach set "old"` selects one', SCRIPTS),
    ({"s.resc": "Load @keep\nmach set 0\nshowAnalyzer u\n"}, "the board `old` has `uart`, `can0`, and no `u`", SCRIPTS),
    ({"s.resc": "Load @s.resc\n"}, "s.resc: does not begin with LABSNAP1", SCRIPTS),
    (with_line("connector Connect uart wire\n" * 2), "s.resc:5 has joined `uart` to `wire`", SCRIPTS),
    (
        {"s.resc": "mach create\nmachine LoadPlatformDescription @p.repl\nc PerformanceInMips 501\n", "p.repl": PAIR},
        "2 processors of 501 do 1002 instructions in a microsecond, and the most is 1000",
        TROUBLE,
    ),
    (
        {**with_line("cpu PC 0x80000001"), "board.repl": BOARD.replace("rv32im", "rv32imc")},
        "0x80000001 is not a multiple of 2: 0x80000000 is the one before it",
        TROUBLE,
    ),
    (with_entry("u: Uart.NS16550 @ sysbus 0x100"), "`Uart.NS16550`: did you mean `UART.NS16550`?", PLATFORMS),
    (with_entry("cpu: { performanceInMIPS: 1 }"), "`performanceInMIPS`: did you mean `PerformanceInMips`?", PLATFORMS),
    (with_line("sysbus LoadBinary @big 0x80000000", big=bytes(2**24 + 1)), "big has 16,777,217 bytes", SCRIPTS),
]


class Refused(Explained):
    """Scripts that are refused, beside the files that some of them name."""

    def setUp(self) -> None:
        super().setUp()
        self.put({"board.repl": BOARD, "text": "Hello there\n", "text.hex": ":00000001FF\n"})
        self.put({"high.elf": elf(at62=0x8000, at64=0xFFFC, at72=8)})
        self.put({"keep.resc": f"mach create old\n{EQUIP}Save @keep\n"})
        subprocess.run([lab(), "run", "keep.resc"], check=True)

    def refused(self, files: Files) -> Tuple[str, List[str]]:
        """The cause by which the program refuses a script, and what is said of it."""
        self.put(files)
        said = self.explained(3, "run", "s.resc")
        found = re.fullmatch(r"error: \S+:\d+: (\S+ .*)", self.printed.splitlines()[-1])
        assert found, self.printed
        return found[1], said


class Cures(Refused):
    def test_the_cure_of_each_code_is_printed(self) -> None:
        for cause, files, document, cure in CODES:
            with self.subTest(cause=cause):
                code, said = self.refused(files)
                self.assertEqual(code, cause)
                told = [line for line in said if line.startswith(f"lab: {document}: ") and cure in line]
                self.assertEqual(len(told), 1, said)

    def test_each_code_that_the_documents_list_has_a_cure_and_is_tried(self) -> None:
        counts = {"S": 21, "P": 12, "E": 8, "H": 5}
        every = {f"{letter}{number + 1}" for letter, count in counts.items() for number in range(count)}
        rows = [
            (table.document, code, row)
            for table in cures.OF_CODES
            for row in cures.rows_of(table)
            for code in cures.codes_in(row[table.code])
        ]
        self.assertEqual({code for _, code, _ in rows}, every)
        self.assertEqual({cause.partition(" ")[0] for cause, _, _, _ in CODES}, every)
        for document, code, row in rows:
            with self.subTest(document=document, code=code):
                self.assertNotIn("", row)
        listed = re.findall(r"\b([SPEH][0-9]+)\b", (TOP / TROUBLE).read_text(encoding="utf-8"))
        self.assertLessEqual(set(listed), every)

    def test_a_bar_in_a_cell_is_no_border(self) -> None:
        (told,) = cures.rows_for("P2")
        self.assertIn("the sign `|`, and `@` in a head", told)


class Mistakes(Refused):
    def test_what_a_new_user_writes_is_seen_and_has_a_cure(self) -> None:
        self.assertGreaterEqual(len(MISTAKES), 30)
        for line, code, seen, document in MISTAKES:
            with self.subTest(line=line):
                cause, said = self.refused(with_line(line))
                self.assertEqual(cause.partition(" ")[0], code)
                self.assertIn(f"lab:   s.resc:5: {line}", said)
                self.assertTrue(any(told.startswith(f"lab: {seen}") for told in said), said)
                self.assertTrue(any(told.startswith(f"lab: {document}: ") for told in said), said)

    def test_what_is_seen_in_other_scripts(self) -> None:
        for files, seen, document in OTHERS:
            with self.subTest(seen=seen):
                _, said = self.refused(files)
                self.assertTrue(any(told.startswith(f"lab: {seen}") for told in said), said)
                self.assertTrue(any(told.startswith(f"lab: {document}: ") for told in said), said)

    def test_the_elf_file_of_the_board_is_named_for_an_address(self) -> None:
        files = with_line("sysbus LoadELF @own.elf\ncpu PC main", own_elf=elf())
        wanted = "lab: a name is not an address: `riscv64-unknown-elf-nm own.elf | grep main` prints it"
        self.assertIn(wanted, self.refused(files)[1])

    def test_of_a_macro_that_is_run_twice_the_run_that_is_refused_is_told(self) -> None:
        lines = 'macro show\n"""\n    showAnalyzer uart\n"""\n'
        first = f"mach create a\n{EQUIP}runMacro $show\n"
        second = "mach create b\nmachine LoadPlatformDescription @bare.repl\nrunMacro $show\n"
        wanted = [
            "lab:   s.resc:10: runMacro $show",
            "lab:   s.resc:3: showAnalyzer uart",
            "lab: the board `b` has no UART and no CAN controller, and no `uart`",
            'lab: `a` has one: `mach set "a"` selects that board',
        ]
        said = self.refused({"s.resc": lines + first + second, "bare.repl": BARE})[1]
        self.assertEqual(said[:4], wanted)
        self.assertEqual(len(said), 5)

    def test_what_a_platform_takes_from_a_pipe_is_not_read_again(self) -> None:
        os.mkfifo("pipe.repl")
        self.put({"s.resc": "mach create\nmachine LoadPlatformDescription @pipe.repl\nshowAnalyzer u\n"})
        board = reads.Board("", True, files=[reads.FileRead("pipe.repl", "platform", True, ())])
        self.assertEqual(parts.Parts(lab()).of(board), [])
