"""Tries tools/where, and what tools/snapshot shows as hexadecimal, on the firmware in data/where, whose README.md
derives what is expected. The program is that of the variable LAB, and else ./lab. Without a Python that has pyelftools
the tests that need them are passed over.
"""
import json
import os
import resource
import shutil
import signal
import subprocess
import sys
import unittest
from typing import Any, Dict, List, Tuple

from labdev.pythons import with_pyelftools
from labtools.boards import machine
from labtools.common.program import TOP
from labtools.elf import unwind
from tests.commands import Room
from tests.suite_projects import HEED, is_ended, wait_for

DATA = TOP / "python/tests/data/where"
LAB = os.environ.get("LAB", str(TOP / "lab"))
PYTHON = with_pyelftools() or sys.executable

# A board with a finisher, whose program ends a run in its first microseconds and then stays.
FINISHER = """ram: Memory.MappedMemory @ sysbus 0x80000000 { size: 0x1000 }
fin: Miscellaneous.SiFiveTest @ sysbus 0x100000
cpu: CPU.RiscV32 @ sysbus { cpuType: "rv32im"; PerformanceInMips: 1 }
"""
# lui x5, 0x100; lui x6, 0x5; addi x6, x6, 0x555; sw x6, 0(x5); jal x0, 0
FINISHING = """mach create m0
machine LoadPlatformDescription @finisher.repl
sysbus WriteDoubleWord 0x80000000 0x001002B7
sysbus WriteDoubleWord 0x80000004 0x00005337
sysbus WriteDoubleWord 0x80000008 0x55530313
sysbus WriteDoubleWord 0x8000000C 0x0062A023
sysbus WriteDoubleWord 0x80000010 0x0000006F
cpu PC 0x80000000
emulation RunFor "0.001"
emulation RunFor "0.001"
Save @own
start
"""


class InRoom(Room):
    """A test with a folder of its own, in which a copy of data/where stands."""

    def setUp(self) -> None:
        super().setUp()
        shutil.copytree(DATA, self.room, dirs_exist_ok=True)

    def run_tool(self, name: str, *words: str, **settings: str) -> Tuple[int, str, str]:
        """Returns how a script of tools/ ends, and what it prints."""
        ran = self.ran(TOP / "tools" / name, *words, env={**self.environment, **settings}, python=PYTHON)
        return ran.returncode, ran.stdout, ran.stderr

    def where(self, *words: str, **settings: str) -> str:
        status, text, told = self.run_tool("where", *words, **settings)
        self.assertEqual((status, told), (0, ""))
        return text

    def refused(self, *words: str) -> str:
        status, text, told = self.run_tool("where", *words)
        self.assertEqual((status, text), (1, ""))
        return told

    def expected(self, name: str) -> str:
        return (DATA / name).read_text()

    def keep(self, script: str) -> None:
        """Makes the snapshot `kept` of a script without its last lines."""
        lines = self.expected(script).split("quit\n")[0]
        self.write("keep.resc", f"{lines}Save @kept\n")
        self.assertEqual(self.ran(LAB, "run", "keep.resc").returncode, 0)


@unittest.skipUnless(with_pyelftools(), "the reports, without pyelftools")
class Reports(InRoom):
    def test_a_board_that_waits_for_a_byte_and_one_whose_handler_is_not_aligned(self) -> None:
        self.assertEqual(self.where("ask.resc"), self.expected("ask.txt"))

    def test_two_harts_a_trap_in_a_trap_an_illegal_word_and_a_halted_board(self) -> None:
        self.assertEqual(self.where("work.resc", "talker=talk.elf"), self.expected("work.txt"))

    def test_a_snapshot_says_the_same_as_its_script(self) -> None:
        for script, images in (
            ("ask", ["asker=ask.elf", "answerer=answer.elf"]),
            ("work", ["worker=work.elf", "talker=talk.elf", "faulty=fault.elf", "machine-3=fault.elf"]),
        ):
            self.keep(f"{script}.resc")
            self.assertEqual(self.where("kept", *images), self.expected(f"{script}.txt"))

    def test_of_two_files_of_a_board_each_tells_its_own_addresses(self) -> None:
        self.keep("ask.resc")
        text = self.where("kept", "asker=talk.elf", "asker=ask.elf")
        self.assertIn("asker talk.elf ask.elf\n", text)
        self.assertIn("    pc         0x80000018 has_byte ask.c:6, inlined in receive ask.c:11\n", text)
        self.assertIn("  warning: memory differs from .text of talk.elf in ", text)

    def test_what_is_no_elf_file_is_told(self) -> None:
        self.keep("ask.resc")
        wide = bytearray((DATA / "ask.elf").read_bytes())
        wide[18] = 62  # the machine: x86-64
        (self.room / "wide.elf").write_bytes(wide)
        text = self.where("kept", "asker=ask.c", "answerer=none.elf", "answerer=wide.elf")
        self.assertIn("    pc         0x80000018\n", text)
        self.assertIn("  warning: ask.c: ", text)
        self.assertIn("  warning: none.elf: No such file or directory\n", text)
        self.assertIn("  warning: wide.elf: it is not a 32-bit ELF file for RISC-V\n", text)

    def test_a_file_that_is_cut_off_or_no_plain_one_is_told(self) -> None:
        self.keep("ask.resc")
        whole = (DATA / "ask.elf").read_bytes()
        (self.room / "cut.elf").write_bytes(whole[:-1])
        (self.room / "-l.elf").write_bytes(whole)
        text = self.where("kept", "asker=-l.elf", "answerer=cut.elf", "answerer=/dev/zero")
        self.assertIn("    pc         0x80000018 has_byte ask.c:6, inlined in receive ask.c:11\n", text)
        self.assertIn("  warning: cut.elf: cannot be read: the headers of its sections end behind its end\n", text)
        self.assertIn("  warning: /dev/zero: it is not a plain file\n", text)

    def test_json_is_the_same_as_data(self) -> None:
        told = json.loads(self.where("ask.resc", "--json"))
        self.assertEqual((told["time"], told["warnings"]), (1000, []))
        self.assertEqual([board["name"] for board in told["boards"]], ["asker", "answerer"])
        board = told["boards"][1]
        (hart,) = board.pop("harts")
        registers = dict.fromkeys(machine.ABI_NAMES, 0)
        registers.update(ra=0x80000016, sp=0x80010000, a4=1, a5=8)
        stay = place(0x80000016, "stay", 0)
        waits = [line("wait_for_interrupt", "hart.h", 22), line("main", "answer.c", 23)]
        vector = "mtvec is 0x80000038, two bytes before answer: it keeps no bit 1, so a handler needs aligned(4)"
        trapped = place(0x800000BE, "main", 0x2A, *waits)
        wanted = {
            "name": "cpu",
            "number": 0,
            "state": "runs",
            "pc": stay,
            "interrupts": {"on": False, "enabled": ["external"], "pending": ["external"]},
            "mtvec": 0x80000038,
            "handler": place(0x80000038, "answer_to", 0x20, line("answer_to", "answer.c", 9)),
            "last_trap": {"mcause": 0x8000000B, "words": "external interrupt", "place": trapped, "mtval": 0},
            "stack": [{"place": stay, "how": "now", "is_guess": False}],
            "registers": registers,
            "warnings": [vector],
        }
        self.assertEqual(hart, wanted)
        uart = {"name": "uart", "kind": "uart", "received": [ord("a")], "overrun": False}
        can = {"name": "can", "kind": "can", "received": [], "overrun": False}
        wanted = {"name": "answerer", "images": ["answer.elf"], "devices": [uart, can]}
        self.assertEqual(board, {**wanted, "claimed": [], "sources": [], "warnings": []})


# The words that sources.S reads: IER of the UART, the priority of its source, what the contexts 0 and 1 enable, the
# threshold of context 0, mie, whether to claim, and mstatus. It asks, and nothing is in its way but that MIE is 0.
SETTINGS = dict(ier=2, priority=1, enables0=2, enables1=0, threshold=0, mie=0x800, claim=0, mstatus=0)
ASKS = "line up, pending, priority 1, enabled in context 0 (threshold 0)"
OFF = "interrupts are off in cpu: MIE of mstatus is 0, as within a handler"
# What is set otherwise, how the source stands then, and why no interrupt comes.
SOURCES: List[Tuple[Dict[str, int], str, str]] = [
    ({}, ASKS, OFF),
    ({"mstatus": 8}, ASKS, OFF),
    ({"mie": 0}, ASKS, "cpu has not enabled the external interrupt: bit 11 of mie is 0"),
    (
        {"threshold": 1},
        "line up, pending, priority 1, enabled in context 0 (threshold 1)",
        "its priority 1 is not above the threshold 1 of context 0",
    ),
    (
        {"priority": 0},
        "line up, pending, priority 0, enabled in context 0 (threshold 0)",
        "its priority is 0, which never interrupts: 0x0c000004 holds it",
    ),
    (
        {"enables0": 0},
        "line up, pending, priority 1, enabled in no context",
        "it is enabled in no context: 0x0c002000 holds the bits of context 0",
    ),
    (
        {"enables0": 4},
        "line up, pending, priority 1, enabled in no context",
        "it is enabled in no context: context 0 enables 2",
    ),
    (
        {"enables0": 0, "enables1": 2},
        "line up, pending, priority 1, enabled in context 1 (threshold 0)",
        "context 1 leads to no processor: the platform file has no wire for it",
    ),
    (
        {"claim": 1},
        "line up, claimed and not completed, priority 1, enabled in context 0 (threshold 0)",
        "it was claimed and never completed: no 1 was stored to the claim register, 0x0c200004",
    ),
    (
        {"ier": 0},
        "line down, priority 1, enabled in context 0 (threshold 0)",
        "its line is down: uart holds no bytes, and its IER is 0x00",
    ),
    (
        {"ier": 1, "priority": 0, "enables0": 2},
        "line down, priority 0, enabled in context 0 (threshold 0)",
        "its line is down: uart holds no bytes, and its IER is 0x01",
    ),
]


class Traps(InRoom):
    """Boards that only trap; how often until microsecond 100 stands in data/where/README.md."""

    def test_the_loop_is_counted_and_its_place_is_told(self) -> None:
        text = self.where("loops.resc")
        for loop in (
            "97 entries of cause 1 at 0x00000000, where the handler begins; ",
            "33 entries of cause 2 at 0x80000014, within the handler; ",
            "19 entries of cause 2 at 0x8000002a, within the handler; ",
        ):
            self.assertEqual(text.count(f"    warning: a trap loop: {loop}"), 1, text)
        self.assertEqual(text.count("a trap loop"), 3)

    def test_a_loop_is_told_wherever_in_it_the_processor_is(self) -> None:
        """`within` has turns of three slots and `called` of five, so all places come before one of these times."""
        for micros in range(95, 100):
            text = self.where("loops.resc", "--at", f"0.{micros:06}")
            self.assertEqual(text.count("a trap loop"), 3, text)

    def test_a_trap_that_is_handled_is_no_loop(self) -> None:
        self.assertNotIn("a trap loop", self.where("ask.resc"))
        text = self.where("work.resc", "talker=talk.elf")
        self.assertEqual(text.count("a trap loop"), 1, "that of the talker")

    def test_the_first_trap_is_found_by_a_jump_to_itself_at_address_0(self) -> None:
        self.write("first.repl", 'using "board.repl"\nzero: Memory.MappedMemory @ sysbus 0x0 { size: 0x1000 }\n')
        made = "mach create\nmachine LoadPlatformDescription @first.repl\nsysbus LoadELF @null.elf\n"
        self.write("first.resc", f'{made}sysbus WriteDoubleWord 0x0 0x0000006F\nemulation RunFor "0.0001"\n')
        text = self.where("first.resc")
        self.assertNotIn("a trap loop", text)
        self.assertIn("    last trap  illegal instruction, mcause 0x00000002, mtval 0xffffffff\n", text)
        self.assertIn("               at 0x80000006 _start+0x6\n", text)


class Controllers(InRoom):
    """What is told of the interrupt controller, whose registers sources.elf sets by words of the script."""

    def script(self, settings: Dict[str, int], time: str, more: str = "") -> str:
        values = {**SETTINGS, **settings}.values()
        words = [f"sysbus WriteDoubleWord {0x80008000 + 4 * at} {value}" for at, value in enumerate(values)]
        made = ["mach create", "machine LoadPlatformDescription @sources.repl", "sysbus LoadELF @sources.elf"]
        self.write("sources.resc", "\n".join([*made, *words, f"emulation RunFor {time}", more, ""]))
        return self.where("sources.resc")

    def test_each_reason_why_no_interrupt_comes(self) -> None:
        for settings, state, why in SOURCES:
            with self.subTest(settings=settings):
                text = self.script(settings, "0.0001")
                self.assertIn(f"  plic: source 1 of uart: {state}\n    no interrupt comes: {why}\n", text)

    def test_one_comes_in_the_next_slot(self) -> None:
        """MIE is set in microsecond 23, and the interrupt is entered in 24."""
        told = f"  plic: source 1 of uart: {ASKS}\n    an interrupt comes in the next slot\n"
        self.assertIn(told, self.script({"mstatus": 8}, "0.000024"))
        self.assertIn(f"no interrupt comes: {OFF}", self.script({"mstatus": 8}, "0.000023"))
        self.assertIn(f"no interrupt comes: {OFF}", self.script({"mstatus": 8}, "0.000025"))

    def test_a_processor_that_is_halted_takes_none(self) -> None:
        text = self.script({"mstatus": 8}, "0.000024", "cpu IsHalted true")
        self.assertIn(f"  plic: source 1 of uart: {ASKS}\n    no interrupt comes: cpu is halted\n", text)

    def test_a_source_of_which_nothing_is_used_is_not_told(self) -> None:
        text = self.script({"ier": 0, "priority": 0, "enables0": 0}, "0.0001")
        self.assertNotIn("plic", text)

    def test_data_has_the_same(self) -> None:
        self.script({"claim": 1}, "0.0001")
        (board,) = json.loads(self.where("sources.resc", "--json"))["boards"]
        wanted = {
            "controller": "plic",
            "number": 1,
            "devices": ["uart"],
            "is_up": True,
            "is_pending": False,
            "is_claimed": True,
            "priority": 1,
            "takers": [{"context": 0, "threshold": 0, "leads_to": ["cpu pin 11"]}],
            "why": "it was claimed and never completed: no 1 was stored to the claim register, 0x0c200004",
        }
        self.assertEqual(board["sources"], [wanted])


class Stacks(InRoom):
    def test_two_harts_with_one_stack_are_told_and_those_with_stacks_of_their_own_are_not(self) -> None:
        stacks = "sp is 0x8000ffe0 and 0x80010000; give each its own by its mhartid, as demo/harts does"
        self.assertIn(f"  warning: cpu0 and cpu1 have one stack: {stacks}\n", self.where("both.resc"))
        self.assertNotIn("have one stack", self.where("work.resc", "talker=talk.elf"))


def line(function: str, file: str, number: int) -> Dict[str, Any]:
    return {"function": function, "file": file, "line": number}


def place(address: int, function: str, offset: int, *lines: Dict[str, Any]) -> Dict[str, Any]:
    return {"address": address, "function": function, "offset": offset, "lines": [*lines], "is_memory": True}


class Times(InRoom):
    def pc_at(self, script: str, *words: str) -> Tuple[str, str]:
        """Returns the time, and what is said of the first pc."""
        lines = self.where(script, *words).splitlines()
        return lines[0], next(text.split()[1] for text in lines if text.startswith("    pc "))

    def test_a_run_is_cut_at_a_time(self) -> None:
        for word, time, pc in (
            ("--at 0.000501", "0.000501", "0x8000001c"),
            ("--at 0.0005", "0.000500", "0x80000018"),
            ("--at=0.000003", "0.000003", "0x8000000c"),
            ("--at 0.001", "0.001000", "0x80000018"),
        ):
            self.assertEqual(self.pc_at("ask.resc", *word.split()), (f"at {time}", pc))
        told = self.refused("ask.resc", "--at", "0.001001")
        self.assertEqual(told, "tools/where: ask.resc: the script ends at 0.001000\n")

    def test_a_run_that_a_finisher_ends_is_as_long_as_it_was(self) -> None:
        self.write("finisher.repl", FINISHER)
        self.write("finishing.resc", FINISHING)
        # the first run ends at 0.0001, the second lasts to 0.0011, and `start` runs to the time of --until, or to 1
        for words in "--at 0.000100", "--at 0.000300", "--at 0.001500", "--until 0.002000":
            option, time = words.split()
            self.assertEqual(self.pc_at("finishing.resc", option, time), (f"at {time}", "0x80000010"))
        self.assertFalse((self.room / "own").exists(), "the script's own snapshot is not written")
        told = self.refused("finishing.resc", "--until", "0.002", "--at", "0.003")
        self.assertEqual(told, "tools/where: finishing.resc: the script ends at 0.002000\n")

    def test_a_script_that_takes_a_snapshot_back(self) -> None:
        self.keep("ask.resc")
        self.write("on.resc", 'Load @kept\nmach set 1\nsysbus LoadELF @answer.elf\nemulation RunFor "0.0001"\n')
        lines = self.where("on.resc").splitlines()
        self.assertEqual(lines[0], "at 0.001100")
        self.assertIn("answerer answer.elf", lines)
        # the first instruction of the loop comes at 16, and each fourth one after it
        self.assertEqual(self.pc_at("on.resc", "--at", "0.001005", "asker=ask.elf"), ("at 0.001005", "0x8000001c"))
        self.assertIn("  warning: no ELF file is known of it: say asker=FILE", lines)


class Faults(InRoom):
    def test_a_refused_line_is_told_by_its_own_place(self) -> None:
        self.write("bad.resc", 'mach create m0\nmacro two\n"""\nusing sysbus\ncpu Wrong\n"""\nrunMacro $two\n')
        line = "tools/where: bad.resc: lab refused bad.resc:5: S1 unknown command\n"
        self.assertEqual(self.refused("bad.resc"), line)
        self.put({"outer.resc": "using sysbus\ninclude @inner.resc\n", "inner.resc": "\n\nmach set $unset\n"})
        self.assertEqual(self.refused("outer.resc"), "tools/where: outer.resc: lab refused inner.resc:3: S3 variable\n")

    def test_what_cannot_be_read_is_told(self) -> None:
        self.assertEqual(self.refused("none.resc"), "tools/where: none.resc: No such file or directory\n")
        self.write("lacks.resc", "include @none.resc\n")
        told = self.refused("lacks.resc")
        self.assertEqual(told, "tools/where: lacks.resc: lab ended with 4: none.resc is not there, for lacks.resc:1\n")
        (self.room / "cut").write_bytes(b"LABSNAP1 and no more")
        self.assertIn("tools/where: cut: no snapshot of lab: ends within a value", self.refused("cut"))

    def test_words_that_are_wrong(self) -> None:
        for wrong in "ask.resc asker", "ask.resc --at soon", "":
            self.assertEqual(self.run_tool("where", *wrong.split())[0], 2)
        status, text, _ = self.run_tool("where", "--help")
        self.assertEqual(status, 0)
        self.assertIn("tools/where [--at TIME]", text)

    def test_without_pyelftools_addresses_stay_numbers_and_a_line_says_so(self) -> None:
        self.keep("ask.resc")
        (self.room / "elftools.py").write_text("raise ImportError\n")
        words = "kept", "asker=ask.elf", "answerer=none.elf"
        text = self.where(*words, PYTHONPATH=str(self.room))
        self.assertIn("    pc         0x80000018\n", text)
        self.assertIn("    stack    0 0x80000018\n             1 0x8000003c ?\n    zero", text)
        line = (
            "no functions and lines without pyelftools: `apt-get install python3-pyelftools` or"
            " `pip install pyelftools` for this Python"
        )
        self.assertTrue(text.endswith(f"\n\nwarning: {line}\n"), text)
        told = json.loads(self.where("--json", *words, PYTHONPATH=str(self.room)))
        self.assertEqual(told["warnings"], [line])
        self.assertNotIn("pyelftools", self.where("kept", PYTHONPATH=str(self.room)))

    def test_a_number_of_5000_digits_is_that_of_a_board(self) -> None:
        lines = self.expected("ask.resc").split("emulation RunFor")[0]
        self.write("digits.resc", f"{lines}mach set {'0' * 5000}1\nsysbus LoadELF @answer.elf\n")
        self.assertIn("answerer answer.elf answer.elf\n", self.where("digits.resc"))

    def test_a_board_that_is_not_there_is_named(self) -> None:
        self.keep("ask.resc")
        told = self.refused("kept", "askre=ask.elf")
        self.assertEqual(told, "tools/where: kept: there is no board askre: asker, answerer\n")

    def test_without_LAB_it_runs_the_program_that_lab_names(self) -> None:
        for folder in "tools", "python":
            shutil.copytree(TOP / folder, self.room / folder, symlinks=True, ignore=shutil.ignore_patterns("tests"))
        self.write("lab", f'#!/bin/sh\n[ "$*" = --program ] && echo "{os.path.abspath(LAB)}"\n', 0o755)
        self.write("none.resc", "")
        self.environment.pop("LAB", None)
        ran = self.ran(sys.executable, "tools/where", "none.resc")
        self.assertEqual((ran.stdout, ran.stderr), ("at 0.000000\n", ""))


class Snapshots(InRoom):
    def test_registers_and_addresses_are_hexadecimal(self) -> None:
        self.keep("ask.resc")
        status, text, told = self.run_tool("snapshot", "kept")
        self.assertEqual((status, told), (0, ""))
        shown = dict(text_line.split(None, 1)[1].rsplit(" ", 1) for text_line in text.splitlines())
        hart = "boards[1].machine.state.processors[0]"
        wanted = {
            "time": "1000",
            "boards[1].machine.plan.regions[0].base": "0x80000000",
            "boards[1].machine.plan.regions[0].size": "65536",
            f"{hart}.x[2]": "0x80010000",
            f"{hart}.pc": "0x80000016",
            f"{hart}.mie_bit": "False",
            f"{hart}.mtvec": "0x80000038",
            f"{hart}.mcause": "0x8000000b",
            "boards[1].machine.state.devices[0].ier": "0x01",
            "boards[1].machine.state.devices[0].received[0]": "97",
        }
        self.assertEqual({path: shown[path] for path in wanted}, wanted)

    def test_what_moves_a_terminal_is_shown_by_escapes(self) -> None:
        """The name of a board clears the screen, and so does a file that is named. No lab is there to refuse that."""
        self.keep("ask.resc")
        held = (self.room / "kept").read_bytes().replace(b"asker", b"a\x1b[2J")
        (self.room / "clears").write_bytes(held)
        for tool in "snapshot", "where":
            status, text, told = self.run_tool(tool, "clears", LAB="/none/lab")
            self.assertEqual((status, told), (0, ""))
            self.assertIn("a\\x1b[2J", text)
            self.assertNotIn("\x1b", text)
            status, text, told = self.run_tool(tool, "none\x1b[2J\u2028")
            self.assertEqual((status, text), (1, ""))
            self.assertEqual(told, f"tools/{tool}: none\\x1b[2J\\u2028: No such file or directory\n")

    def test_what_lab_refuses_is_no_snapshot(self) -> None:
        """The form of one is right, but two boards have one name."""
        self.keep("ask.resc")
        held = (self.room / "kept").read_bytes()
        twice = held.replace(b"\x08" + bytes(7) + b"answerer", b"\x05" + bytes(7) + b"asker")
        (self.room / "twice").write_bytes(twice)
        for tool in "snapshot", "where":
            status, text, told = self.run_tool(tool, "twice")
            self.assertEqual((status, text), (1, ""))
            wanted = "no snapshot of lab: it has the form of one, but no such laboratory is possible"
            self.assertEqual(told, f"tools/{tool}: twice: {wanted}\n")

    def test_a_wrong_count_is_told_at_once(self) -> None:
        """3 MB of boards without a name and a machine, of which there may be sixteen."""
        count = 3 * 2**20 // 9
        head = b"LABSNAP1" + bytes(8) + (100).to_bytes(8, "little") + count.to_bytes(8, "little")
        (self.room / "boards").write_bytes(head + bytes(9 * count) + bytes(24))
        for tool in "snapshot", "where":
            before = resource.getrusage(resource.RUSAGE_CHILDREN).ru_utime
            status, text, told = self.run_tool(tool, "boards", LAB="/none/lab")
            self.assertLess(resource.getrusage(resource.RUSAGE_CHILDREN).ru_utime - before, 1)
            line = f"laboratory.boards: at most 16 are possible, not {count}, at 24"
            self.assertEqual((status, text, told), (1, "", f"tools/{tool}: boards: no snapshot of lab: {line}\n"))

    def test_a_file_that_never_ends_is_told(self) -> None:
        status, text, told = self.run_tool("snapshot", "/dev/zero")
        line = "tools/snapshot: /dev/zero: no snapshot of lab: more than 67108864 bytes\n"
        self.assertEqual((status, text, told), (1, "", line))
        self.assertEqual(self.refused("/dev/zero"), "tools/where: /dev/zero: /dev/zero: File too large\n")

    def test_a_reader_that_ends_is_no_fault(self) -> None:
        self.keep("ask.resc")
        ran = self.ran("sh", "-c", f'"{sys.executable}" "{TOP}/tools/snapshot" kept | head -n 1')
        self.assertEqual((ran.stdout, ran.stderr), ("       8 time 1000\n", ""))


def halves(*values: int) -> bytes:
    return b"".join(value.to_bytes(2, "little") for value in values)


def words(*values: int) -> bytes:
    return b"".join(value.to_bytes(4, "little") for value in values)


def memory_of(code: bytes) -> machine.Memory:
    return machine.Memory([machine.Region(0x1000, 0x2000, {0: code.ljust(4096, b"\0")})])


class Guesses(unittest.TestCase):
    """What is read from instructions, whose words the manual's formats give."""

    def test_the_first_instructions_of_a_function_tell_its_frame(self) -> None:
        # addi sp, sp, -32; sw ra, 28(sp); sw s0, 24(sp); jal ra, 0; addi sp, sp, 32
        wide = memory_of(words(0xFE010113, 0x00112E23, 0x00812C23, 0x000000EF, 0x02010113))
        self.assertEqual(unwind.prologue(wide, 0x1000, 0x1004), (32, {}))
        self.assertEqual(unwind.prologue(wide, 0x1000, 0x1014), (32, {1: -4, 8: -8}))
        # c.addi16sp -64; c.swsp ra, 60; c.addi sp, -16; c.swsp s0, 0; c.jr ra; c.swsp s1, 4
        short = memory_of(halves(0x7139, 0xDE06, 0x1141, 0xC022, 0x8082, 0xC226))
        self.assertEqual(unwind.prologue(short, 0x1000, 0x100C), (80, {1: -4, 8: -80}))

    def test_jumps_of_a_table_are_followed(self) -> None:
        targets = {0x0080006F: 0x1008, 0xFF1FF06F: 0x0FF0, 0x0010006F: 0x1800, 0x0000106F: 0x2000, 0x008000EF: 0x1000}
        for word, target in targets.items():
            self.assertEqual(unwind.jump_target(0x1000, word), target)
        self.assertEqual(unwind.jump_target(0x1000, None), 0x1000)

    def test_memory_is_read_over_the_border_of_pages(self) -> None:
        memory = machine.Memory([machine.Region(0x1000, 0x2000, {1: b"\x12".ljust(4096, b"\0")})])
        self.assertEqual(memory.read(0x1FFF, 3), b"\0\x12\0")
        self.assertEqual(memory.read(0x2FFF, 1), b"\0")
        self.assertIsNone(memory.read(0x2FFF, 2))
        self.assertIsNone(memory.word(0xFFE))
        self.assertTrue(memory.is_stack(0x3000))
        self.assertFalse(memory.is_stack(0x3004))


def board_of(wires: List[Dict[str, Any]], **state: Any) -> machine.Machine:
    """Returns a board of two processors and a UART, with these wires, at lab time 50, of a timer of 2 ticks a
    microsecond."""
    plan = {
        "names": [{"name": "uart", "what": ("part", {"": ("device", {"number": 0})})}],
        "regions": [],
        "frequency": ("there", {"": 2_000_000}),
        "wires": wires,
        "processors": ["a", "b"],
    }
    uart = {"ier": 0, "received": [], "overrun": False, "empty": False, **state.pop("uart", {})}
    held = {
        "processors": [{"x": [0] * 32, "pc": 0}] * 2,
        "devices": [("uart", uart)],
        "timer": ("there", {"": {"msip": False, "mtimecmp": 107, "offset": 7}}),
        "controller": ("none", {}),
        **state,
    }
    return machine.Machine({"plan": plan, "state": held, "memories": []}, 50)


def to_pin(number: int, pin: int) -> Tuple[str, Dict[str, int]]:
    return "processor", {"number": number, "pin": pin}


class Pins(unittest.TestCase):
    def pending(self, board: machine.Machine) -> List[List[int]]:
        return [sorted(board.pending(hart)) for hart in board.harts]

    def test_the_timer_is_up_from_its_time_on(self) -> None:
        wires = [{"from": ("timer", {}), "to": to_pin(1, 7)}, {"from": ("software", {}), "to": to_pin(0, 3)}]
        self.assertEqual(self.pending(board_of(wires)), [[], [7]])
        later = {"msip": True, "mtimecmp": 108, "offset": 7}
        self.assertEqual(self.pending(board_of(wires, timer=("there", {"": later}))), [[3], []])

    def test_a_uart_is_up_by_what_its_interrupts_are_enabled_for(self) -> None:
        wires = [{"from": ("device", {"number": 0}), "to": to_pin(0, 11)}]
        for is_up, uart in (
            (False, {"received": [1]}),
            (True, {"ier": 1, "received": [1]}),
            (False, {"ier": 2, "received": [1]}),
            (True, {"ier": 2, "empty": True}),
            (True, {"ier": 4, "overrun": True}),
            (False, {"ier": 1, "overrun": True, "empty": True}),
        ):
            self.assertEqual(self.pending(board_of(wires, uart=uart)), [[11] if is_up else [], []], uart)

    def test_a_context_is_up_by_priority_and_threshold(self) -> None:
        wires = [
            {"from": ("device", {"number": 0}), "to": ("source", {"number": 5})},
            {"from": ("context", {"number": 1}), "to": to_pin(1, 11)},
        ]
        ready = {"ier": 1, "received": [1]}
        for wanted, priority, threshold, shut, pending in (
            ([[], [11]], 2, 1, 0, 0),  # its line is up and its gateway is open
            ([[], []], 2, 2, 0, 0),
            ([[], [11]], 2, 1, 1 << 5, 1 << 5),  # it is pending
            ([[], []], 2, 1, 1 << 5, 0),  # it was claimed
        ):
            controller = {
                "priorities": [0] * 5 + [priority] + [0] * 122,
                "pending": pending,
                "shut": shut,
                "enables": [0, 1 << 5] + [0] * 13,
                "thresholds": [0, threshold] + [0] * 13,
            }
            board = board_of(wires, uart=ready, controller=("there", {"": controller}))
            self.assertEqual(self.pending(board), wanted)
            self.assertEqual(board.claimed(), [5] if shut and not pending else [])
            self.assertEqual(board.owners(5), ["uart"])


# In place of lab: says which process it is, begins a log, and waits.
WAITING = """#!/bin/sh
echo a log
echo $$ >"$PROCESS"
exec sleep 600
"""


class Ended(Room):
    """What is left of tools that run lab, which is nothing."""

    def setUp(self) -> None:
        super().setUp()
        self.temporary = self.room / "room"
        self.temporary.mkdir()
        self.put({"s.resc": "", "process": ""})
        self.write("lab", WAITING, 0o755)

    def process(self) -> int:
        """The process of the program that is in place of lab, or 0 where none has begun."""
        return int(self.read("process") or 0)

    def test_its_folder_and_its_run_go_with_it_however_it_ends(self) -> None:
        for number in signal.SIGTERM, signal.SIGHUP, signal.SIGINT, signal.SIGKILL:
            for tool, words in ("where", "s.resc"), ("expect", "s.resc s.log"), ("expect", "--bless s.resc s.log"):
                with self.subTest(number=number, tool=tool, words=words):
                    status, told = self.end_by(number, tool, words.split())
                    wanted = (130, f"tools/{tool}: interrupted\n") if number == signal.SIGINT else (-number, "")
                    self.assertEqual((status, told), wanted)
        self.assertFalse((self.room / "s.log").exists())

    def end_by(self, number: int, tool: str, given: List[str]) -> Tuple[int, str]:
        """Ends a tool by a signal while lab runs. Returns its status, and what it says on the standard error."""
        named = {"LAB": f"{self.room}/lab", "TMPDIR": str(self.temporary), "PROCESS": f"{self.room}/process"}
        words = [sys.executable, "-c", HEED, sys.executable, str(TOP / "tools" / tool), *given]
        self.write("process", "")
        env = {**os.environ, **named}
        with subprocess.Popen(words, cwd=self.room, env=env, stderr=subprocess.PIPE, text=True) as process:
            try:
                wait_for(lambda: self.process() > 0)
                self.assertEqual([it.name.rpartition("-")[0] for it in self.temporary.iterdir()], [f"lab-{tool}"])
                process.send_signal(number)
                told = process.communicate(timeout=240)[1]
                wait_for(lambda: is_ended(self.process()) and not list(self.temporary.iterdir()))
                return process.returncode, told
            finally:
                process.kill()
                if not is_ended(self.process()):
                    os.kill(self.process(), signal.SIGKILL)
