"""Tries functions of labtools and labdev at their limits: which variants and flags a snapshot may have, how paths and
names of an ELF file are shown, when a processor is said to be in a trap loop, what the files of a case are, and which
signs of a text are printed as escapes.
"""
import os
import tempfile
import types
import unittest
from typing import Any, Dict, List, Optional, Tuple

from labdev import cases
from labtools.boards import machine, snapshot, stacks, traps
from labtools.common import escapes
from labtools.common.program import TOP
from labtools.elf import elf, unwind
from tests.commands import Room

HANDLER = 0x80000100


class Snapshots(unittest.TestCase):
    def test_a_variant_is_one_of_its_cases(self) -> None:
        cases: List[Tuple[str, snapshot.Fields]] = [("none", []), ("there", [])]
        for byte, name in ((0, "none"), (1, "there")):
            self.assertEqual(snapshot.Reader(bytes([byte])).variant(*cases)("it"), (name, {}))
        for byte in 2, 255:
            with self.assertRaises(snapshot.NoSnapshot) as refused:
                snapshot.Reader(bytes([byte])).variant(*cases)("it")
            self.assertEqual(str(refused.exception), f"it: there is no variant {byte} at 0")

    def test_a_flag_is_0_or_1(self) -> None:
        self.assertEqual([snapshot.Reader(bytes([byte])).flag("it") for byte in (0, 1)], [False, True])
        with self.assertRaises(snapshot.NoSnapshot):
            snapshot.Reader(b"\2").flag("it")


Part = Tuple[str, Dict[str, Any]]
NONE: Part = ("none", {})


def there(value: object) -> Part:
    return "there", {"": value}


def numbered(kind: str, number: int) -> Part:
    return kind, {"number": number}


class Machines(unittest.TestCase):
    """Boards of a processor, a memory, a UART and an interrupt controller without a timer."""

    def told(self, **changed: Any) -> str:
        """Returns what is wrong with a board whose plan or state is changed so, once its pins are asked for."""
        plan = {
            "names": [{"name": "plic", "what": ("part", {"": ("controller", {})})}],
            "regions": [{"base": 0, "size": 4096, "what": numbered("memory", 0)}],
            "frequency": NONE,
            "controller": there({"sources": 31, "contexts": 1}),
            "wires": [],
            "processors": ["cpu"],
        }
        state = {
            "processors": [{"x": [0] * 32, "pc": 0}],
            "reservations": [NONE],
            "timer": NONE,
            "controller": there(
                {"pending": 0, "shut": 0, "enables": [2] * 15, "thresholds": [0] * 15, "priorities": [1] * 128}
            ),
            "devices": [("finisher", {})],
        }
        for part in plan, state:
            part.update({name: value for name, value in changed.items() if name in part})
        try:
            board = machine.machine_of(
                {"name": "m", "machine": there({"plan": plan, "state": state, "memories": [[]]})}, 0
            )
            assert board
            return str([board.pending(hart) for hart in board.harts])
        except snapshot.NoSnapshot as fault:
            return str(fault)

    def wired(self, begin: Part, end: Part) -> str:
        return self.told(wires=[{"from": begin, "to": end}])

    def test_each_part_that_is_named_is_there(self) -> None:
        pin, source = ("processor", {"number": 0, "pin": 11}), numbered("source", 1)
        self.assertEqual(self.told(), "[set()]")
        self.assertEqual(self.wired(numbered("context", 14), pin), "[set()]")
        for told, wanted in (
            (self.wired(numbered("device", 1), source), "a wire refers to a device that does not exist"),
            (self.wired(("timer", {}), pin), "a wire refers to a timer that does not exist"),
            (self.wired(("software", {}), pin), "a wire refers to a software that does not exist"),
            (self.wired(numbered("context", 15), pin), "a wire refers to a context that does not exist"),
            (
                self.wired(numbered("device", 0), numbered("source", 128)),
                "a wire refers to a source that does not exist",
            ),
            (self.wired(numbered("context", 0), source), "a wire leads from the interrupt controller to itself"),
            (
                self.told(regions=[{"base": 4096, "size": 4096, "what": numbered("memory", 1)}]),
                "the region at 0x00001000 refers to a memory that does not exist",
            ),
            (self.told(controller=NONE), "the name plic refers to a controller that does not exist"),
            (self.told(reservations=[]), "0 reservations, but 1 processors in the plan"),
            (self.told(names=[]), "the interrupt controller has no name"),
        ):
            self.assertEqual(told, f"board m: {wanted}")


class Images(Room):
    def test_marks_of_the_assembler_are_no_functions(self) -> None:
        names = "main", "_start", "a.part.0", "", "$x", "$d", ".L4"
        self.assertEqual([name for name in names if elf.is_code_name(name)], ["main", "_start", "a.part.0"])

    def test_a_path_is_shown_from_this_folder_on_where_it_lies_in_it(self) -> None:
        self.enter()
        for path, wanted in (
            (f"{self.room}/src/./main.c", "src/main.c"),
            (f"{self.room}/main.c", "main.c"),
            ("/none/main.c", "/none/main.c"),
            ("src/./main.c", "src/main.c"),
            ("../main.c", "../main.c"),
        ):
            self.assertEqual(elf.short(path), wanted)


class Forms(unittest.TestCase):
    """The places of fields are those of the ELF manual: of the header, of a segment and of the header of a section."""

    def fault_with(self, at: int, value: int, width: int) -> str:
        """What is wrong first with ask.elf where a field is another one."""
        data = bytearray(self.data)
        data[at : at + width] = value.to_bytes(width, "little")
        return next(elf.faults_of(bytes(data)), "")

    def test_each_fault_of_a_table_is_told(self) -> None:
        self.data = (TOP / "python/tests/data/where/ask.elf").read_bytes()
        fields = (28, 32), (32, 36), (48, 50)
        segment, first, count = (int.from_bytes(self.data[at:end], "little") for at, end in fields)
        places = [first + 40 * number for number in range(count)]
        (symbols,) = (number for number, at in enumerate(places) if self.data[at + 4] == 2)
        for at, value, width, wanted in (
            (36, 0, 4, ""),
            (42, 31, 2, "the headers of its segments have 31 bytes, and not 32"),
            (46, 41, 2, "the headers of its sections have 41 bytes, and not 40"),
            (28, len(self.data) - 31, 4, "the headers of its segments end behind its end"),
            (48, count + 1, 2, "the headers of its sections end behind its end"),
            (segment + 16, len(self.data), 4, "segment 0 ends behind its end"),
            (places[1] + 16, len(self.data), 4, "section 1 ends behind its end"),
            (50, 0, 2, "the table with the names of its sections is missing"),
            (50, count, 2, "the table with the names of its sections is missing"),
            (places[symbols] + 24, count, 4, "the table with the names of its symbols is missing"),
            (places[symbols] + 36, 17, 4, f"section {symbols} has symbols of 17 bytes, and not 16"),
        ):
            with self.subTest(at=at, value=value):
                self.assertEqual(self.fault_with(at, value, width), wanted)


class Tables(unittest.TestCase):
    """Rows of a table of frames, as pyelftools give them: register 2 is sp, 1 is ra, and 32 a floating-point one."""

    def test_only_sums_of_a_register_and_offsets_of_registers_are_taken(self) -> None:
        saved = types.SimpleNamespace(type="OFFSET", arg=-4)
        other = types.SimpleNamespace(type="EXPRESSION", arg=[0x70])
        rows: List[Tuple[Tuple[Any, Any, Any], Dict[Any, Any], elf.Row]] = [
            ((2, 0, None), {}, elf.Row(0x80000000, (2, 0), {})),
            ((2, 16, None), {1: saved, 8: other}, elf.Row(0x80000000, (2, 16), {1: -4})),
            ((32, 16, None), {1: saved, 33: saved}, elf.Row(0x80000000, None, {1: -4})),
            ((None, None, [0x72]), {}, elf.Row(0x80000000, None, {})),
        ]
        for (register, offset, expression), rules, wanted in rows:
            cfa = types.SimpleNamespace(reg=register, offset=offset, expr=expression)
            self.assertEqual(elf.row_of({"pc": 0x80000000, "cfa": cfa, **rules}), wanted)


class Traps(unittest.TestCase):
    def loop(self, pc: int = HANDLER, **state: int) -> Optional[traps.TrapLoop]:
        """What is said of a processor without a file that names functions."""
        held = dict(mtvec=HANDLER, mcause=0, mtval=0, mepc=HANDLER, mie=0, mcycle=9, minstret=2, halted=0, waiting=0)
        hart = machine.Hart("cpu", 0, [0] * 32, pc, {**held, **state})
        stack = unwind.Stack(hart, machine.Memory([]), unwind.Code([]))
        return traps.loop_of(hart, stack, stack.frames())

    def test_a_processor_traps_again_and_again_at_its_handler(self) -> None:
        """It does not after an interrupt, or elsewhere, or while it waits or is halted."""
        rows: List[Tuple[bool, Dict[str, int]]] = [
            (True, {"mcause": 2}),
            (True, {"mtval": 4}),
            (True, {}),
            (False, {"mcause": 0x80000007}),
            (False, {"mcause": 2, "pc": HANDLER + 4}),
            (False, {"mcause": 2, "mepc": HANDLER + 4}),
            (False, {"mcause": 2, "waiting": 1}),
            (False, {"mcause": 2, "halted": 1}),
        ]
        for is_loop, state in rows:
            with self.subTest(state=state):
                self.assertEqual(self.loop(**state) is not None, is_loop)

    def test_entries_are_the_slots_in_which_no_instruction_retired(self) -> None:
        loop = self.loop(mcause=2)
        self.assertEqual(loop, traps.TrapLoop(7, False, 2, HANDLER, True))
        assert loop
        self.assertIn("a trap loop: 7 entries of cause 2 at 0x80000100, where the handler begins", traps.text_of(loop))

    def test_slots_in_which_it_may_have_waited_are_told_as_such(self) -> None:
        loop = self.loop(mcause=2, mie=0x80)
        assert loop
        self.assertIn("a trap loop: at most 7 entries of cause 2", traps.text_of(loop))


class Stacks(unittest.TestCase):
    def test_a_stack_is_one_where_it_begins_at_one_place_or_frames_lie_among_frames(self) -> None:
        """How many pairs are told of processors with these stacks, from the stack pointer to the top. Stacks below one
        another are not one."""
        for pairs, extents in (
            (1, ((0x8FE0, 0x9000), (0x9000, 0x9000))),
            (1, ((0x8FE0, 0x9000), (0x8FF0, 0x8FF0))),
            (1, ((0x8FE0, 0x8FE0), (0x8FE0, 0x8FE0))),
            (3, ((0x8FE0, 0x9000), (0x8FD0, 0x9000), (0x8FC0, 0x9000))),
            (0, ((0x8F00, 0x9000), (0x7FE0, 0x8000), (0x7000, 0x7000))),
        ):
            told = stacks.shared([stacks.Extent(f"cpu{n}", low, top) for n, (low, top) in enumerate(extents)])
            self.assertEqual(len(told), pairs, extents)


CASE = """What it shows.

-- one --
a
-- + one --
b
-- dir/two after one --
c
-- three x 2 --
d
-- four in escapes --
\\x41\\n
B
-- five in words --
64636261 # a note
-- six as five --
2: 00007A79
length: 5
-- lab run --workers 2 x.resc = 3 with five of 0 to 3 bytes --
-- each six after one: lab run x.resc, snapshot kept time --
e
=> time 1
f
g
=> time 2
=> time 3
-- each refused S2 arguments --
h
-- snapshot five time --
-- lab check x.resc --
"""
FILES = {
    "one": b"a\nb\n",
    "dir/two": b"a\nb\nc\n",
    "three": b"d\nd\n",
    "four": b"A\nB",
    "five": b"abcd",
    "six": b"abyz\0",
}


class Cases(unittest.TestCase):
    def runs(self) -> List[Tuple[List[str], Dict[str, bytes]]]:
        with tempfile.NamedTemporaryFile(mode="w") as file:
            file.write(CASE)
            file.flush()
            return [(run.words, dict(run.files)) for run in cases.runs_of(file.name)]

    def test_each_form_of_a_part_makes_its_file(self) -> None:
        self.assertEqual(self.runs()[0], (["run", "--workers", "2", "x.resc"], FILES))

    def test_each_row_is_a_run_over_its_own_file(self) -> None:
        rows = self.runs()[1:3]
        self.assertEqual([words for words, _ in rows], [["run", "x.resc"]] * 2)
        self.assertEqual([files["six"] for _, files in rows], [b"a\nb\ne\n", b"a\nb\nf\ng\n"])

    def test_a_line_is_refused_in_three_scripts(self) -> None:
        scripts = [files["s.resc"] for _, files in self.runs()[3:6]]
        in_macro = b'macro inner\n"""\n\n    h\n"""\nrunMacro $inner\n'
        self.assertEqual(scripts, [b"h\nfoo\n", in_macro, b"include @i.resc\n"])

    def test_a_snapshot_is_gone_behind_its_look(self) -> None:
        words, files = self.runs()[6]
        self.assertEqual((words, "five" in files), (["check", "x.resc"], False))


# Texts, and what is printed of them.
SHOWN = {
    "tests/größe 1.resc": "tests/größe 1.resc",
    "日本": "日本",
    "a\\x1b": "a\\x1b",
    "a\nok 2 - b": "a\\x0aok 2 - b",
    "\x1b[31m\t\x7f": "\\x1b[31m\\x09\\x7f",
    "\x85\xa0\u2028\u2029": "\\x85\\xa0\\u2028\\u2029",
    "\u202e\ufeff\U000e0001": "\\u202e\\ufeff\\U000e0001",
    os.fsdecode(b"\x80.\xff"): "\\x80.\\xff",
    "\ud800": "\\ud800",
}


class Escapes(unittest.TestCase):
    def test_signs_that_cannot_be_seen_are_escaped(self) -> None:
        self.assertEqual({text: escapes.shown(text) for text in SHOWN}, SHOWN)

    def test_lines_stay_lines(self) -> None:
        self.assertEqual(escapes.shown_lines("a\tb\x1b\nc\u2028\n"), "a\tb\\x1b\nc\\u2028\n")
