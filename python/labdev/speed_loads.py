"""The workloads of tools/speed: laboratories of one kind of work each, and how many units of it a run has."""
import dataclasses
import functools
import pathlib
from typing import Callable, Dict, Iterator, List, Optional, Sequence, Tuple

from labtools.logs.log_lines import time_text

LOOPS = pathlib.Path(__file__).with_name("speed.loops")
START = 0x80000000
# Where each processor's memory begins on a board on which each has one of its own.
APART = 0x1000000
# Instructions of a processor in a microsecond, where a workload does not say otherwise.
MIPS = 100
# The lengths of a workload's two runs, in microseconds: whole rounds of a hundred.
SHORT, LONG = 200, 600
BOARDS = 16
SLOTS_OF_GEN = 1_000_000


@dataclasses.dataclass(frozen=True)
class Program:
    """Instructions in order, each a word or a half-word as bytes, and the number of those before the loop."""

    instructions: List[bytes]
    before: int

    @property
    def image(self) -> bytes:
        return b"".join(self.instructions)

    def place_after(self, slots: int) -> int:
        """Returns how many bytes the next instruction lies behind the first one, where none of them leaves the line."""
        if slots >= self.before:
            slots = self.before + (slots - self.before) % (len(self.instructions) - self.before)
        return len(b"".join(self.instructions[:slots]))

    def behind(self, first: "Program") -> "Program":
        return Program(first.instructions + self.instructions, len(first.instructions) + self.before)


def program_of(lines: Sequence[str]) -> Program:
    """Returns the program of lines in the form of the file of loops."""
    instructions: List[bytes] = []
    before, times = 0, 1
    for line in lines:
        if line == "loop:":
            before = len(instructions)
        elif line.startswith(".rept "):
            times = int(line[6:])
        elif line == ".endr":
            times = 1
        elif line.startswith(" "):
            instructions += [bytes.fromhex(line.split()[0])[::-1]] * times
    return Program(instructions, before)


def listings() -> Dict[str, List[str]]:
    """Returns the lines of each program of the file of loops, by its name."""
    found: Dict[str, List[str]] = {}
    for line in LOOPS.read_text(encoding="ascii").splitlines():
        if line.startswith("= "):
            lines = found.setdefault(line[2:], [])
        elif line and not line.startswith("#"):
            lines.append(line)
    return found


@functools.lru_cache(maxsize=None)
def programs() -> Dict[str, Program]:
    """Returns each program of the file of loops, by its name."""
    return {name: program_of(lines) for name, lines in listings().items()}


@dataclasses.dataclass(frozen=True)
class Run:
    """A run of the program: its words, the files of its folder, and how many units of work it has; none where these
    are the bytes that it prints."""

    words: List[str]
    files: Dict[str, bytes]
    units: Optional[int]


@dataclasses.dataclass(frozen=True)
class Load:
    """A workload: its name, what is counted, and the run of so many microseconds. It is run at two lengths, and what
    lies between them is counted; or at one, and the whole run is."""

    name: str
    unit: str
    run: Callable[[int], Run]
    lengths: Sequence[int] = (SHORT, LONG)


@dataclasses.dataclass(frozen=True)
class Form:
    """What sets the boards apart that run a loop."""

    letters: str = ""
    harts: int = 1
    is_wired: bool = False
    is_apart: bool = False
    mips: int = MIPS

    @property
    def starts(self) -> List[int]:
        """Where each processor begins."""
        return [START + (APART * hart if self.is_apart else 0) for hart in range(self.harts)]

    @property
    def bases(self) -> List[int]:
        """Where the memories begin."""
        return sorted(set(self.starts))


FORMS = {
    "plain": Form(),
    "wired": Form(is_wired=True),
    "c": Form("c"),
    "half": Form("c"),
    "a": Form("a"),
    "two": Form("a", 2),
    "four": Form("a", 4),
    "two-apart": Form("a", 2, is_apart=True),
}
KINDS = ("jumps", "additions", "products", "memory", "branches", "csr", "uart", "polls", "atomics")
# Loops whose instructions are not run in the order of their addresses.
JUMPING = ("polls",)


WIRED = """    -> plic@10
clint: IRQControllers.CoreLevelInterruptor @ sysbus 0x2000000
    frequency: 1000000
    [0, 1] -> cpu0@[3, 7]
plic: IRQControllers.PlatformLevelInterruptController @ sysbus 0xC000000
    numberOfSources: 31
    0 -> cpu0@11
"""


def platform(form: Form) -> str:
    """Returns a board's description: a UART, memories, processors, and on a wired one a timer and a controller."""
    text = "uart: UART.NS16550 @ sysbus 0x10000000\n" + (WIRED if form.is_wired else "")
    for number, base in enumerate(form.bases):
        text += f"ram{number}: Memory.MappedMemory @ sysbus {base:#x} {{ size: 0x10000 }}\n"
    for hart in range(form.harts):
        text += f'cpu{hart}: CPU.RiscV32 @ sysbus\n    cpuType: "rv32im{form.letters}"\n'
        text += f"    PerformanceInMips: {form.mips}\n" + "    timeProvider: clint\n" * form.is_wired
    return text


def board(number: int, form: Form) -> List[str]:
    """Returns the lines that make a board with the program in each of its memories."""
    lines = [f'mach create "m{number}"', "machine LoadPlatformDescription @board.repl"]
    lines += [f"sysbus LoadBinary @program {base:#x}" for base in form.bases]
    return lines + [f"cpu{hart} PC {start:#x}" for hart, start in enumerate(form.starts)]


def files(form: Form, program: Program, script: Sequence[str]) -> Dict[str, bytes]:
    text = "".join(f"{line}\n" for line in script)
    return {"s.resc": text.encode(), "board.repl": platform(form).encode(), "program": program.image}


def run_for(micros: int) -> str:
    return f'emulation RunFor "{time_text(micros)}"'


def loop(kind: str, form_name: str) -> Load:
    """Returns the workload of a board that runs a loop."""
    form = FORMS[form_name]
    program = programs()[f"{kind}/half" if form_name == "half" else kind]
    if form.is_wired:
        program = program.behind(programs()["interrupts"])

    def made(micros: int) -> Run:
        script = [*board(0, form), run_for(micros)]
        return Run(["run", "s.resc"], files(form, program, script), micros * form.mips * form.harts)

    return Load(f"{kind}/{form_name}", "slot", made)


def loops() -> Iterator[Load]:
    """The workloads of single boards: not all loops have all forms."""
    for kind in KINDS:
        for name, form in FORMS.items():
            is_half_there = name != "half" or f"{kind}/half" in programs()
            # The loop `csr` writes where the handler stands, and atomic operations take their letter.
            is_wired_well = not (form.is_wired and kind == "csr")
            if is_half_there and is_wired_well and (kind != "atomics" or "a" in form.letters):
                yield loop(kind, name)


def gen(boards: int) -> Load:
    """The workload of generated boards, each of so many slots: a run of one length."""
    words = ["gen", "7", str(boards)]
    return Load(f"gen/{boards}", "slot", lambda _: Run(words, {}, boards * SLOTS_OF_GEN), (0,))


def rounds(name: str, kind: str, lines: Sequence[str] = ()) -> Load:
    """The workload of sixteen boards of one instruction a microsecond, in rounds of one microsecond. The lines are
    taken for each board."""
    form = Form(mips=1)

    def made(micros: int) -> Run:
        script = ['emulation SetGlobalQuantum "0.000001"']
        for number in range(BOARDS):
            script += [*board(number, form), *lines]
        script.append(run_for(micros))
        return Run(["run", "s.resc"], files(form, programs()[kind], script), micros * BOARDS)

    return Load(f"rounds/{name}", "board and round", made)


def posts(name: str, boards_a_hub: int, delay: str = "0") -> Load:
    """The workload of sixteen boards that send 1,500 bytes each in a round over hubs of so many boards; nobody reads
    them."""
    form = Form(mips=16)

    def made(micros: int) -> Run:
        script = []
        for number in range(BOARDS):
            hub = number // boards_a_hub
            if number % boards_a_hub == 0:
                script.append(f'emulation CreateUARTHub "hub{hub}" "{delay}"')
            script += [*board(number, form), f"connector Connect uart hub{hub}"]
        script.append(run_for(micros))
        slots = micros * form.mips
        return Run(["run", "s.resc"], files(form, programs()["posts"], script), BOARDS * sent_in(slots))

    return Load(f"posts/{name}", "post", made)


def sent_in(slots: int) -> int:
    """Returns how many bytes a board sends in so many slots: two instructions come before the loop, of whose sixteen
    the last sends none."""
    turns, rest = divmod(max(slots - 2, 0), 16)
    return 15 * turns + min(rest, 15)


def printed(kind: str) -> Load:
    """The workload of a board whose bytes are shown: its units are the bytes of the log."""
    form = Form()

    def made(micros: int) -> Run:
        script = [*board(0, form), "showAnalyzer uart", run_for(micros)]
        return Run(["run", "s.resc"], files(form, programs()[kind], script), None)

    return Load(f"print/{kind}", "byte of log", made)


def loads() -> List[Load]:
    """Returns all workloads in the order of the tables."""
    others = [gen(1), gen(16), rounds("busy", "jumps"), rounds("waiting", "waits")]
    others += [rounds("halted", "jumps", ["cpu0 IsHalted true"])]
    others += [posts("one-hub", BOARDS), posts("pairs", 2), posts("delay", BOARDS, "0.000001")]
    return [*loops(), *others, printed("letters"), printed("lines")]


def chosen(words: Sequence[str]) -> List[Load]:
    """Returns the workloads that words name, each of which is a workload, a loop or a form, or all of them where there
    is no word. A KeyError has a word that names none."""
    named: List[Tuple[Load, List[str]]] = [(it, [it.name, *it.name.split("/")]) for it in loads()]
    for word in words:
        if not any(word in names for _, names in named):
            raise KeyError(word)
    return [it for it, names in named if not words or set(words) & set(names)]
