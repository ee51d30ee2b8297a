"""Measures what large input costs the program and tools/suite: the processor seconds and the most memory of a run over
each of these files, and how it ends. The memory of a suite is its own, or that of the largest program that it starts.

    tools/costs              all of them
    tools/costs WORD ..      those whose names have one of these words
    tools/costs --gate COMMAND ..
                             runs this command, such as `rt ci`, and prints what the prover took for each crate

A run is ended after a minute. With LAB set, that program runs. docs/MEASURED.md has what it printed. It ends with 0;
with 2 if no name has one of the words; and with --gate as the command does.
"""
import os
import struct
import subprocess
import sys
import tempfile
from typing import Callable, Dict, List, Tuple, Union

from labdev import trials
from labdev.gate_costs import tell_costs
from labtools.common.program import TOP, end_unless, path_of_program

SECONDS = 60
MIB = 2**20
RAM = "ram: Memory.MappedMemory @ sysbus 0x80000000 { size: 0x10000 }\n"
CPU = 'cpu: CPU.RiscV32 @ sysbus { cpuType: "rv32im" }\n'
BOARD = "mach create\nmachine LoadPlatformDescription @p.repl\n"
P = {"p.repl": RAM + CPU}
Files = Dict[str, Union[str, bytes]]
Made = Callable[[], Files]


def typed(count: int) -> Files:
    return {"s.resc": BOARD, "p.repl": "".join(f"u{n}: UART.NS16550 @ sysbus 0x0\n" for n in range(count))}


def updated(count: int) -> Files:
    names = "".join(f"u{n}: A.B @ sysbus 0x0\n" for n in range(count // 2))
    return {"s.resc": BOARD, "p.repl": names + "".join(f"u{n}: {{ a: 1 }}\n" for n in range(count // 2))}


def further(count: int) -> Files:
    """Further items of one name, each of another key."""
    return {"s.resc": BOARD, "p.repl": RAM + CPU + "".join(f"cpu: {{ k{n}: 1 }}\n" for n in range(count))}


def whole(text: str) -> str:
    """Returns the text so often that it has 16 MiB at most."""
    return text * (16 * MIB // len(text))


def macro() -> Files:
    body = '"""\n'
    runs = "runMacro $m\n" * 10
    return {"s.resc": "macro m\n" + body + whole("#" * 63 + "\n")[: 16 * MIB - 400] + "\n" + body + runs}


def segments() -> Files:
    """An ELF file of 16 MiB, all of which each of its 65,535 segments names."""
    count = 65535
    fields = (2, 243, 1, 0x80000000, 52, 0, 0, 52, 32, count, 0, 0, 0)
    header = b"\x7fELF\1\1\1" + bytes(9) + struct.pack("<HHIIIIIHHHHHH", *fields)
    one = struct.pack("<8I", 1, 0, 0, 0x80000000, 16 * MIB, 16 * MIB, 4, 4)
    image = (header + one * count).ljust(16 * MIB, b"\0")
    ram = "ram: Memory.MappedMemory @ sysbus 0x80000000 { size: 0x1000000 }\n"
    return {"s.resc": BOARD + "sysbus LoadELF @f\n", "p.repl": ram + CPU, "f": image}


def shown(words: List[int], seconds: str) -> Files:
    """A board of 100 MIPS with these words, which runs for so long, and whose UART is shown."""
    board = RAM + "uart: UART.NS16550 @ sysbus 0x10000000\n" + CPU.replace('" }', '"; PerformanceInMips: 100 }')
    script = BOARD + "sysbus LoadBinary @f 0x80000000\ncpu PC 0x80000000\nshowAnalyzer uart\n"
    script += f'emulation RunFor "{seconds}"\n'
    return {"s.resc": script, "p.repl": board, "f": struct.pack(f"<{len(words)}I", *words)}


def prints() -> Files:
    """A board that prints 5 million lines of one byte: lui, addi, addi, and sb, sb, jal in a loop."""
    return shown([0x100002B7, 0x04100313, 0x00A00393, 0x00628023, 0x00728023, 0xFF9FF06F], "0.15")


def talks(seconds: str) -> Files:
    """A board that prints a line of one byte each 114 slots: lui, addi, addi, and addi, 55 times addi and bne, sb, sb,
    jal in a loop."""
    words = [0x100002B7, 0x04100313, 0x00A00393, 0x03700413, 0xFFF40413, 0xFE041EE3, 0x00628023, 0x00728023, 0xFEDFF06F]
    return shown(words, seconds)


def polls() -> Files:
    """A board of 30 MIPS that reads where nothing is in each second slot, for a second: lui, and lw, jal in a loop."""
    board = RAM + CPU.replace('" }', '"; PerformanceInMips: 30 }')
    script = BOARD + 'sysbus LoadBinary @f 0x80000000\ncpu PC 0x80000000\nemulation RunFor "1"\n'
    return {"s.resc": script, "p.repl": board, "f": struct.pack("<3I", 0x900002B7, 0x0002A303, 0xFFDFF06F)}


def suite_of_polls() -> Files:
    """Four tests, each of such a board."""
    files = polls()
    script = files.pop("s.resc")
    tests: Files = {f"{n}.resc": script for n in range(4)}
    return {**files, **tests, **{f"{n}.log": "[0.000000] m0/uart: a line\n" for n in range(4)}}


def lines_of_a_platform() -> Files:
    comments = "".join(f"// {n}\n" for n in range(9998)) * 2
    return {"s.resc": BOARD * 4, "p.repl": RAM + CPU + comments}


def items_of_a_platform() -> Files:
    items = "".join(f"cpu: {{ PerformanceInMips: {n % 1000 + 1} }}\n" for n in range(19998))
    return {"s.resc": BOARD * 4, "p.repl": RAM + CPU + items}


def filled(saves: int) -> Files:
    """Sixteen boards with a MiB of bytes each, kept so often."""
    ram = "ram: Memory.MappedMemory @ sysbus 0x80000000 { size: 0x100000 }\n"
    load = "sysbus LoadBinary @f 0x80000000\n"
    image = bytes(n * n % 251 + 1 for n in range(MIB))
    return {"s.resc": (BOARD + load) * 16 + "Save @x\n" * saves, "p.repl": ram + CPU, "f": image}


def kept(program: str) -> Files:
    """A snapshot of them, which is taken back."""
    with tempfile.TemporaryDirectory(prefix="lab-costs-") as room:
        place(room, filled(1))
        trials.run([program, "run", "s.resc"], room)
        return {"s.resc": "Load @x\n", "x": trials.files_in(room)["x"]}


def waiting() -> Files:
    """Sixteen boards that have sent 6,250 bytes each, which are due a second later, and are halted for 1,000 rounds:
    lui, and sb, jal in a loop."""
    uart = "uart: UART.NS16550 @ sysbus 0x10000000\n"
    load = "sysbus LoadBinary @f 0x80000000\ncpu PC 0x80000000\nconnector Connect uart hub\n"
    halt = "".join(f"mach set {n}\ncpu IsHalted true\n" for n in range(16))
    runs = 'emulation RunFor "0.000125"\n' + halt + 'emulation RunFor "0.1"\n'
    image = struct.pack("<3I", 0x100002B7, 0x00028023, 0xFFDFF06F)
    script = 'emulation CreateUARTHub "hub" "1"\n' + (BOARD + load) * 16 + runs
    return {"s.resc": script, "p.repl": RAM + uart + CPU, "f": image}


INPUTS: Dict[str, Made] = {
    "platform of 16,000 typed heads": lambda: typed(16000),
    "platform of 64,000 typed heads": lambda: typed(64000),
    "platform of 64,000 heads, half of them further": lambda: updated(64000),
    "platform of 16 MiB, typed heads": lambda: typed(430000),
    "platform of 20,000 further items of other keys": lambda: further(20000),
    "platform of 16 MiB, further items of other keys": lambda: further(840000),
    "99,999 hubs": lambda: {"s.resc": "".join(f'emulation CreateUARTHub "h{n}"\n' for n in range(99999))},
    "10,000 hubs": lambda: {"s.resc": "".join(f'emulation CreateUARTHub "h{n}"\n' for n in range(10000))},
    "variable of 1,000,000 letters in 1,000 lines": lambda: {
        "s.resc": '$v="' + "x" * 1000000 + '"\n' + "$w=$v\n" * 1000
    },
    "variable of 1,000,000 letters in 1,000 variables": lambda: {
        "s.resc": '$v="' + "x" * 1000000 + '"\n' + "".join(f"$w{n}=$v\n" for n in range(1000))
    },
    "16 Mi line feeds": lambda: {"s.resc": "\n" * (16 * MIB)},
    "include of itself, 16 MiB": lambda: {
        "s.resc": "include @f\n",
        "f": "include @f\n" + whole("#" * 63 + "\n")[: 16 * MIB - 64],
    },
    "include of itself, 16 MiB of short lines": lambda: {
        "s.resc": "include @f\n",
        "f": whole("#\n")[: 16 * MIB - 64] + "include @f\n",
    },
    "macro of 16 MiB, run ten times": macro,
    "macro of 16 MiB of short lines, run ten times": lambda: {
        "s.resc": 'macro m\n"""\n' + whole("#\n")[: 16 * MIB - 400] + '"""\n' + "runMacro $m\n" * 10
    },
    "65,535 segments of 16 MiB": segments,
    "5 million lines printed": prints,
    "a line each 114 slots, 20 million slots": lambda: talks("0.2"),
    "a line each 114 slots, 200 million slots": lambda: talks("2"),
    "an address at which nothing stands, read 15 million times": polls,
    "100,000 bytes wait for 1,000 rounds, sixteen boards halted": waiting,
    "10,000 s of rounds of 1 µs without boards": lambda: {
        "s.resc": 'emulation SetGlobalQuantum "0.000001"\nemulation RunFor "10000"\n'
    },
    "platform of 20,000 lines, loaded four times": lines_of_a_platform,
    "platform of 20,000 further items, loaded four times": items_of_a_platform,
    "16 boards of a MiB each": lambda: filled(0),
    "16 boards of a MiB each, kept ten times": lambda: filled(10),
}
TAKEN_BACK = "16 boards of a MiB each, taken back"
# The most that each test of a suite may print.
SUITES: Dict[str, str] = {
    "a suite of four tests that poll, each up to 100 KB": "100000",
    "a suite of four tests that poll, each up to 10 MB": "10000000",
    "a suite of four tests that poll, each up to 100 MB": "100000000",
    "a suite of four tests that poll, each up to 500 MB": "500000000",
}


def place(room: str, files: Files) -> None:
    trials.put(room, {name: held if isinstance(held, bytes) else held.encode() for name, held in files.items()})


def measure(files: Files, words: List[str], program: str) -> Tuple[int, float, float, int, str]:
    """Returns how these words end beside files, their seconds, their most memory in MB, and how many bytes are printed,
    with the last line."""
    with tempfile.TemporaryDirectory(prefix="lab-costs-") as room:
        place(room, files)
        # `time` starts the run, since a run's most memory counts that of the program which has started it.
        limited = ["bash", "-c", f'ulimit -t {SECONDS}; exec "$@"', "-", *words]
        timed = ["/usr/bin/time", "-q", "-f", "%U %S %M", "-o", f"{room}/used", *limited]
        environment = {**os.environ, "LAB": program, "TMPDIR": room}
        with open(f"{room}/printed", "w+b") as printed:
            ran = subprocess.run(timed, stdout=printed, cwd=room, stdin=subprocess.DEVNULL, env=environment)
            size = printed.seek(0, os.SEEK_END)
            printed.seek(max(size - 120, 0))
            text = printed.read()
        with open(f"{room}/used", encoding="ascii") as file:
            user, system, memory = map(float, file.read().split()[-3:])
        last = text.split(b"\n")[-2].decode(errors="replace") if b"\n" in text else ""
        return ran.returncode, user + system, memory / 1024, size, last


def tell(name: str, files: Files, words: List[str], program: str) -> None:
    size = sum(map(len, files.values())) / 1e6
    status, seconds, memory, printed, last = measure(files, words, program)
    print(
        f"{name}: {size:.1f} MB of files, ends with {status} after {seconds:.2f} s, {memory:.0f} MB, "
        f"{printed / 1e6:.1f} MB printed; {last[:60]}",
        flush=True,
    )


def main(words: List[str]) -> int:
    if words[:1] == ["--gate"]:
        end_unless(len(words) > 1, "--gate COMMAND ..")
        return tell_costs(words[1:])
    names = [*INPUTS, TAKEN_BACK, *SUITES]
    for word in words:
        end_unless(any(word in name for name in names), "[WORD ..]", f"no name has the word {word}")
    program = path_of_program()
    inputs: Dict[str, Made] = {**INPUTS, TAKEN_BACK: lambda: kept(program)}
    for name in names:
        if words and not any(word in name for word in words):
            continue
        if name in inputs:
            tell(name, inputs[name](), [program, "run", "s.resc"], program)
        else:
            suite = [sys.executable, f"{TOP}/tools/suite", "--most", SUITES[name], "."]
            tell(name, suite_of_polls(), suite, program)
    return 0
