"""The laboratories that tools/cuts makes, with their firmware, and what they have to show."""
from typing import List, Set, Tuple

from labdev.cases import Files
from labtools.boards import snapshot


def words_of(*words: int) -> bytes:
    return b"".join(word.to_bytes(4, "little") for word in words)


# Hart 0 counts by LR and SC, hart 1 waits, and hart 3 has the CAN controller take all frames, of which it reads none,
# and the interrupt controller the UART's interrupt, with its FIFOs on, and claims it without completing it.
FOUR = words_of(
    0xF14022F3,  # csrrs x5, mhartid, x0
    0x00100313,  # addi x6, x0, 1
    0x04028463,  # beq x5, x0, 72: hart 0
    0x04628C63,  # beq x5, x6, 88: hart 1
    0x0C0003B7,  # lui x7, 0x0C000
    0x0063A223,  # sw x6, 4(x7): the priority of source 1
    0x00200413,  # addi x8, x0, 2
    0x0C0024B7,  # lui x9, 0x0C002
    0x0084A023,  # sw x8, 0(x9): context 0 takes source 1
    0x10000537,  # lui x10, 0x10000
    0x00650123,  # sb x6, 2(x10): FIFOs on
    0x006500A3,  # sb x6, 1(x10): interrupt of received data
    0x10001837,  # lui x16, 0x10001
    0x0FF00893,  # addi x17, x0, 255
    0x011802A3,  # sb x17, 5(x16): all identifiers
    0x00080023,  # sb x0, 0(x16): operating mode
    0x0C2005B7,  # lui x11, 0x0C200
    0x0045A603,  # lw x12, 4(x11): claim
    0xFE060EE3,  # beq x12, x0, -4
    0x0000006F,  # jal x0, 0
    0x800086B7,  # lui x13, 0x80008
    0x1006A72F,  # lr.w x14, (x13)
    0x00170713,  # addi x14, x14, 1
    0x18E6A7AF,  # sc.w x15, x14, (x13)
    0xFF5FF06F,  # jal x0, -12
    0x10500073,  # wfi
    0xFFDFF06F,  # jal x0, -4
)

# Sends a byte every few microseconds.
SENDER = words_of(
    0x100002B7,  # lui x5, 0x10000
    0x04100313,  # addi x6, x0, 65
    0x00628023,  # sb x6, 0(x5)
    0x00500393,  # addi x7, x0, 5
    0xFFF38393,  # addi x7, x7, -1
    0xFE039EE3,  # bne x7, x0, -4
    0xFF1FF06F,  # jal x0, -16
)

# Hart 1 waits. Hart 0 has its CAN controller take all frames and make interrupts of them, and its UART have FIFOs and
# make interrupts of bytes; the interrupt controller gives both to hart 1, which takes none. Then it sets the timer, and
# sends a byte.
TAKER = words_of(
    0xF14022F3,  # csrrs x5, mhartid, x0
    0x00028463,  # beq x5, x0, 8: hart 0
    0x10500073,  # wfi
    0x10001337,  # lui x6, 0x10001
    0x0FF00393,  # addi x7, x0, 255
    0x007302A3,  # sb x7, 5(x6): all identifiers
    0x00200413,  # addi x8, x0, 2
    0x00830023,  # sb x8, 0(x6): operating mode, interrupt of received frames
    0x100004B7,  # lui x9, 0x10000
    0x00100513,  # addi x10, x0, 1
    0x00A48123,  # sb x10, 2(x9): FIFOs on
    0x00A480A3,  # sb x10, 1(x9): interrupt of received data
    0x0C0005B7,  # lui x11, 0x0C000
    0x00A5A223,  # sw x10, 4(x11): the priority of source 1
    0x0085A423,  # sw x8, 8(x11): and of source 2
    0x0C0025B7,  # lui x11, 0x0C002
    0x0085A023,  # sw x8, 0(x11): context 0 takes source 1
    0x02004637,  # lui x12, 0x02004
    0x00762023,  # sw x7, 0(x12): mtimecmp
    0x00062223,  # sw x0, 4(x12)
    0x00A48023,  # sb x10, 0(x9): a byte
    0x0000006F,  # jal x0, 0
)

# Sends a byte in microsecond 7 and a frame in the next one, and again where it goes on at AGAIN.
AGAIN = 0x8000001C
GIVER = words_of(
    0x100002B7,  # lui x5, 0x10000
    0x10001337,  # lui x6, 0x10001
    0x00030023,  # sb x0, 0(x6): operating mode
    0x04100393,  # addi x7, x0, 65
    0x007305A3,  # sb x7, 11(x6): identifier 2, one byte
    0x00730623,  # sb x7, 12(x6): the byte
    0x00100413,  # addi x8, x0, 1
    0x00728023,  # sb x7, 0(x5)
    0x008300A3,  # sb x8, 1(x6)
    0x0000006F,  # jal x0, 0
)

TAKER_BOARD = """ram: Memory.MappedMemory @ sysbus 0x80000000 { size: 0x1000 }
uart: UART.NS16550 @ sysbus 0x10000000 { -> plic@1 }
can: CAN.SJA1000 @ sysbus 0x10001000 { -> plic@2 }
clint: IRQControllers.CoreLevelInterruptor @ sysbus 0x2000000 { frequency: 1000000; [0,1] -> cpu0@[3,7] }
plic: IRQControllers.PlatformLevelInterruptController @ sysbus 0xC000000 { numberOfSources: 2; 0 -> cpu1@11 }
cpu0: CPU.RiscV32 @ sysbus { cpuType: "rv32imac"; PerformanceInMips: 1 }
cpu1: CPU.RiscV32 @ sysbus { cpuType: "rv32imac"; PerformanceInMips: 1 }
"""
GIVER_BOARD = """ram: Memory.MappedMemory @ sysbus 0x80000000 { size: 0x1000 }
uart: UART.NS16550 @ sysbus 0x10000000
can: CAN.SJA1000 @ sysbus 0x10001000
cpu: CPU.RiscV32 @ sysbus { cpuType: "rv32im"; PerformanceInMips: 1 }
"""

FOUR_BOARD = """ram: Memory.MappedMemory @ sysbus 0x80000000 { size: 0x10000 }
uart: UART.NS16550 @ sysbus 0x10000000 { -> plic@1 }
can: CAN.SJA1000 @ sysbus 0x10001000
fin: Miscellaneous.SiFiveTest @ sysbus 0x100000
clint: IRQControllers.CoreLevelInterruptor @ sysbus 0x2000000 { frequency: 1000000; [0,1] -> cpu1@[3,7] }
plic: IRQControllers.PlatformLevelInterruptController @ sysbus 0xC000000 { numberOfSources: 31; 0 -> cpu3@11 }
""" + "".join(
    f'cpu{n}: CPU.RiscV32 @ sysbus {{ cpuType: "rv32imac"; hartId: {n}; PerformanceInMips: 1 }}\n' for n in range(4)
)


def board(name: str, platform: str, *commands: str) -> List[str]:
    return [f'mach create "{name}"', f"machine LoadPlatformDescription @{platform}", *commands]


def everything() -> Tuple[List[str], Files]:
    """Returns the lines of a script of sixteen boards, and its files."""
    plain = "demo/hello/board.repl"
    sends = ["sysbus LoadBinary @sender 0x80000000", "cpu PC 0x80000000", "connector Connect uart many"]
    lines = [
        'emulation CreateUARTHub "many" "0.000250"',
        'emulation CreateUARTHub "link"',
        'emulation CreateCANHub "bus" "0.000070"',
        *board("four", "four.repl", "sysbus LoadBinary @four 0x80000000"),
        *(f"cpu{n} PC 0x80000000" for n in range(4)),
        *("cpu2 IsHalted true", "connector Connect uart many", "connector Connect can bus", "showAnalyzer uart"),
        *board("harts", "demo/harts/board.repl", "sysbus LoadELF @demo/harts/harts.elf", "showAnalyzer uart"),
    ]
    for name in "sensor", "display", "service":
        load = f"sysbus LoadELF @demo/can/{name}.elf"
        lines += board(name, "demo/can/board.repl", load, "connector Connect can bus", "showAnalyzer can")
    for name in "ping", "pong":
        load = f"sysbus LoadBinary @demo/hub/{name}.bin 0x80000000"
        lines += board(name, plain, load, "cpu PC 0x80000000", "connector Connect uart link", "showAnalyzer uart")
    for name in "a", "b", "c":
        lines += board(name, plain, *sends, "showAnalyzer uart")
    lines += board("full", plain, "sysbus WriteDoubleWord 0x80000000 0x0000006F", "cpu PC 0x80000000")
    lines += ["connector Connect uart many", "showAnalyzer uart"]
    tick = ["sysbus LoadBinary @demo/timer/tick.bin 0x80000000", "cpu PC 0x80000000"]
    lines += board("timer", "demo/timer/board.repl", *tick, "showAnalyzer uart")
    lines += board("clock", "demo/clock/board.repl", "sysbus LoadHEX @demo/clock/clock.hex", "cpu PC 0x80000000")
    lines += board("compressed", "demo/compressed/board.repl", "sysbus LoadELF @demo/compressed/compressed.elf")
    lines += board("sections", "demo/sections/board.repl", "sysbus LoadELF @demo/sections/sections.elf")
    lines += board("poll", "demo/pass/board.repl", "sysbus LoadELF @demo/poll/poll.elf", "showAnalyzer uart")
    lines += [f'emulation RunFor "0.{micros:06}"' for micros in (1, 7, 92, 100, 3, 250, 47, 311, 89, 400, 13, 687)]
    return lines, {"four.repl": FOUR_BOARD.encode(), "four": FOUR, "sender": SENDER}


def missing(data: bytes) -> Set[str]:
    """Returns what a snapshot does not have that one of such a laboratory is to show."""
    held, _ = snapshot.read(data)
    states = [board["machine"][1][""]["state"] for board in held["boards"]]
    four = states[0]
    controller = four["controller"][1][""]
    uarts = [fields for state in states for name, fields in state["devices"] if name == "uart"]
    shows = {
        "sixteen boards": len(states) == 16,
        "a halted processor": four["processors"][2]["halted"],
        "a waiting processor": four["processors"][1]["waiting"],
        "a reservation": any(name == "there" for state in states for name, _ in state["reservations"]),
        "a claimed interrupt": controller["shut"] and not controller["pending"],
        "a full FIFO": any(len(uart["received"]) == 16 for uart in uarts),
        "held frames": dict(four["devices"])["can"]["received"],
        "bytes under way": any(post["what"][0] == "byte" for post in held["under_way"]),
        "frames under way": any(post["what"][0] == "frame" for post in held["under_way"]),
        "open lines": held["open_lines"],
    }
    return {name for name, is_there in shows.items() if not is_there}


def small() -> Tuple[List[str], Files]:
    """Returns the lines of a script that keeps two boards, whose memories are zeroed at last, with what they hold and
    what is under way, and its files."""
    joined = ["connector Connect uart bytes", "connector Connect can frames", "showAnalyzer uart"]
    lines = [
        'emulation CreateUARTHub bytes "0.000030"',
        'emulation CreateCANHub frames "0.000030"',
        *board("taker", "taker.repl", "sysbus LoadBinary @taker 0x80000000"),
        *("cpu0 PC 0x80000000", "cpu1 PC 0x80000000"),
        *joined,
        *board("giver", "giver.repl", "sysbus LoadBinary @giver 0x80000000", "cpu PC 0x80000000"),
        *joined,
        'emulation SetGlobalQuantum "0.000001"',
        'emulation RunFor "0.00006"',
        f"cpu PC 0x{AGAIN:x}",
        'emulation RunFor "0.000002"',
        *("sysbus LoadBinary @zeros 0x80000000", "mach set taker", "sysbus LoadBinary @zeros 0x80000000", "Save @x"),
    ]
    boards = {"taker.repl": TAKER_BOARD.encode(), "giver.repl": GIVER_BOARD.encode()}
    return lines, {**boards, "taker": TAKER, "giver": GIVER, "zeros": bytes(len(TAKER))}


def pages_in(reader: snapshot.Reader) -> List[int]:
    """Returns the places of the pages of memory."""
    return [at for at, path, _ in reader.seen if path.endswith(".used")]


def is_in_a_page(at: int, pages: List[int]) -> bool:
    return any(page <= at < page + snapshot.PAGE for page in pages)


def missing_in_small(data: bytes) -> Set[str]:
    """Returns what the small sample does not have that it is to show."""
    held, reader = snapshot.read(data)
    taker = held["boards"][0]["machine"][1][""]["state"]
    devices = dict(taker["devices"])
    shows = {
        "less than 2 KB": len(data) < 2048,
        "no page of memory": not pages_in(reader),
        "a waiting processor": taker["processors"][1]["waiting"],
        "a time of the timer": taker["timer"][1][""]["mtimecmp"] == 255,
        "pending interrupts": taker["controller"][1][""]["pending"] == 6,
        "a held byte": devices["uart"]["received"] == [65],
        "a held frame": devices["can"]["received"] and devices["can"]["receive_interrupt"],
        "a byte and a frame under way": [post["what"][0] for post in held["under_way"]] == ["byte", "frame"],
        "two open lines": len(held["open_lines"]) == 2,
    }
    return {name for name, is_there in shows.items() if not is_there}
