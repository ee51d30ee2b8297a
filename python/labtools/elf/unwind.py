"""The call stack of a processor: from function to caller by .debug_frame or .eh_frame, from a trap handler to where the
trap came by `mepc`, and where the file says nothing by what the function's first instructions store."""
from dataclasses import dataclass
from typing import Dict, List, Optional, Set, Tuple

from labtools.boards.machine import ABI_NAMES, PINS, Hart, Memory
from labtools.elf.elf import Elf, Symbol

MOST_FRAMES = 64
RA, SP = ABI_NAMES.index("ra"), ABI_NAMES.index("sp")

Registers = Dict[int, int]


@dataclass(frozen=True)
class Frame:
    """A function on the stack, which is there `now`, `calls` the one before it or was `trapped` by it. Where it calls,
    pc is the address to which that one returns, and else the one of the next instruction. `registers` are those that
    are known. The place is a guess where no file tells it, and so are registers."""

    pc: int
    registers: Registers
    how: str
    is_guess: bool
    are_registers_guessed: bool

    @property
    def is_calling(self) -> bool:
        return self.how == "calls"

    @property
    def place(self) -> int:
        """An address within the instruction that this frame is at."""
        return self.pc - 1 if self.is_calling else self.pc


class Code:
    """The ELF files that a board was loaded with; of two that know an address the later one counts."""

    def __init__(self, elves: List[Elf]) -> None:
        self.elves = elves[::-1]

    def elf_at(self, address: int) -> Optional[Elf]:
        return next((elf for elf in self.elves if elf.is_code(address)), None)

    def function_at(self, address: int) -> Optional[Symbol]:
        elf = self.elf_at(address)
        return elf.function_at(address) if elf else None


class Stack:
    """Walks the stack of a processor."""

    def __init__(self, hart: Hart, memory: Memory, code: Code) -> None:
        self.hart, self.memory, self.code = hart, memory, code
        self.handlers = handlers_of(hart, memory, code)

    def frames(self) -> List[Frame]:
        """Returns the frames, the innermost first, at most 64."""
        frames = [Frame(self.hart.pc, dict(enumerate(self.hart.registers)), "now", False, False)]
        while len(frames) < MOST_FRAMES:
            following = self.interrupted(frames) if self.is_handler(frames[-1]) else self.caller(frames[-1])
            if following is None:
                break
            frames.append(following)
        return frames

    def is_handler(self, frame: Frame) -> bool:
        function = self.code.function_at(frame.place)
        return frame.place in self.handlers or (function is not None and function.address in self.handlers)

    def interrupted(self, frames: List[Frame]) -> Optional[Frame]:
        """Returns where the trap came of which the last frame is the handler. `mepc` is that of one trap alone. A
        handler that traps at its first instruction has lost where it was before, and its caller can be guessed."""
        handler, place = frames[-1], self.hart.state["mepc"]
        if any(frame.how == "trapped" for frame in frames):
            return None
        if place == handler.pc:
            return self.caller(handler)
        registers, is_guess = self.unwound(handler)
        return Frame(place, registers, "trapped", False, is_guess or handler.are_registers_guessed)

    def caller(self, frame: Frame) -> Optional[Frame]:
        """Returns the frame to which this one returns."""
        registers, is_guess = self.unwound(frame)
        back = registers.get(RA)
        if not back or (back, registers.get(SP)) == (frame.pc, frame.registers.get(SP)):
            return None
        is_guess = is_guess or frame.are_registers_guessed
        return Frame(back, registers, "calls", is_guess or not self.code.elf_at(back - 1), is_guess)

    def unwound(self, frame: Frame) -> Tuple[Registers, bool]:
        """Returns the registers as they were before the function of a frame, and whether that is a guess."""
        elf = self.code.elf_at(frame.place)
        row = elf.row_at(frame.place) if elf else None
        if row is None:
            return self.guessed(frame)
        if row.base is None or row.base[0] not in frame.registers:
            return {}, True
        return self.restored(frame, frame.registers[row.base[0]] + row.base[1], row.saved), False

    def restored(self, frame: Frame, top: int, saved: Dict[int, int]) -> Registers:
        """Returns the registers of a frame with those that it has saved, at places relative to the end of its stack."""
        registers = dict(frame.registers)
        if frame.is_calling and RA not in saved:
            registers.pop(RA, None)
        for number, offset in saved.items():
            word = self.memory.word(top + offset)
            registers.pop(number, None)
            if word is not None:
                registers[number] = word
        registers[SP] = top
        return registers

    def guessed(self, frame: Frame) -> Tuple[Registers, bool]:
        """Returns the registers as far as the first instructions of the function tell them."""
        function = self.code.function_at(frame.place)
        if SP not in frame.registers:
            return {}, True
        size, saved = prologue(self.memory, function.address, frame.pc) if function else (0, {})
        return self.restored(frame, frame.registers[SP] + size, saved), True


def handlers_of(hart: Hart, memory: Memory, code: Code) -> Set[int]:
    """Returns the addresses at which a processor may begin to handle a trap: those of `mtvec`, the targets of the jumps
    of its table, and a function that begins two bytes later, since `mtvec` keeps no bit 1."""
    base, is_table = hart.state["mtvec"] & ~3, hart.state["mtvec"] & 1
    places = {base} | ({base + 4 * pin for pin in PINS} if is_table else set())
    places |= {jump_target(place, memory.word(place)) for place in places}
    near = code.function_at(base + 2)
    return places | ({near.address} if near and near.address == base + 2 else set())


def jump_target(place: int, word: Optional[int]) -> int:
    """Returns where `jal x0` at an address goes, and the address itself where no such instruction is."""
    if word is None or word & 0xFFF != 0x06F:
        return place
    offset = (word >> 21 & 0x3FF) << 1 | (word >> 20 & 1) << 11 | (word >> 12 & 0xFF) << 12
    return place + offset - (word >> 31 << 20) & 0xFFFFFFFF


def prologue(memory: Memory, start: int, end: int) -> Tuple[int, Dict[int, int]]:
    """Returns how far the stack pointer was moved by the instructions from `start` to before `end`, up to the first
    that jumps, and where registers were stored, relative to the stack pointer before."""
    size, at = 0, start
    saved: Dict[int, int] = {}
    while at < end:
        word = memory.word(at) or int.from_bytes(memory.read(at, 2) or b"", "little")
        length = 4 if word & 3 == 3 else 2
        moved, stored = (wide_effect if length == 4 else short_effect)(word if length == 4 else word & 0xFFFF)
        if word == 0 or is_jump(word, length):
            break
        size -= moved
        if stored is not None:
            saved.setdefault(stored[0], stored[1] - size)
        at += length
    return size, saved


def signed(value: int, bits: int) -> int:
    return value - (1 << bits) if value >> (bits - 1) & 1 else value


def wide_effect(word: int) -> Tuple[int, Optional[Tuple[int, int]]]:
    """Returns by how much an instruction moves the stack pointer, and which register it stores at which offset."""
    if word & 0x000FFFFF == 0x00010113:  # addi sp, sp, N
        return signed(word >> 20, 12), None
    if word & 0x000FF07F == 0x00012023:  # sw REGISTER, N(sp)
        return 0, (word >> 20 & 31, signed(word >> 25 << 5 | word >> 7 & 31, 12))
    return 0, None


def short_effect(half: int) -> Tuple[int, Optional[Tuple[int, int]]]:
    """The same of a compressed instruction."""
    if half & 0xEF83 == 0x0101:  # c.addi sp, N
        return signed(half >> 12 << 5 & 32 | half >> 2 & 31, 6), None
    if half & 0xEF83 == 0x6101:  # c.addi16sp N
        value = (half >> 12 & 1) << 9 | (half >> 6 & 1) << 4 | (half >> 5 & 1) << 6
        return signed(value | (half >> 3 & 3) << 7 | (half >> 2 & 1) << 5, 10), None
    if half & 0xE003 == 0xC002:  # c.swsp REGISTER, N
        return 0, (half >> 2 & 31, (half >> 9 & 15) << 2 | (half >> 7 & 3) << 6)
    return 0, None


def is_jump(word: int, length: int) -> bool:
    """Whether an instruction is a jump, a branch or a return."""
    if length == 4:
        return word & 0x7F in (0x63, 0x67, 0x6F) or word == 0x30200073  # mret
    half = word & 0xFFFF
    is_register_jump = half & 0xE07F == 0x8002 and half >> 7 & 31 != 0
    return half & 0xE003 in (0x2001, 0xA001, 0xC001, 0xE001) or is_register_jump
