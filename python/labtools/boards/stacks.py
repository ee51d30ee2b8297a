"""Stacks of processors that share a memory: two of them have one stack where one's frames lie among the other's."""
import itertools
from dataclasses import dataclass
from typing import List

from labtools.boards.machine import Hart, Memory
from labtools.elf.unwind import SP, Frame


@dataclass(frozen=True)
class Extent:
    """The stack of a processor: from its stack pointer to the outermost frame that is known without a guess."""

    name: str
    low: int
    top: int

    def is_shared_with(self, other: "Extent") -> bool:
        is_among = self.low < other.top and other.low < self.top
        return is_among or self.low == other.low or self.top == other.top


def extent_of(hart: Hart, frames: List[Frame]) -> Extent:
    low = hart.registers[SP]
    known = [frame.registers[SP] for frame in frames if not frame.are_registers_guessed and SP in frame.registers]
    return Extent(hart.name, low, max([low, *known]))


def has_stack(hart: Hart, memory: Memory) -> bool:
    """Whether a processor has run and has set its stack pointer."""
    return hart.state["minstret"] > 0 and hart.registers[SP] != 0 and memory.is_stack(hart.registers[SP])


def shared(extents: List[Extent]) -> List[str]:
    """What is to be said of each two processors that have one stack."""
    return [
        f"{one.name} and {other.name} have one stack: sp is 0x{one.low:08x} and 0x{other.low:08x}; give each its own by"
        " its mhartid, as demo/harts does"
        for one, other in itertools.combinations(extents, 2)
        if one.is_shared_with(other)
    ]
