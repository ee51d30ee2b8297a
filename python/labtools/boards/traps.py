"""Trap loops: a processor that does nothing but trap, at the first instruction of its handler or within it."""
from dataclasses import dataclass
from typing import Dict, List, Optional

from labtools.boards.machine import Hart
from labtools.elf.unwind import Frame, Stack

INTERRUPT = 1 << 31
# So many entries without an instruction of their own make a trap within a handler a loop.
FEWEST = 3


@dataclass(frozen=True)
class TrapLoop:
    """How often a processor has trapped, the cause of the last trap and its place, and where in the handler that is.
    Where the processor may have waited for interrupts `entries` counts these slots too, as `may_have_waited` says."""

    entries: int
    may_have_waited: bool
    cause: int
    place: int
    is_first_instruction: bool


def is_exception(state: Dict[str, int]) -> bool:
    """Whether the last trap was an exception. Before the first trap the registers are 0."""
    return not state["mcause"] & INTERRUPT and bool(state["mcause"] or state["mtval"] or state["mepc"])


def is_within_handler(stack: Stack, frames: List[Frame]) -> bool:
    """Whether the place of the last trap is in the handler, or in a function that the handler has called."""
    place = stack.hart.state["mepc"]
    function = stack.code.function_at(place)
    if function is not None and function.address in stack.handlers:
        return True
    below = [number for number, frame in enumerate(frames) if frame.how == "trapped"]
    return bool(below) and any(stack.is_handler(frame) for frame in frames[below[0] :])


def loop_of(hart: Hart, stack: Stack, frames: List[Frame]) -> Optional[TrapLoop]:
    """The loop in which a processor is, as far as one look tells: its last trap came from the handler itself, and slots
    have passed in which no instruction retired."""
    state = hart.state
    # Firmware may have set the counters.
    entries = max(state["mcycle"] - state["minstret"], 1)
    if state["halted"] or state["waiting"] or not is_exception(state):
        return None
    # The handler's first instruction has trapped, and is the next one again.
    is_first = bool(hart.pc == state["mtvec"] & ~3 == state["mepc"])
    if not is_first and (entries < FEWEST or not is_within_handler(stack, frames)):
        return None
    return TrapLoop(entries, state["mie"] != 0, state["mcause"], state["mepc"], is_first)


def text_of(loop: TrapLoop) -> str:
    most = "at most " if loop.may_have_waited else ""
    where = "where the handler begins" if loop.is_first_instruction else "within the handler"
    return (
        f"a trap loop: {most}{loop.entries} entries of cause {loop.cause} at 0x{loop.place:08x}, {where}; the first may"
        ' be another trap, whose place is lost: docs/TROUBLESHOOTING.md, "The first trap", finds it'
    )
