"""Prints what the module `where` says, for people."""
from typing import Iterator

from labtools.boards.interrupts import Source
from labtools.boards.where import BoardReport, HartReport, Interrupts, Place, Report, Waiting
from labtools.logs.log_lines import time_text

REGISTERS_IN_A_LINE = 4
MARKS = {"now": "", "calls": "", "trapped": ", where the trap came"}


def place_text(place: Place) -> str:
    """Returns an address with its function and its lines, the innermost of inlined functions first."""
    address = f"0x{place.address:08x}"
    if not place.is_memory:
        return f"{address} in no memory"
    if place.lines:
        told = [f"{line.function or '?'} {line.file}:{line.line or '?'}" for line in place.lines]
        return f"{address} {', inlined in '.join(told)}"
    if place.function is None:
        return address
    return f"{address} {place.function}+0x{place.offset:x}"


def interrupts_text(interrupts: Interrupts) -> str:
    enabled, pending = (", ".join(names) or "none" for names in (interrupts.enabled, interrupts.pending))
    return f"{'on' if interrupts.on else 'off'}; enabled: {enabled}; pending: {pending}"


def handler_text(hart: HartReport) -> str:
    if hart.mtvec == 0:
        return "0x00000000"
    return place_text(hart.handler) + (", a table" if hart.mtvec & 1 else "")


def hart_lines(hart: HartReport) -> Iterator[str]:
    yield f"  {hart.name}: hart {hart.number}, {hart.state}"
    yield f"    pc         {place_text(hart.pc)}"
    yield f"    interrupts {interrupts_text(hart.interrupts)}"
    yield f"    mtvec      {handler_text(hart)}"
    trap = hart.last_trap
    if trap is None:
        yield "    last trap  none"
    else:
        yield f"    last trap  {trap.words}, mcause 0x{trap.mcause:08x}, mtval 0x{trap.mtval:08x}"
        yield f"               at {place_text(trap.place)}"
    for number, frame in enumerate(hart.stack):
        of, mark = "stack" if number == 0 else "", MARKS[frame.how] + (" ?" if frame.is_guess else "")
        yield f"    {of:8}{number:2} {place_text(frame.place)}{mark}"
    registers = [f"{name:>4} 0x{value:08x}" for name, value in hart.registers.items()]
    for first in range(0, len(registers), REGISTERS_IN_A_LINE):
        yield "    " + "  ".join(registers[first : first + REGISTERS_IN_A_LINE])
    for warning in hart.warnings:
        yield f"    warning: {warning}"


def byte_text(byte: int) -> str:
    """Returns a byte as it stands within quotes."""
    if not 32 <= byte < 127:
        return f"\\x{byte:02x}"
    return f"\\{chr(byte)}" if chr(byte) in '"\\' else chr(byte)


def waiting_line(device: Waiting) -> str:
    kind = {"uart": "byte", "can": "frame"}[device.kind]
    count = len(device.received)
    is_uart = device.kind == "uart"
    text = f'"{"".join(map(byte_text, device.received))}"' if is_uart else ", ".join(device.received)
    told = [f"{count} {kind}{'s' * (count != 1)} wait{'s' * (count == 1)}: {text}"] if count else []
    return f"  {device.name}: " + "; ".join(told + ["some were lost"] * device.overrun)


def source_lines(source: Source) -> Iterator[str]:
    """Yields what the interrupt controller has to do with a source, and why no interrupt of it comes."""
    of = f" of {' and '.join(source.devices)}" if source.devices else ""
    states = [
        f"line {'up' if source.is_up else 'down'}",
        *["pending"] * source.is_pending,
        *["claimed and not completed"] * source.is_claimed,
        f"priority {source.priority}",
        *[f"enabled in context {taker.context} (threshold {taker.threshold})" for taker in source.takers],
        *["enabled in no context"] * (not source.takers),
    ]
    yield f"  {source.controller}: source {source.number}{of}: {', '.join(states)}"
    yield f"    no interrupt comes: {source.why}" if source.why else "    an interrupt comes in the next slot"


def board_lines(board: BoardReport) -> Iterator[str]:
    yield ""
    yield " ".join([board.name, *board.images])
    for hart in board.harts:
        yield from hart_lines(hart)
    for device in board.devices:
        if device.received or device.overrun:
            yield waiting_line(device)
    for source in board.sources:
        yield from source_lines(source)
    for warning in board.warnings:
        yield f"  warning: {warning}"


def lines_of(report: Report) -> Iterator[str]:
    yield f"at {time_text(report.time)}"
    for board in report.boards:
        yield from board_lines(board)
    if report.warnings:
        yield ""
        yield from (f"warning: {warning}" for warning in report.warnings)
