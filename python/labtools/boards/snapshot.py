"""Reads snapshots. docs/SNAPSHOTS.md has the format. Whether a laboratory can be so is not asked here, but of `lab`:
kept_labs.py does. Of some lists it is known how many items they may have, so that a wrong count is told at once.
"""
from typing import Any, Callable, Dict, List, Optional, Tuple

PAGE = 4096
# How many boards there are at most, and what a board has at most (docs/PLATFORMS.md). Its devices are UARTs, CAN
# controllers and a finisher; at addresses stand these, its memories, a timer and an interrupt controller.
BOARDS = 16
PROCESSORS, MEMORIES, UARTS, CANS = 4, 8, 4, 4
DEVICES = UARTS + CANS + 1
REGIONS = MEMORIES + DEVICES + 2
# The bytes of an open line, by docs/SNAPSHOTS.md.
LINE = 127

Read = Callable[[str], Any]
Fields = List[Tuple[str, Read]]


class NoSnapshot(Exception):
    """The bytes have not the form of a snapshot: what is wrong, and where."""


class Reader:
    """Reads values one after another. `seen` has each with its place, its path and the text that shows it, and `counts`
    the place of each count of a list."""

    def __init__(self, data: bytes) -> None:
        self.data = data
        self.at = 0
        self.seen: List[Tuple[int, str, str]] = []
        self.counts: List[int] = []

    def take(self, count: int) -> bytes:
        if self.at + count > len(self.data):
            raise NoSnapshot(f"ends within a value that begins at {self.at}")
        part = self.data[self.at : self.at + count]
        self.at += count
        return part

    def tell(self, path: str, at: int, shown: object) -> None:
        self.seen.append((at, path, str(shown)))

    def number(self, width: int, form: str = "d") -> Read:
        """A number of so many bytes, which is shown in this form."""

        def read(path: str) -> int:
            at, value = self.at, int.from_bytes(self.take(width), "little")
            self.tell(path, at, format(value, form))
            return value

        return read

    def bits(self, width: int) -> Read:
        """An address or a register of so many bytes, which is shown as a hexadecimal number."""
        return self.number(width, f"#0{2 * width + 2}x")

    def flag(self, path: str) -> bool:
        at, value = self.at, self.take(1)[0]
        if value > 1:
            raise NoSnapshot(f"{path}: {value} is not a flag at {at}")
        self.tell(path, at, bool(value))
        return bool(value)

    def variant(self, *cases: Tuple[str, Fields]) -> Read:
        """Each case is its name and the fields that follow it."""

        def read(path: str) -> Tuple[str, Dict[str, Any]]:
            at, value = self.at, self.take(1)[0]
            if value >= len(cases):
                raise NoSnapshot(f"{path}: there is no variant {value} at {at}")
            name, fields = cases[value]
            self.tell(path, at, name)
            return name, self.fields(path, fields)

        return read

    def optional(self, read: Read) -> Read:
        return self.variant(("none", []), ("there", [("", read)]))

    def fields(self, path: str, fields: Fields) -> Dict[str, Any]:
        return {name: read(f"{path}.{name}" if name else path) for name, read in fields}

    def struct(self, *fields: Tuple[str, Read]) -> Read:
        return lambda path: self.fields(path, list(fields))

    def count(self, path: str, most: Optional[int]) -> int:
        at = self.at
        self.counts.append(at)
        count = int(self.number(8)(f"{path}.count"))
        if most is not None and count > most:
            raise NoSnapshot(f"{path}: at most {most} are possible, not {count}, at {at}")
        if count > len(self.data) - self.at:
            raise NoSnapshot(f"{path}: more items than bytes, {count} at {at}")
        return count

    def list_of(self, read: Read, most: Optional[int] = None) -> Read:
        """A list of at most so many items, each of which has a byte at least."""

        def read_all(path: str) -> List[Any]:
            count = self.count(path, most)
            values = []
            for n in range(count):
                values.append(read(f"{path}[{n}]"))
            return values

        return read_all

    def array(self, count: int, read: Read) -> Read:
        return lambda path: [read(f"{path}[{n}]") for n in range(count)]

    def text(self, path: str) -> str:
        self.counts.append(self.at)
        at, count = self.at, int.from_bytes(self.take(8), "little")
        value = self.take(count).decode("ascii", "backslashreplace")
        self.tell(path, at, value)
        return value

    def page(self, path: str) -> Tuple[int, bytes]:
        number = self.number(4)(f"{path}.number")
        at, data = self.at, self.take(PAGE)
        self.tell(f"{path}.used", at, PAGE - data.count(0))
        return number, data


def standing(r: Reader) -> Read:
    """What stands at addresses."""
    u8 = r.number(1)
    return r.variant(("memory", [("number", u8)]), ("timer", []), ("controller", []), ("device", [("number", u8)]))


def letters(r: Reader) -> Read:
    return r.struct(("a", r.flag), ("c", r.flag))


def frame(r: Reader) -> Read:
    u8, u16 = r.number(1), r.number(2)
    return r.struct(("id", u16), ("remote", r.flag), ("length", u8), ("bytes", r.array(8, u8)))


def member(r: Reader) -> Read:
    return r.struct(("board", r.number(1)), ("device", r.number(1)))


def plan(r: Reader) -> Read:
    u8, u32, address = r.number(1), r.number(4), r.bits(4)
    part = standing(r)
    begins = r.variant(("software", []), ("timer", []), ("context", [("number", u8)]), ("device", [("number", u8)]))
    ends = r.variant(("processor", [("number", u8), ("pin", u8)]), ("source", [("number", u8)]))
    named = r.struct(("name", r.text), ("what", r.variant(("processor", []), ("part", [("", part)]))))
    return r.struct(
        ("names", r.list_of(named, PROCESSORS + REGIONS)),
        ("regions", r.list_of(r.struct(("base", address), ("size", u32), ("what", part), ("step", u8)), REGIONS)),
        ("memories", r.list_of(u32, MEMORIES)),
        ("kinds", r.list_of(r.variant(("uart", []), ("can", []), ("finisher", [])), DEVICES)),
        ("frequency", r.optional(u32)),
        ("controller", r.optional(r.struct(("sources", u8), ("contexts", u8)))),
        ("wires", r.list_of(r.struct(("from", begins), ("to", ends)))),
        ("speed", u32),
        ("processors", r.list_of(r.text, PROCESSORS)),
        ("letters", letters(r)),
    )


def processor(r: Reader) -> Read:
    u64, register = r.number(8), r.bits(4)
    return r.struct(
        ("x", r.array(32, register)),
        ("pc", register),
        ("mie_bit", r.flag),
        ("mpie_bit", r.flag),
        *((name, register) for name in ("mie", "mtvec", "mscratch", "mepc", "mcause", "mtval")),
        ("mcycle", u64),
        ("minstret", u64),
        ("waiting", r.flag),
        ("halted", r.flag),
        ("letters", letters(r)),
        ("number", r.number(1)),
    )


def uart(r: Reader) -> Fields:
    register = r.bits(1)
    return [
        *((name, register) for name in ("ier", "lcr", "mcr", "scr", "dll", "dlm")),
        ("fifos", r.flag),
        ("trigger", r.number(1)),
        ("received", r.list_of(r.number(1))),
        ("overrun", r.flag),
        ("empty", r.flag),
    ]


def can(r: Reader) -> Fields:
    register = r.bits(1)
    return [
        *((name, register) for name in ("control", "code", "mask", "timing0", "timing1", "output", "divider")),
        ("transmit", r.array(10, register)),
        ("received", r.list_of(frame(r))),
        *((name, r.flag) for name in ("overrun", "receive_interrupt", "transmit_interrupt", "overrun_interrupt")),
    ]


def controller(r: Reader) -> Read:
    u8, sources = r.number(1), r.bits(16)
    return r.struct(
        ("priorities", r.array(128, u8)),
        ("pending", sources),
        ("shut", sources),
        ("enables", r.array(15, sources)),
        ("thresholds", r.array(15, u8)),
    )


def state(r: Reader) -> Read:
    u64 = r.number(8)
    return r.struct(
        ("speed", r.number(4)),
        ("processors", r.list_of(processor(r), PROCESSORS)),
        ("next", r.number(1)),
        ("reservations", r.list_of(r.optional(r.bits(4)), PROCESSORS)),
        ("timer", r.optional(r.struct(("msip", r.flag), ("mtimecmp", u64), ("offset", u64)))),
        ("controller", r.optional(controller(r))),
        ("devices", r.list_of(r.variant(("uart", uart(r)), ("can", can(r)), ("finisher", [])), DEVICES)),
        ("shown", r.list_of(r.flag, DEVICES)),
        ("posts", u64),
        ("entries", u64),
    )


def post(r: Reader) -> Read:
    u8, u64 = r.number(1), r.number(8)
    end = r.variant(("pass", []), ("fail", [("code", r.number(2))]))
    sent = r.variant(("byte", [("", u8)]), ("frame", [("", frame(r))]), ("end", [("", end)]))
    return r.struct(("at", u64), ("board", u8), ("number", u64), ("from", member(r)), ("what", sent))


def laboratory(r: Reader) -> Read:
    """Reads a whole laboratory."""
    u64 = r.number(8)
    machine = r.struct(("plan", plan(r)), ("state", state(r)), ("memories", r.list_of(r.list_of(r.page), MEMORIES)))
    kind = r.variant(("uart", []), ("can", []))
    hub = r.struct(("kind", kind), ("name", r.text), ("delay", r.number(4)), ("members", r.list_of(member(r))))
    line = r.struct(("of", member(r)), ("at", u64), ("bytes", r.list_of(r.number(1), LINE)))
    return r.struct(
        ("time", u64),
        ("quantum", u64),
        ("boards", r.list_of(r.struct(("name", r.text), ("machine", r.optional(machine))), BOARDS)),
        ("hubs", r.list_of(hub)),
        ("under_way", r.list_of(post(r))),
        ("open_lines", r.list_of(line, BOARDS * UARTS)),
    )


def read(data: bytes) -> Tuple[Dict[str, Any], Reader]:
    """Returns what a snapshot of these bytes holds, and the reader that has read it."""
    reader = Reader(data)
    if reader.take(8) != b"LABSNAP1":
        raise NoSnapshot("does not begin with LABSNAP1")
    held = laboratory(reader)("laboratory")
    if reader.at != len(data):
        raise NoSnapshot(f"continues after its end at {reader.at}")
    return held, reader
