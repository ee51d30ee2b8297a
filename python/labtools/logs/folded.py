"""Folds equal accesses that repeat, as a board makes them that polls an address where nothing stands: the first of them
stands for all, with their count and the time of the last. It changes no log, and folds nothing else."""
import dataclasses
import re
import sys
from collections import deque
from typing import Callable, Deque, Dict, Generic, Iterable, Iterator, Optional, Tuple, TypeVar

Item = TypeVar("Item")
# Who makes an access, and which one it is.
Access = Tuple[str, str]
# A line of a difference: its sign, the time unless times are left out, the board and the access.
DIFFERING = re.compile(
    r"([-+ ]?)(?:\[([0-9]+\.[0-9]{6})\] )?([A-Za-z0-9_-]+)/sysbus: "
    r"(read [124] at 0x[0-9a-f]{8}|write [124] at 0x[0-9a-f]{8} value 0x[0-9a-f]{8})"
)
# How many rows of a difference wait for accesses that may belong to them.
HELD = 10_000


@dataclasses.dataclass
class Row(Generic[Item]):
    """An item, or equal accesses: the first, the last and their count."""

    first: Item
    last: Item
    access: Optional[Access]
    count: int = 1


def rows(
    items: Iterable[Item], access_of: Callable[[Item], Optional[Access]], held: int = sys.maxsize
) -> Iterator[Row[Item]]:
    """Yields the items in order of their beginnings. Equal accesses that follow each other are one row, whatever others
    do between them, unless more rows than `held` stand between them. No more rows than that are kept."""
    waiting: Deque[Row[Item]] = deque()
    latest: Dict[str, Row[Item]] = {}
    for item in items:
        access = access_of(item)
        row = latest.get(access[0]) if access else None
        if row and row.access == access:
            row.last = item
            row.count += 1
            continue
        row = Row(item, item, access)
        waiting.append(row)
        if access:
            latest[access[0]] = row
        if len(waiting) > held:
            yield closed(waiting.popleft(), latest)
    yield from waiting


def closed(row: Row[Item], latest: Dict[str, Row[Item]]) -> Row[Item]:
    """Returns the row, to which nothing is added any more."""
    if row.access and latest[row.access[0]] is row:
        del latest[row.access[0]]
    return row


class Hunks:
    """Finds the accesses in the lines of a difference. Those of two hunks never are equal: lines that are not shown
    stand between them."""

    def __init__(self) -> None:
        self.count = 0

    def access_of(self, line: str) -> Optional[Access]:
        self.count += line.startswith("@@ ")
        told = DIFFERING.fullmatch(line)
        return (told[3], f"{self.count} {told[1]}{told[4]}") if told else None


def text_of(row: Row[str]) -> str:
    """Returns a row of a difference as it is shown."""
    last = DIFFERING.fullmatch(row.last)
    if row.count == 1 or not last:
        return row.first
    until = f", to {last[2]}" if last[2] else ""
    return f"{row.first}  ({row.count} times{until})"


def difference(lines: Iterable[str]) -> Iterator[str]:
    """Yields the lines of a difference, without line feeds, as `diff -u` prints it of two logs: folded. The numbers in
    the heads of its hunks stay those of the logs."""
    yield from map(text_of, rows(lines, Hunks().access_of, HELD))
