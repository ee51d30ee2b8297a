"""Whether each part that a board of a snapshot names is there, as machine.py needs it. `lab` asks for much more."""
from typing import Any, Dict, Iterator, Tuple

from labtools.boards.snapshot import NoSnapshot

SOURCES, CONTEXTS = 128, 15

# A case of a variant, and its fields.
Variant = Tuple[str, Dict[str, Any]]


class Parts:
    """How many parts of each kind a board has, by the names of the snapshot's variants."""

    def __init__(self, machine: Dict[str, Any]) -> None:
        plan, state = machine["plan"], machine["state"]
        has_timer = is_there(plan["frequency"]) and is_there(state["timer"])
        has_controller = is_there(plan["controller"]) and is_there(state["controller"])
        self.counts = {
            "memory": len(machine["memories"]),
            "device": len(state["devices"]),
            "processor": len(plan["processors"]),
            "source": SOURCES * has_controller,
            "context": CONTEXTS * has_controller,
            "timer": int(has_timer),
            "software": int(has_timer),
            "controller": int(has_controller),
        }

    def lacks(self, part: Variant) -> bool:
        """Whether a part is not there. One that has no number is the only one of its kind."""
        kind, fields = part
        return int(fields.get("number", 0)) >= self.counts[kind]


def is_there(optional: Variant) -> bool:
    return optional[0] == "there"


def named_by(plan: Dict[str, Any]) -> Iterator[Tuple[str, Variant]]:
    """Yields each part that a plan names, with where it does."""
    for entry in plan["names"]:
        if entry["what"][0] == "part":
            yield f"the name {entry['name']}", entry["what"][1][""]
    for region in plan["regions"]:
        yield f"the region at 0x{region['base']:08x}", region["what"]
    for wire in plan["wires"]:
        yield "a wire", wire["from"]
        yield "a wire", wire["to"]


def faults(machine: Dict[str, Any]) -> Iterator[str]:
    """Yields what is wrong."""
    plan, state = machine["plan"], machine["state"]
    parts = Parts(machine)
    for where, part in named_by(plan):
        if parts.lacks(part):
            yield f"{where} refers to a {part[0]} that does not exist"
    for name in "processors", "reservations":
        if len(state[name]) != len(plan["processors"]):
            yield f"{len(state[name])} {name}, but {len(plan['processors'])} processors in the plan"
    if any(wire["from"][0] == "context" and wire["to"][0] == "source" for wire in plan["wires"]):
        yield "a wire leads from the interrupt controller to itself"
    kinds = [entry["what"][1][""][0] for entry in plan["names"] if entry["what"][0] == "part"]
    if is_there(state["controller"]) and "controller" not in kinds:
        yield "the interrupt controller has no name"


def check(board: str, machine: Dict[str, Any]) -> None:
    """Tells by NoSnapshot what is wrong first."""
    for fault in faults(machine):
        raise NoSnapshot(f"board {board}: {fault}")
