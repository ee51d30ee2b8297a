"""What can be seen of a refused line besides its cause: which entries the board has in place of one that it has not,
where memories are, what stands in a file. It reads the script and what it names, and runs no board."""
import os
import re
import struct
from dataclasses import dataclass
from typing import Callable, Dict, Iterator, List, Optional, Sequence, Tuple

from labtools.boards import snapshot
from labtools.scripts import cures, mistakes_of_words, reads, repl, resc
from labtools.scripts.mistakes_of_words import listed, near
from labtools.scripts.parts import KINDS, Part, Parts
from labtools.scripts.reads import Board, Scene
from labtools.scripts.refusals import Refused

PLATFORMS = cures.Table("docs/PLATFORMS.md", "| Type | Attributes | Bytes without a range; the least |", 0, 1, 1)
LINKED = ("uart", "can")


@dataclass(frozen=True)
class Sight:
    """A refused line as it was taken once, and what boards are made of."""

    scene: Scene
    parts: Parts

    @property
    def words(self) -> List[str]:
        return self.scene.words

    @property
    def board(self) -> Optional[Board]:
        return self.scene.board

    @property
    def own_parts(self) -> List[Part]:
        """The entries of the selected board."""
        return self.parts.of(self.scene.board)


# ---- boards and names


def no_board(sight: Sight) -> List[str]:
    boards = sight.scene.boards
    return [f'no board is selected: `mach set "{boards[0].name}"` selects one'] if boards else []


def other_board(sight: Sight) -> List[str]:
    names = [board.name for board in sight.scene.boards]
    return [f"the boards are {listed(names)}"] if names else ["no board was made before this line"]


def taken(sight: Sight) -> List[str]:
    name = sight.words[2].strip('"') if len(sight.words) > 2 else ""
    place = sight.scene.names.get(name)
    return [f"{place} has made `{name}`"] if place else []


def platform(sight: Sight) -> List[str]:
    """Boards that lack a platform, or the first one of a board that is to get a second."""
    scene = sight.scene
    if sight.words[:2] in (["machine", "LoadPlatformDescription"],) and scene.board:
        first = next((file for file in scene.board.files if file.kind == "platform"), None)
        return [f"`{scene.board.name}` has {first.path}, by {first.asked_by}"] if first else []
    is_run = sight.words[:1] == ["start"] or sight.words[:2] == ["emulation", "RunFor"]
    boards = scene.boards if is_run else [scene.board] if scene.board else []
    return [f"`{board.name}` has no platform" for board in boards if not board.has_platform][:1]


def asked_entry(words: Sequence[str]) -> Tuple[str, Tuple[str, ...]]:
    """The entry that a command names, and the kinds that it may be of."""
    row = resc.row_of(words)
    if row is None or row.opening[0] == "*":
        return resc.entry_of(words[0].strip('"')), ("processor",)
    return resc.entry_of(words[len(row.opening)].strip('"')), LINKED


def hub_of(words: Sequence[str]) -> Optional[str]:
    return words[3].strip('"') if list(words[:2]) == ["connector", "Connect"] else None


def name(sight: Sight) -> List[str]:
    """A name that the board has not, with those that it has; or a hub that is not there."""
    board = sight.board
    parts = sight.parts.of(board)
    if board is None or not parts:
        return []
    asked, kinds = asked_entry(sight.words)
    if asked in [part.name for part in parts]:
        hub, hubs = hub_of(sight.words), list(sight.scene.hubs)
        is_lost = hub is not None and hub not in hubs
        return [f"no hub is `{hub}`; there are: {listed(hubs) or 'none'}"] if is_lost else []
    held = [f"`{part.name}`" for part in parts if part.kind in kinds] or ["no UART and no CAN controller"]
    return [f"the board `{board.name}` has {', '.join(held)}, and no `{asked}`", *owners(sight, asked)]


def owners(sight: Sight, asked: str) -> List[str]:
    """The other boards that have an entry of a name."""
    boards = [board for board in sight.scene.boards if asked in [part.name for part in sight.parts.of(board)]]
    return [f'`{boards[0].name}` has one: `mach set "{boards[0].name}"` selects that board'] if boards else []


def kind(sight: Sight) -> List[str]:
    asked, kinds = asked_entry(sight.words)
    part = next((part for part in sight.own_parts if part.name == asked), None)
    if part is None:
        return []
    hub = hub_of(sight.words) or ""
    of_hub = sight.scene.hubs.get(hub)
    if part.kind in kinds and of_hub and of_hub != part.kind:
        others = {"uart": "UARTs", "can": "CAN controllers"}[of_hub]
        return [f"`{asked}` is {KINDS[part.kind]}, and `{hub}` is a hub for {others}"]
    return [f"`{asked}` is {KINDS[part.kind]}"] if part.kind not in kinds else []


def connected(sight: Sight) -> List[str]:
    board = sight.board
    asked, _ = asked_entry(sight.words)
    joined = sight.scene.joined.get((board.name, asked)) if board else None
    return [f"{joined[1]} has joined `{asked}` to `{joined[0]}`"] if joined else []


def occupied(sight: Sight) -> List[str]:
    made = [f"{place} has made `{name}`" for name, place in sight.scene.names.items()]
    return made[:1]


# ---- addresses


def memories_of(parts: Sequence[Part]) -> List[Part]:
    return [part for part in parts if part.kind == "memory"]


def memory_text(parts: Sequence[Part]) -> str:
    return ", ".join(f"`{part.name}` has 0x{part.base:08x} to 0x{part.last:08x}" for part in memories_of(parts))


def range_fault(first: int, size: int, parts: Sequence[Part]) -> Optional[str]:
    """What is wrong with bytes that are no part of the memories."""
    last = first + max(size, 1) - 1
    if any(part.holds(first) and part.holds(last) for part in memories_of(parts)):
        return None
    device = next((part for part in parts if part.holds(first) and part.kind != "memory"), None)
    if device and size == 4:
        return f"0x{first:08x} is a register of `{device.name}`, and scripts cannot reach registers"
    shown = f"0x{first:08x} to 0x{last:08x}" if size != 4 else f"0x{first:08x}"
    return f"no memory has {shown}: {memory_text(parts)}"


def segments_of(content: bytes) -> Iterator[Tuple[int, int]]:
    """The addresses and the sizes in memory of what an ELF file of 32 bits loads."""
    table, count = struct.unpack_from("<I", content, 28)[0], struct.unpack_from("<H", content, 44)[0]
    for place in range(count):
        kind, _, _, address, _, size = struct.unpack_from("<6I", content, table + 32 * place)
        if kind == 1 and size > 0:
            yield address, size


def loaded(words: Sequence[str]) -> List[Tuple[int, int]]:
    """The addresses and the sizes of what a command loads, of which those of an Intel HEX file are not known."""
    path = resc.path_of(words[2]) if len(words) > 2 else None
    content = reads.content_of(path) if path else b""
    if words[1] == "LoadBinary" and len(words) > 3:
        return [(resc.number_of(words[3]) or 0, len(content))]
    is_elf = words[1] == "LoadELF" and len(content) >= 52
    return list(segments_of(content)) if is_elf else []


def address(sight: Sight) -> List[str]:
    words, parts = sight.words, sight.own_parts
    if len(words) < 3 or not parts:
        return []
    if words[1].startswith("Load"):
        faults = [range_fault(first, size, parts) for first, size in loaded(words)]
        return [fault for fault in faults if fault][:1]
    number = resc.number_of(words[2])
    if number is None:
        return []
    step = 2 if words[1] == "PC" and sight.board and sight.board.has_compressed else 4
    if number % step:
        return [f"0x{number:08x} is not a multiple of {step}: 0x{number - number % step:08x} is the one before it"]
    fault = range_fault(number, 4, parts) if words[0] == "sysbus" else None
    return [fault] if fault else []


# ---- files


def form_of_image(sight: Sight) -> List[str]:
    """An image that is of another form than the command loads."""
    path = resc.path_of(sight.words[2]) if len(sight.words) > 2 else None
    if not path:
        return []
    content = reads.content_of(path)
    if not content:
        return [f"{path} is empty"] if os.path.isfile(path) else []
    is_elf, is_hex = content.startswith(b"\x7fELF"), content.startswith(b":")
    if is_elf and sight.words[1] != "LoadELF":
        return [f"{path} is an ELF file: `sysbus LoadELF @{path}` loads it"]
    if is_hex and sight.words[1] != "LoadHEX":
        return [f"{path} begins as an Intel HEX file does: `sysbus LoadHEX @{path}` loads it"]
    return []


def large(sight: Sight) -> List[str]:
    """The size of the file that is read. What a `Save` would replace has not been too large."""
    if sight.words[0] == "Save":
        return []
    paths = [path for path in map(resc.path_of, sight.words) if path and os.path.isfile(path)]
    return [f"{path} has {os.path.getsize(path):,} bytes" for path in paths][:1]


def no_snapshot(sight: Sight) -> List[str]:
    path = resc.path_of(sight.words[-1]) or ""
    try:
        snapshot.read(reads.content_of(path))
    except snapshot.NoSnapshot as fault:
        return [f"{path}: {fault}"]
    return []


def bad_text(refused: Refused) -> List[str]:
    """What may have written a file that is not UTF-8."""
    content = reads.content_of(refused.place.rpartition(":")[0])
    if content.startswith((b"\xff\xfe", b"\xfe\xff")):
        return ["the file is UTF-16"]
    try:
        content.decode()
    except UnicodeDecodeError as fault:
        return [f"byte 0x{content[fault.start]:02x} is not UTF-8: the file may be Latin-1, or no text at all"]
    return []


# ---- platform files


def attributes_of(type_name: str) -> List[str]:
    """The attributes that docs/PLATFORMS.md has for a type."""
    rows = {row[0].strip("`"): row[1] for row in cures.rows_of(PLATFORMS)}
    return [name for name in re.findall(r"`(\w+)`(?:[:,])", rows.get(type_name, ""))]


def types() -> List[str]:
    return [row[0].strip("`") for row in cures.rows_of(PLATFORMS)]


def other_type(refused: Refused) -> List[str]:
    entries = [item for item in repl.items_of(refused.text) if isinstance(item, repl.Entry)]
    pairs = [(entry.type_name, near(entry.type_name, types())) for entry in entries[:1]]
    return [f"`{own}`: did you mean `{nearly}`?" for own, nearly in pairs if nearly]


def other_attribute(refused: Refused) -> List[str]:
    """An attribute that is nearly one of any type: its own line need not say of which it is."""
    known = [attribute for type_name in types() for attribute in attributes_of(type_name)]
    asked = [found for found in repl.attributes_in(refused.text) if found not in known]
    pairs = [(found, near(found, known)) for found in asked]
    return [f"`{found}`: did you mean `{nearly}`?" for found, nearly in pairs if nearly][:1]


OF_LINES: Dict[str, Callable[[Refused], List[str]]] = {"P3": other_type, "P4": other_attribute, "S18": bad_text}
OF_WORDS: Dict[str, Callable[[Scene], List[str]]] = {
    "S1": mistakes_of_words.unknown,
    "S2": mistakes_of_words.arguments,
    "S3": mistakes_of_words.variable,
    "S10": mistakes_of_words.time,
}
OF_BOARDS: Dict[str, Callable[[Sight], List[str]]] = {
    "S4": no_board,
    "S5": other_board,
    "S6": taken,
    "S7": name,
    "S8": kind,
    "S9": connected,
    "S15": platform,
    "S16": address,
    "S19": large,
    "S20": no_snapshot,
    "S21": occupied,
}


def seen_once(code: str, scene: Scene, parts: Parts) -> List[str]:
    """What can be seen where a line is taken once."""
    if code in OF_WORDS:
        return OF_WORDS[code](scene)
    look = form_of_image if code[0] in "EH" else OF_BOARDS.get(code)
    return look(Sight(scene, parts)) if look else []


def seen(program: str, refused: Refused) -> Tuple[reads.Chain, List[str]]:
    """What can be seen of a refused line, of the first time that it is taken of which anything can be, and the lines
    that lead to it then."""
    if refused.code in OF_LINES:
        return refused.chain, OF_LINES[refused.code](refused)
    parts = Parts(program)
    found = ((scene.chain, seen_once(refused.code, scene, parts)) for scene in refused.scenes)
    return next(((chain, told) for chain, told in found if told), (refused.chain, []))
