"""Which files a script reads, in order, and which line asks for each. Nothing is run: only scripts, platform files and
snapshots are opened.

    reads.files_read("demo/hub/s.resc", pathlib.Path("."))

gives a `FileRead` for each file, the script itself first. `reads.follow` gives more: the line at which lab refuses the
script, as far as that can be told without boards, the commands with their variables replaced, the files of `Save`, and
what happens to each board.

This reader stands beside the program's own and is not proved: `lab check` decides. It does not look for the causes S7,
S8, S9, S14, S16, the S19 of a `Save`, and all of platform files and images; of S20 it looks at the form of the snapshot
alone. After a line that is refused by one of these lab reads no more, and this reader goes on: the line that it tells
is the first of the others. It also goes on after an image or a platform file that is not there, where lab ends with
status 4. It ends at a script or a snapshot that is not there, since what follows depends on it; and at one that is a
pipe or a device, since what that holds is lab's to read.
"""
import contextlib
import os
import pathlib
from dataclasses import dataclass, field, replace
from typing import Any, Callable, Dict, List, Optional, Sequence, Tuple, Union

from labtools.boards import snapshot
from labtools.scripts import repl, resc
from labtools.scripts.resc import Line, Refused

FILE_LIMIT = 16 * 2**20
SNAPSHOT_LIMIT = 64 * 2**20
TIME_LIMIT = 10**10
DEFAULT_UNTIL = 10**6
# How many scenes of a line are kept: the first ones, and always the last.
SCENE_LIMIT = 100
COMMAND_LIMIT = 100_000
DEPTH_LIMIT = 8
PLATFORM_LIMIT = 64
BOARD_LIMIT = 16
SPEED_LIMIT = 1000
COMMANDS = "S12 commands"

IMAGES = {"sysbus LoadELF": "elf", "sysbus LoadHEX": "hex", "sysbus LoadBinary": "binary"}


@dataclass(frozen=True)
class Step:
    """A line on the way to a file: its place, FILE:LINE, and its text without the blanks around it."""

    place: str
    text: str


Chain = Tuple[Step, ...]


@dataclass(frozen=True)
class FileRead:
    """A file that is read. `kind` is script, platform, elf, hex, binary or snapshot. `chain` has the lines that lead to
    it, the script's own first: those that run macros, include files or name platform files by `using`, and before each
    the lines that have set the variables in its path. The last one asks for the file. `board` is the name of the board
    that a platform or an image is for."""

    path: str
    kind: str
    is_there: bool
    chain: Chain
    board: str = ""

    @property
    def asked_by(self) -> str:
        """The place that asks for the file, and nothing for the script itself."""
        return self.chain[-1].place if self.chain else ""

    @property
    def is_image(self) -> bool:
        return self.kind in IMAGES.values()


@dataclass(frozen=True)
class Refusal:
    """A line that lab refuses: FILE:LINE, its text, and the cause as lab prints it."""

    place: str
    text: str
    cause: str
    chain: Chain


@dataclass(frozen=True)
class Command:
    """A command with its variables replaced, and where its line stands. One that cannot be read so has no row and the
    text of its line."""

    text: str
    file: str
    number: int
    row: Optional[resc.Row] = None
    arguments: Sequence[Any] = ()

    @property
    def name(self) -> str:
        return self.row.name if self.row else ""


@dataclass
class Board:
    """A board, and what the script has done with it. `cpu_type` is what its platform files say last, and `processors`
    are the names of those that they give it; of a board of a snapshot `plan` has what it is made of. `ran_with` is the
    last image that it had when it was run before any line had set a pc."""

    name: str
    has_platform: bool = False
    cpu_type: str = ""
    processors: List[str] = field(default_factory=list)
    has_finisher: bool = False
    files: List[FileRead] = field(default_factory=list)
    has_pc: bool = False
    ran_with: Optional[FileRead] = None
    plan: Optional[Dict[str, Any]] = None

    @property
    def has_compressed(self) -> bool:
        """Whether its processors take compressed instructions."""
        if self.plan is not None:
            return bool(self.plan["letters"]["c"])
        return "c" in self.cpu_type.partition("_")[0][4:]

    def run(self) -> None:
        if self.files and self.files[-1].is_image and not self.has_pc:
            self.ran_with = self.files[-1]


@dataclass(frozen=True)
class Scene:
    """What stood as a watched line was taken: the lines that lead to it, its words with their variables replaced as far
    as they are set, the selected board, all boards, the hubs by name with their kinds, the hub and the line by which a
    device of a board was joined, the line that has made each name, the variables, the macros, and how many commands
    were taken before."""

    chain: Chain
    words: List[str]
    board: Optional[Board]
    boards: List[Board]
    hubs: Dict[str, str]
    joined: Dict[Tuple[str, str], Tuple[str, str]]
    names: Dict[str, str]
    variables: List[str]
    macros: List[str]
    taken: int


@dataclass
class Reading:
    """What a script reads. `commands` are those of macros and included files in their places, up to `quit`; where the
    script is refused or a file is not there, the last is the one where it ends. `saves` has the files of `Save`, each
    with whether its folder is there. `runs` counts the commands that run the boards, `starts` those of them that are
    `start`, and `time` is how long all do in microseconds, where no finisher ends one. `past_limit` is the first run
    that would end too late then, and after how many commands. `scenes` has those of the watched line. `unseen` is the
    script or the snapshot that is no plain file, where the reading has ended."""

    files: List[FileRead] = field(default_factory=list)
    commands: List[Command] = field(default_factory=list)
    saves: List[FileRead] = field(default_factory=list)
    boards: List[Board] = field(default_factory=list)
    runs: int = 0
    starts: int = 0
    time: int = 0
    refusal: Optional[Refusal] = None
    past_limit: Optional[Tuple[Refusal, int]] = None
    scenes: List[Scene] = field(default_factory=list)
    unseen: str = ""


@dataclass(frozen=True)
class Value:
    """What a variable stands for, and the lines that have made it so."""

    word: str
    chain: Chain


@dataclass(frozen=True)
class Macro:
    file: str
    body: Tuple[Line, ...]


class Ended(Exception):
    """No more is read: `quit`, or a file is not there or not seen on which all that follows depends."""


class RefusedAt(Exception):
    def __init__(self, refusal: Refusal) -> None:
        super().__init__(refusal.cause)
        self.refusal = refusal


def is_readable(path: str) -> bool:
    """Whether a file is there and may be read. Those of os.path say no also where no path can be so."""
    return os.path.exists(path) and not os.path.isdir(path) and os.access(path, os.R_OK)


def content_of(path: str) -> bytes:
    """The bytes of a file; none where it cannot be read. What comes from a pipe is not taken from those who are to read
    it."""
    with contextlib.suppress(OSError):
        if os.path.isfile(path):
            with open(path, "rb") as file:
                return file.read()
    return b""


class Walk:
    """Takes the commands of a script one after another."""

    def __init__(self, folder: pathlib.Path, until: int, watched: str) -> None:
        self.folder = folder
        self.until = until
        self.watched = watched
        self.reading = Reading()
        self.variables: Dict[str, Value] = {}
        self.macros: Dict[str, Macro] = {}
        self.taken = 0
        self.depth = 0
        # the place of the line that has made each board and each hub, and the kinds of the hubs
        self.names: Dict[str, str] = {}
        self.hubs: Dict[str, str] = {}
        self.joined: Dict[Tuple[str, str], Tuple[str, str]] = {}
        self.selected: Optional[Board] = None
        # what the lines of the open bodies have in front of their own place
        self.chain: Chain = ()
        # the line that is taken, also as a command, and whether that is one of the reading's
        self.here: Step = Step("", "")
        self.asking: Chain = ()
        self.pending: Command = Command("", "", 0)
        self.is_told = True

    # ---- files

    def file(self, path: str) -> str:
        """The path of a file as seen from here. A slash at its end stays, since lab opens no plain file so."""
        return os.path.join(self.folder, path)

    def note(self, path: str, kind: str, chain: Chain) -> FileRead:
        """A file is read by the line that ends the chain."""
        board = self.selected.name if self.selected and kind not in ("script", "snapshot") else ""
        read = FileRead(path, kind, is_readable(self.file(path)), chain, board)
        self.reading.files.append(read)
        return read

    def refuse(self, cause: str, place: str = "", text: str = "", chain: Chain = ()) -> RefusedAt:
        if place:
            return RefusedAt(Refusal(place, text, cause, chain))
        return RefusedAt(Refusal(self.here.place, self.here.text, cause, self.asking))

    def is_large(self, path: str, limit: int = FILE_LIMIT) -> bool:
        file = self.file(path)
        return os.path.isfile(file) and os.path.getsize(file) > limit

    def content(self, read: FileRead, limit: int = FILE_LIMIT) -> bytes:
        """The bytes of a script or a snapshot, on which all depends that follows."""
        if not read.is_there:
            raise Ended
        if not os.path.isfile(self.file(read.path)):
            self.reading.unseen = read.path
            raise Ended
        if self.is_large(read.path, limit):
            raise self.refuse("S19 size", "" if read.chain else f"{read.path}:0")
        return content_of(self.file(read.path))

    def text(self, path: str, content: bytes, chain: Chain) -> str:
        """The text of a script or a platform file."""
        try:
            return content.decode()
        except UnicodeDecodeError as fault:
            line = content.count(b"\n", 0, fault.start) + 1
            raise self.refuse("S18 not utf-8", f"{path}:{line}", "", chain) from fault

    # ---- bodies

    def body(self, file: str, lines: Sequence[Line], chain: Chain) -> None:
        """Takes the lines of a body, which the last line of the chain has opened."""
        outer, self.chain = self.chain, chain
        for item in resc.items_of(lines):
            self.take(file, item)
        self.chain = outer

    def inner(self, file: str, lines: Sequence[Line], chain: Chain) -> None:
        """A body within others, of which there may be 8."""
        if self.depth == DEPTH_LIMIT:
            raise self.refuse("S11 depth")
        self.depth += 1
        self.body(file, lines, chain)
        self.depth -= 1

    def script(self, path: str) -> None:
        """Takes the script itself."""
        content = self.content(self.note(path, "script", ()))
        self.body(path, resc.numbered(self.text(path, content, ())), ())

    def take(self, file: str, item: resc.Item) -> None:
        self.here = Step(f"{file}:{item.line.number}", item.line.text.strip(" \t"))
        self.asking = self.chain + (self.here,)
        self.pending, self.is_told = Command(item.line.text, file, item.line.number), False
        if self.here.place == self.watched:
            self.watch(self.scene(item.line.text))
        if isinstance(item, resc.Unclosed):
            self.pending = replace(self.pending, text=f'{item.line.text}\n"""')
            raise self.refuse("S17 unclosed")
        if self.taken == COMMAND_LIMIT:
            raise self.refuse(COMMANDS)
        self.taken += 1
        if isinstance(item, resc.Define):
            self.macros[item.name] = Macro(file, item.body)
        elif isinstance(item, resc.Assign):
            self.assign(item)
        else:
            self.command(item)
        self.is_told = True

    def watch(self, scene: Scene) -> None:
        scenes = self.reading.scenes
        if len(scenes) == SCENE_LIMIT:
            scenes.pop()
        scenes.append(scene)

    def scene(self, text: str) -> Scene:
        """What stands before a line is taken."""
        words = resc.sides_of(text)
        own = 2 if resc.names_macro(words) else 0
        values = {f"${name}": value.word for name, value in self.variables.items()}
        return Scene(
            self.chain,
            words[:own] + [values.get(word, word) for word in words[own:]],
            replace(self.selected, files=list(self.selected.files)) if self.selected else None,
            [replace(board) for board in self.reading.boards],
            dict(self.hubs),
            dict(self.joined),
            dict(self.names),
            list(self.variables),
            list(self.macros),
            self.taken,
        )

    def assign(self, item: resc.Assign) -> None:
        value = Value(item.value, (self.here,))
        name = resc.variable_of(item.value)
        if name is not None:
            if name not in self.variables:
                raise self.refuse("S3 variable")
            behind = self.variables[name]
            value = Value(behind.word, behind.chain + (self.here,))
        if not (item.only_if_unset and item.name in self.variables):
            self.variables[item.name] = value

    def command(self, item: resc.Command) -> None:
        words = resc.words_of(item.line.text)
        if not item.is_malformed:
            words = self.replaced(words)
        try:
            row, arguments = resc.command_of(words)
        except Refused as fault:
            raise self.refuse(str(fault)) from fault
        command = Command(" ".join(words), self.pending.file, self.pending.number, row, arguments)
        if row.name not in ("include", "runMacro", "quit"):
            self.reading.commands.append(command)
            self.is_told = True
        does = DOES.get(row.name)
        if does:
            does(self, command)

    def end(self) -> None:
        """Adds the line where the script has ended to the commands, if it is none of them yet."""
        if not self.is_told:
            self.reading.commands.append(self.pending)

    def replaced(self, words: Sequence[str]) -> List[str]:
        """The words of a command with their variables replaced, but for the name of a macro."""
        own = 2 if resc.names_macro(words) else 0
        return list(words[:own]) + [self.meant(word) for word in words[own:]]

    def meant(self, word: str) -> str:
        """What stands for a word. The lines that have set a path go into the command's chain."""
        name = resc.variable_of(word)
        if name is None:
            return word
        value = self.variables.get(name)
        if value is None:
            raise self.refuse("S3 variable")
        if value.word.startswith("@"):
            self.asking = self.chain + value.chain + (self.here,)
        return value.word

    # ---- boards

    def board(self) -> Board:
        if self.selected is None:
            raise self.refuse("S4 no board")
        return self.selected

    def equipped(self) -> Board:
        board = self.board()
        if not board.has_platform:
            raise self.refuse("S15 platform")
        return board

    def take_name(self, name: str) -> None:
        if name in self.names:
            raise self.refuse("S6 taken")
        self.names[name] = self.here.place

    def create(self, command: Command) -> None:
        name = command.arguments[0] if command.arguments else f"machine-{len(self.reading.boards)}"
        self.take_name(name)
        if len(self.reading.boards) == BOARD_LIMIT:
            raise self.refuse("S13 boards")
        self.selected = Board(name)
        self.reading.boards.append(self.selected)

    def select(self, command: Command) -> None:
        name = command.arguments[0]
        boards = self.reading.boards
        named = [board for board in boards if board.name == name]
        number = resc.number_of(name)
        if not named and number is not None:
            named = boards[number : number + 1]
        if not named:
            raise self.refuse("S5 board")
        self.selected = named[0]

    def hub(self, command: Command) -> None:
        self.take_name(command.arguments[0])
        self.hubs[command.arguments[0]] = "uart" if command.name == "emulation CreateUARTHub" else "can"

    def connect(self, command: Command) -> None:
        board = self.equipped()
        device, hub = command.arguments
        self.joined.setdefault((board.name, resc.entry_of(device)), (hub, self.here.place))

    def platform(self, command: Command) -> None:
        board = self.board()
        if board.has_platform:
            raise self.refuse("S15 platform")
        board.has_platform = True
        read = self.note(command.arguments[0], "platform", self.asking)
        board.files.append(read)
        if self.is_large(read.path):
            raise self.refuse("S19 size")
        if read.is_there:
            PlatformWalk(self, board).file(read, DEPTH_LIMIT - self.depth)

    def reset(self, _: Command) -> None:
        self.equipped().has_pc = False

    def on_board(self, _: Command) -> None:
        self.equipped()

    def pc(self, command: Command) -> None:
        board = self.equipped()
        board.has_pc = board.has_pc or bool(command.arguments)

    def speed(self, command: Command) -> None:
        """The processors of a board are limited together, whatever the name is."""
        count = len(self.equipped().processors)
        if any(speed * count > SPEED_LIMIT for speed in command.arguments):
            raise self.refuse(resc.ARGUMENTS)

    def image(self, command: Command) -> None:
        board = self.equipped()
        read = self.note(command.arguments[0], IMAGES[command.name], self.asking)
        board.files.append(read)
        if self.is_large(read.path):
            raise self.refuse("S19 size")
        begins_at_0 = read.kind == "binary" and command.arguments[1] == 0
        board.has_pc = board.has_pc or read.kind == "elf" or begins_at_0

    # ---- the whole laboratory

    def run(self, command: Command) -> None:
        if not all(board.has_platform for board in self.reading.boards):
            raise self.refuse("S15 platform")
        self.reading.starts += command.name == "start"
        until = max(self.reading.time, self.until)
        if command.arguments:
            until = self.reading.time + command.arguments[0]
        if until > TIME_LIMIT and self.reading.past_limit is None:
            self.reading.past_limit = self.refuse("S14 lab time").refusal, self.taken - 1
        if until > self.reading.time:
            self.reading.runs += 1
            self.reading.time = until
            for board in self.reading.boards:
                board.run()

    def save(self, command: Command) -> None:
        path = command.arguments[0]
        is_there = os.path.isdir(os.path.dirname(self.file(path)))
        self.reading.saves.append(FileRead(path, "snapshot", is_there, self.asking))

    def load(self, command: Command) -> None:
        if self.reading.boards or self.hubs or self.reading.time:
            raise self.refuse("S21 occupied")
        read = self.note(command.arguments[0], "snapshot", self.asking)
        content = self.content(read, SNAPSHOT_LIMIT)
        try:
            held = snapshot.read(content)[0]
        except snapshot.NoSnapshot as fault:
            raise self.refuse("S20 snapshot") from fault
        self.resume(held)

    def resume(self, held: Dict[str, Any]) -> None:
        """Goes on with what a snapshot holds."""
        self.reading.boards = [self.resumed(board) for board in held["boards"]]
        self.names = {part["name"]: self.here.place for part in held["boards"] + held["hubs"]}
        self.hubs = {hub["name"]: hub["kind"][0] for hub in held["hubs"]}
        self.reading.time = held["time"]
        self.selected = None

    def resumed(self, held: Dict[str, Any]) -> Board:
        machine = held["machine"][1].get("")
        board = Board(held["name"], machine is not None, has_pc=True)
        if machine:
            board.plan = machine["plan"]
            board.processors = list(machine["plan"]["processors"])
            board.has_finisher = any(kind == "finisher" for kind, _ in machine["plan"]["kinds"])
        return board

    def include(self, command: Command) -> None:
        if self.depth == DEPTH_LIMIT:
            raise self.refuse("S11 depth")
        chain = self.asking
        read = self.note(command.arguments[0], "script", chain)
        text = self.text(read.path, self.content(read), chain)
        self.inner(read.path, resc.numbered(text), chain)

    def run_macro(self, command: Command) -> None:
        macro = self.macros.get(command.arguments[0])
        if macro is None:
            raise self.refuse("S3 variable")
        self.inner(macro.file, macro.body, self.asking)

    def quit(self, _: Command) -> None:
        self.is_told = True
        raise Ended


class PlatformWalk:
    """Reads a platform file and all that it names by `using`."""

    def __init__(self, walk: Walk, board: Board) -> None:
        self.walk = walk
        self.board = board
        self.read = 1

    def file(self, read: FileRead, room: int) -> None:
        """A file that is there, of which so many may still be open within each other."""
        text = self.walk.text(read.path, content_of(self.walk.file(read.path)), read.chain)
        lines = resc.lines_of(text)
        for item in repl.items_of(text):
            if isinstance(item, repl.Using):
                step = Step(f"{read.path}:{item.number}", lines[item.number - 1].strip(" \t"))
                self.used(step, item.path, read.chain + (step,), room)
            else:
                self.entry(item)

    def entry(self, entry: repl.Entry) -> None:
        if entry.type_name == repl.PROCESSOR:
            self.board.processors.append(entry.name)
        if entry.type_name == repl.FINISHER:
            self.board.has_finisher = True
        self.board.cpu_type = entry.attributes.get("cpuType", self.board.cpu_type)

    def used(self, step: Step, path: str, chain: Chain, room: int) -> None:
        if room == 0 or self.read == PLATFORM_LIMIT:
            raise self.walk.refuse("S11 depth", step.place, step.text, chain)
        self.read += 1
        read = self.walk.note(path, "platform", chain)
        self.board.files.append(read)
        if self.walk.is_large(path):
            raise self.walk.refuse("S19 size", step.place, step.text, chain)
        if read.is_there:
            self.file(read, room - 1)


DOES: Dict[str, Callable[[Walk, Command], None]] = {
    "* PC": Walk.pc,
    "* IsHalted": Walk.on_board,
    "* PerformanceInMips": Walk.speed,
    "showAnalyzer": Walk.on_board,
    "include": Walk.include,
    "runMacro": Walk.run_macro,
    "Save": Walk.save,
    "Load": Walk.load,
    "start": Walk.run,
    "quit": Walk.quit,
    "mach create": Walk.create,
    "mach set": Walk.select,
    "machine LoadPlatformDescription": Walk.platform,
    "machine Reset": Walk.reset,
    "sysbus LoadELF": Walk.image,
    "sysbus LoadBinary": Walk.image,
    "sysbus LoadHEX": Walk.image,
    "sysbus ReadDoubleWord": Walk.on_board,
    "sysbus WriteDoubleWord": Walk.on_board,
    "emulation RunFor": Walk.run,
    "emulation CreateUARTHub": Walk.hub,
    "emulation CreateCANHub": Walk.hub,
    "connector Connect": Walk.connect,
}


def follow(
    script: Union[str, pathlib.Path], folder: pathlib.Path, until: int = DEFAULT_UNTIL, watched: str = ""
) -> Reading:
    """All that a script reads, where lab is started in this folder, and `start` runs to a lab time in microseconds. The
    reading has a scene for each time that the line at a place FILE:LINE is taken, if one is watched."""
    walk = Walk(folder, until, watched)
    try:
        walk.script(os.fspath(script))
    except Ended:
        pass
    except RefusedAt as refused:
        walk.reading.refusal = refused.refusal
    walk.end()
    return walk.reading


def has_finisher(script: Union[str, pathlib.Path], folder: pathlib.Path) -> bool:
    """Whether a board of a script has a finisher, where lab is started in this folder."""
    return any(board.has_finisher for board in follow(script, folder).boards)


def files_read(script: Union[str, pathlib.Path], folder: pathlib.Path) -> List[FileRead]:
    """The files that a script reads, in order, itself first, where lab is started in this folder. The files of `Save`
    are not among them, and those of `Load` are."""
    return follow(script, folder).files
