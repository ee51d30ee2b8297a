"""What functions, lines and frames of an ELF file are at addresses, as pyelftools read it. Whatever fault they find is
told as NoElf, and so are those that they read over."""
import bisect
import contextlib
import importlib
import io
import os
import pathlib
import struct
from dataclasses import dataclass
from typing import Any, Dict, Iterable, Iterator, List, Optional, Tuple

NO_READER = (
    "no functions and lines without pyelftools: `apt-get install python3-pyelftools` or"
    " `pip install pyelftools` for this Python"
)
# The beginning of a file of 32 bits that has the lowest byte first, and the number of the machine.
IDENT, RISCV = b"\x7fELF\x01\x01", 243
HEADER, SEGMENT, SECTION = struct.Struct("<16sHHIIIIIHHHHHH"), struct.Struct("<8I"), struct.Struct("<10I")
NULL, SYMBOLS, STRINGS, NOBITS, SYMBOL_SIZE = 0, 2, 3, 8, 16
WRITE, ALLOC, EXECUTE = 1, 2, 4
REGISTERS = 32
INLINED = "DW_TAG_inlined_subroutine"
SCOPES = ("DW_TAG_subprogram", INLINED, "DW_TAG_lexical_block")


class NoElf(Exception):
    """The file cannot be read as an ELF file: why."""


@dataclass(frozen=True)
class Symbol:
    """A name of code. `size` is 0 where it is not known, as mostly of labels in assembler."""

    address: int
    size: int
    name: str
    is_function: bool
    is_global: bool


@dataclass(frozen=True)
class Section:
    """Bytes of the file that are loaded. `address` is where they run, and `load` where they are loaded."""

    name: str
    address: int
    load: int
    data: bytes
    is_written: bool


@dataclass(frozen=True)
class Line:
    """A function and the line of its source; None where it is not known."""

    function: Optional[str]
    file: Optional[str]
    line: Optional[int]


@dataclass(frozen=True)
class Row:
    """How the frame of a function is laid out from an address on: the caller's stack pointer is that register and an
    offset, or None where it is no such sum, and `saved` has the places of registers relative to it."""

    address: int
    base: Optional[Tuple[int, int]]
    saved: Dict[int, int]


@dataclass(frozen=True)
class Frames:
    """The rows of the addresses from `first` to before `end`."""

    first: int
    end: int
    rows: List[Row]


@dataclass(frozen=True, order=True)
class Span:
    """The addresses from `first` to before `end`, which are of a line of a file, by its number in a unit."""

    first: int
    end: int
    unit: int
    file: int
    line: int


def is_readable() -> bool:
    """Whether pyelftools are there."""
    try:
        importlib.import_module("elftools.elf.elffile")
    except ImportError:
        return False
    return True


@contextlib.contextmanager
def faults_told(path: str) -> Iterator[None]:
    """Tells a fault of pyelftools by its words. On a damaged file these end with whatever error of Python comes."""
    try:
        yield
    except NoElf:
        raise
    except Exception as fault:
        raise NoElf(f"{path}: cannot be read: {type(fault).__name__}: {fault}") from fault


def content_of(path: str) -> bytes:
    """Returns what a plain file holds that begins as an ELF file of 32 bits for RISC-V."""
    try:
        if os.path.exists(path) and not os.path.isfile(path):
            raise NoElf(f"{path}: it is not a plain file")
        data = pathlib.Path(path).read_bytes()
    except OSError as fault:
        raise NoElf(f"{path}: {fault.strerror}") from fault
    if len(data) < HEADER.size or data[: len(IDENT)] != IDENT or HEADER.unpack_from(data)[2] != RISCV:
        raise NoElf(f"{path}: it is not a 32-bit ELF file for RISC-V")
    return data


def faults_of(data: bytes) -> Iterator[str]:
    """Yields what is wrong with the tables of a file, and with the places in it that they name: most is wrong with one
    that was cut off."""
    head = HEADER.unpack_from(data)
    tables = (("segments", head[5], head[9:11], SEGMENT), ("sections", head[6], head[11:13], SECTION))
    for name, at, (size, count), form in tables:
        if count and size != form.size:
            yield f"the headers of its {name} have {size} bytes, and not {form.size}"
        if at + count * form.size > len(data):
            yield f"the headers of its {name} end behind its end"
    segments = SEGMENT.iter_unpack(data[head[5] :][: head[10] * SEGMENT.size])
    sections = list(SECTION.iter_unpack(data[head[6] :][: head[12] * SECTION.size]))
    places = [(f"segment {number}", it[1], it[4]) for number, it in enumerate(segments)]
    places += [(f"section {number}", it[4], it[5]) for number, it in enumerate(sections) if it[1] not in (NULL, NOBITS)]
    yield from (f"{name} ends behind its end" for name, at, size in places if size and at + size > len(data))
    yield from faults_of_names(sections, head[13])


def faults_of_names(sections: List[Tuple[int, ...]], names: int) -> Iterator[str]:
    """Yields what is wrong with the names of sections, whose number is given, and with tables of symbols."""
    strings = [number for number, it in enumerate(sections) if it[1] == STRINGS]
    if sections and names not in strings:
        yield "the table with the names of its sections is missing"
    for number, it in enumerate(sections):
        if it[1] == SYMBOLS and it[6] not in strings:
            yield "the table with the names of its symbols is missing"
        if it[1] == SYMBOLS and (it[9] != SYMBOL_SIZE or it[5] % SYMBOL_SIZE):
            yield f"section {number} has symbols of {it[9]} bytes, and not {SYMBOL_SIZE}"


class Elf:
    """An ELF file whose sections and names of code can be read. `fault` is what is wrong with the rest, or None: with
    its frames, or with its lines, which are read when somebody asks for them."""

    def __init__(self, path: str) -> None:
        self.path = path
        self.fault: Optional[str] = None
        data = content_of(path)
        with faults_told(path):
            for fault in faults_of(data):
                raise NoElf(f"{path}: cannot be read: {fault}")
            self.file = importlib.import_module("elftools.elf.elffile").ELFFile(io.BytesIO(data))
            self.sections = list(read_sections(self.file))
            self.symbols = best_of(read_symbols(self.file))
        self.dwarf: Any = None
        self.units: List[Any] = []
        self.frames: List[Frames] = []
        self.spans: Optional[List[Span]] = None
        self.lines: Dict[int, List[Line]] = {}
        with self.faults_kept():
            self.read_frames()

    @contextlib.contextmanager
    def faults_kept(self) -> Iterator[None]:
        """Ends what cannot be read of the frames or the lines. The first fault is kept."""
        try:
            with faults_told(self.path):
                yield
        except NoElf as fault:
            self.fault = self.fault or str(fault)

    def read_frames(self) -> None:
        """Reads the frames, and which units have lines. Without frames there are no lines."""
        dwarf = self.file.get_dwarf_info() if self.file.has_dwarf_info() else None
        self.frames = list(frames_in(dwarf)) if dwarf else []
        self.units = list(dwarf.iter_CUs()) if dwarf and dwarf.has_debug_info else []
        self.dwarf = dwarf

    def function_at(self, address: int) -> Optional[Symbol]:
        """Returns the function, or the label, in which an address lies."""
        at = bisect.bisect_right([symbol.address for symbol in self.symbols], address) - 1
        if at < 0 or not self.is_code(address):
            return None
        found = self.symbols[at]
        return found if found.size == 0 or address < found.address + found.size else None

    def is_code(self, address: int) -> bool:
        return any(section.address <= address < section.address + len(section.data) for section in self.sections)

    def row_at(self, address: int) -> Optional[Row]:
        """Returns how the frame is laid out at an address, or None where the file does not say it."""
        for frames in self.frames:
            if frames.first <= address < frames.end and frames.rows:
                return next((row for row in reversed(frames.rows) if row.address <= address), None)
        return None

    def lines_at(self, address: int) -> List[Line]:
        """Returns the source of an address, the innermost of inlined functions first."""
        if self.spans is None:
            self.spans = []
            with self.faults_kept():
                self.spans = sorted(spans_of(self.dwarf, self.units))
        if address not in self.lines:
            self.lines[address] = []
            with self.faults_kept():
                self.lines[address] = list(self.read_lines(self.spans, address))
        return self.lines[address]

    def read_lines(self, spans: List[Span], address: int) -> Iterator[Line]:
        at = bisect.bisect_left(spans, Span(address + 1, 0, 0, 0, 0)) - 1
        if at >= 0 and address < spans[at].end:
            unit = self.units[spans[at].unit]
            program = self.dwarf.line_program_for_CU(unit)
            yield from lines_of(unit, program, scopes_at(unit.get_top_DIE(), address), spans[at])


def read_sections(file: Any) -> Iterator[Section]:
    """Yields the sections that are loaded."""
    segments = [it for it in file.iter_segments() if it["p_type"] == "PT_LOAD"]
    for it in file.iter_sections():
        if it["sh_flags"] & ALLOC and it["sh_type"] != "SHT_NOBITS" and it["sh_size"] > 0:
            load = it["sh_addr"] + moved_by(it["sh_offset"], segments)
            yield Section(it.name, it["sh_addr"], load, it.data(), bool(it["sh_flags"] & WRITE))


def moved_by(offset: int, segments: List[Any]) -> int:
    """Returns how far behind the address at which it runs a byte is loaded that stands at this place of the file."""
    for it in segments:
        if it["p_offset"] <= offset < it["p_offset"] + it["p_filesz"]:
            return int(it["p_paddr"] - it["p_vaddr"])
    return 0


def read_symbols(file: Any) -> Iterator[Symbol]:
    """Yields the names in sections of code."""
    code = [number for number, section in enumerate(file.iter_sections()) if section["sh_flags"] & EXECUTE]
    table = file.get_section_by_name(".symtab")
    for it in table.iter_symbols() if table else []:
        kind, binding = it["st_info"]["type"], it["st_info"]["bind"]
        if it["st_shndx"] in code and kind in ("STT_FUNC", "STT_NOTYPE") and is_code_name(it.name):
            yield Symbol(it["st_value"], it["st_size"], it.name, kind == "STT_FUNC", binding == "STB_GLOBAL")


def is_code_name(name: str) -> bool:
    """Whether a symbol is a function or a label, and not a mark of the assembler."""
    return name != "" and name[0] not in "$."


def best_of(symbols: Iterable[Symbol]) -> List[Symbol]:
    """Returns one name an address, rising. A function is preferred to a label, and then a global one."""
    best: Dict[int, Symbol] = {}
    for symbol in symbols:
        other = best.get(symbol.address)
        if other is None or (other.is_function, other.is_global) < (symbol.is_function, symbol.is_global):
            best[symbol.address] = symbol
    return [best[address] for address in sorted(best)]


# ---- frames


def frames_in(dwarf: Any) -> Iterator[Frames]:
    """Yields what .debug_frame and .eh_frame say."""
    entries = [
        *(dwarf.CFI_entries() if dwarf.has_CFI() else []),
        *(dwarf.EH_CFI_entries() if dwarf.has_EH_CFI() else []),
    ]
    for entry in entries:
        if getattr(entry, "cie", None) is not None:
            first = entry["initial_location"]
            table = entry.get_decoded().table or entry.cie.get_decoded().table
            yield Frames(first, first + entry["address_range"], [row_of(row) for row in table])


def row_of(row: Dict[Any, Any]) -> Row:
    """Returns a row of pyelftools, whose other keys are `pc` and `cfa`."""
    base = row["cfa"]
    is_sum = base.expr is None and base.reg < REGISTERS
    rules = {number: rule for number, rule in row.items() if isinstance(number, int) and number < REGISTERS}
    saved = {number: rule.arg for number, rule in rules.items() if rule.type == "OFFSET"}
    return Row(row["pc"], (base.reg, base.offset) if is_sum else None, saved)


# ---- lines


def spans_of(dwarf: Any, units: List[Any]) -> Iterator[Span]:
    """Yields what the line programs of the units say."""
    for number, unit in enumerate(units):
        program = dwarf.line_program_for_CU(unit)
        before = None
        for state in (entry.state for entry in program.get_entries() if entry.state) if program else ():
            if before is not None and not before.end_sequence and before.address < state.address:
                yield Span(before.address, state.address, number, before.file, before.line)
            before = state


def scopes_at(die: Any, address: int) -> List[Any]:
    """Returns the functions around an address, the outermost first, with those that are inlined."""
    for child in die.iter_children():
        if child.tag in SCOPES and any(first <= address < end for first, end in ranges_of(child)):
            return [child] * (child.tag != "DW_TAG_lexical_block") + scopes_at(child, address)
    return []


def ranges_of(die: Any) -> Iterator[Tuple[int, int]]:
    """Yields the addresses of a function or a block."""
    found = die.attributes
    if "DW_AT_low_pc" in found and "DW_AT_high_pc" in found:
        low, high = found["DW_AT_low_pc"].value, found["DW_AT_high_pc"]
        yield low, high.value if high.form == "DW_FORM_addr" else low + high.value
    elif "DW_AT_ranges" in found and found["DW_AT_ranges"].form == "DW_FORM_sec_offset":
        top = die.cu.get_top_DIE().attributes
        base = top["DW_AT_low_pc"].value if "DW_AT_low_pc" in top else 0
        lists = die.cu.dwarfinfo.range_lists()
        for entry in lists.get_range_list_at_offset(found["DW_AT_ranges"].value, die.cu):
            if hasattr(entry, "base_address"):
                base = entry.base_address
            else:
                start = 0 if getattr(entry, "is_absolute", False) else base
                yield start + entry.begin_offset, start + entry.end_offset


def lines_of(unit: Any, program: Any, scopes: List[Any], span: Span) -> Iterator[Line]:
    """Yields a place of a line program, and then those at which the functions around it are inlined."""
    file, line = span.file, span.line
    for scope in reversed(scopes):
        yield Line(name_of(scope), file_of(unit, program, file), line or None)
        if scope.tag == INLINED:
            file, line = (scope.attributes[name].value for name in ("DW_AT_call_file", "DW_AT_call_line"))
    if not scopes:
        yield Line(None, file_of(unit, program, file), line or None)


def name_of(die: Any) -> Optional[str]:
    """Returns the name of a function, which may stand where it is declared."""
    for name in "DW_AT_abstract_origin", "DW_AT_specification":
        if "DW_AT_name" not in die.attributes and name in die.attributes:
            die = die.get_DIE_from_attribute(name)
    return text_of(die.attributes["DW_AT_name"].value) if "DW_AT_name" in die.attributes else None


def file_of(unit: Any, program: Any, number: int) -> str:
    """Returns the path of a file by its number in a line program. Up to DWARF 4 they are numbered from 1, and folder 0
    is that of the unit."""
    header = program.header
    first = 0 if header["version"] >= 5 else 1
    entry = header["file_entry"][number - first]
    folders = [text_of(folder) for folder in header["include_directory"]]
    top = unit.get_top_DIE().attributes
    own = text_of(top["DW_AT_comp_dir"].value) if "DW_AT_comp_dir" in top else ""
    folder = ([own] * first + folders)[entry.dir_index]
    return short(os.path.join(own, folder, text_of(entry.name)))


def text_of(value: bytes) -> str:
    return value.decode(errors="replace")


def short(path: str) -> str:
    """Returns a path without `.` in it, and from this folder on where it lies in it."""
    path = os.path.normpath(path)
    inside = os.path.relpath(path)
    return inside if os.path.isabs(path) and not inside.startswith("..") else path
