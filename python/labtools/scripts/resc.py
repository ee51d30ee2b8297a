"""The lines of a script, by the rules of docs/SCRIPTS.md: words, variables, macros, and the commands with their words.

Nothing here reads a file or knows of boards. `Refused` is a line that lab refuses whatever stands before it. This
reader stands beside the program's own and is not proved: `lab check` decides.
"""
import re
from dataclasses import dataclass
from typing import Callable, List, Optional, Sequence, Tuple, Union

UNKNOWN = "S1 unknown command"
ARGUMENTS = "S2 arguments"
TIME = "S10 time"

WORD = re.compile(r'(?:[^ \t"]+|"[^"]*(?:"|\Z))+')
VARIABLE = re.compile(r"\$([A-Za-z_][A-Za-z0-9_]*)")
MACRO_NAME = re.compile(r"[A-Za-z_][A-Za-z0-9_]*")
NAME = re.compile(r"[A-Za-z0-9_-]+")
NUMBER = re.compile(r"0x([0-9A-Fa-f]+)|([0-9]+)")
# The digits of 2^32 - 1.
DIGITS = 10
CLOCK = re.compile(r"(?:([0-9]{1,4}):([0-9]{1,2}):([0-9]{1,2})|([0-9]{1,10}))(?:\.([0-9]{1,6}))?")


class Refused(Exception):
    """A line that lab refuses, by this cause."""


def lines_of(text: str) -> List[str]:
    """The lines of a text. One carriage return before a line feed is dropped."""
    parts = text.split("\n")
    last = parts.pop()
    lines = [part[:-1] if part.endswith("\r") else part for part in parts]
    return lines + [last] if last else lines


def words_of(line: str) -> List[str]:
    """What stands between blanks outside quotes. A quote that is not closed reaches to the line's end."""
    words: List[str] = WORD.findall(line)
    return words


def variable_of(word: str) -> Optional[str]:
    """The name in a word `$name`."""
    match = VARIABLE.fullmatch(word)
    return match.group(1) if match else None


def text_of(word: str) -> Optional[str]:
    """The text of a plain word, or of one in quotes."""
    if '"' not in word:
        return None if word.startswith("@") else word
    is_quoted = len(word) > 1 and word[0] == word[-1] == '"' and word.count('"') == 2
    return word[1:-1] if is_quoted else None


def entry_of(text: str) -> str:
    """The name of an entry, which may have `sysbus.` before it."""
    return text[len("sysbus.") :] if text.startswith("sysbus.") else text


def path_of(word: str) -> Optional[str]:
    """The path of a word `@path`."""
    path = word[1:]
    if not word.startswith("@") or not path or '"' in path or path.startswith(("http://", "https://")):
        return None
    return path


# ---- what stands in the lines of a body


@dataclass(frozen=True)
class Line:
    number: int
    text: str


@dataclass(frozen=True)
class Assign:
    line: Line
    name: str
    only_if_unset: bool
    value: str


@dataclass(frozen=True)
class Define:
    """A macro with the lines of its body."""

    line: Line
    name: str
    body: Tuple[Line, ...]


@dataclass(frozen=True)
class Unclosed:
    """A macro whose body does not end in its file."""

    line: Line


@dataclass(frozen=True)
class Command:
    """Any other line; one of a wrong form has its words taken as they stand."""

    line: Line
    is_malformed: bool = False


Item = Union[Assign, Define, Unclosed, Command]


def is_passed(text: str) -> bool:
    """Whether a line is blank or a comment."""
    return text.lstrip(" \t")[:1] in ("", ":", "#")


def begins_macro(text: str) -> bool:
    return text.lstrip(" \t").startswith("macro") and words_of(text)[0] == "macro"


def numbered(text: str) -> List[Line]:
    """The lines of a text with their numbers, but for those that are passed over and do not follow a `macro` line."""
    kept: List[Line] = []
    for number, line in enumerate(lines_of(text), 1):
        is_next = bool(kept) and kept[-1].number == number - 1 and begins_macro(kept[-1].text)
        if is_next or not is_passed(line):
            kept.append(Line(number, line))
    return kept


def before_fence(text: str) -> Optional[str]:
    """What stands before the `\"\"\"` that ends a line without other quotes."""
    front, quote, tail = text.partition('"')
    return front if quote and tail.rstrip(" \t") == '""' else None


def is_fence(text: str) -> bool:
    front = before_fence(text)
    return front is not None and not front.strip(" \t")


def left_of(text: str) -> Optional[Tuple[str, bool, str]]:
    """The sides of an assignment: what stands before the first `=` or its `?=`, whether it is `?=`, and the rest."""
    front, sign, right = text.partition("=")
    if not sign:
        return None
    left, mark, between = front.partition("?")
    if not mark:
        return front, False, right
    return None if between else (left, True, right)


def assignment_at(line: Line) -> Item:
    """A line that sets a variable, or else a command."""
    sides = left_of(line.text)
    left = words_of(sides[0]) if sides else []
    name = variable_of(left[0]) if len(left) == 1 else None
    if sides is None or name is None:
        return Command(line)
    right = words_of(sides[2])
    if len(right) != 1 or (text_of(right[0]) is None and path_of(right[0]) is None):
        return Command(line, is_malformed=True)
    return Assign(line, name, sides[1], right[0])


def macro_at(lines: Sequence[Line], at: int) -> Tuple[Item, int]:
    """The item at a `macro` line, and the place after its own lines."""
    line = lines[at]
    front = before_fence(line.text)
    words = words_of(line.text if front is None else front)
    if len(words) != 2 or words[0] != "macro" or not MACRO_NAME.fullmatch(words[1]):
        return Command(line, is_malformed=True), at + 1
    start = at + 1
    if front is None and start < len(lines):
        if not is_fence(lines[start].text):
            return Command(line, is_malformed=True), at + 1
        start += 1
    end = next((n for n in range(start, len(lines)) if is_fence(lines[n].text)), None)
    if end is None:
        return Unclosed(line), len(lines)
    return Define(line, words[1], tuple(lines[start:end])), end + 1


def items_of(lines: Sequence[Line]) -> List[Item]:
    """What stands in the lines of a body, in order."""
    items: List[Item] = []
    at = 0
    while at < len(lines):
        line = lines[at]
        at += 1
        if begins_macro(line.text):
            item, at = macro_at(lines, at - 1)
            items.append(item)
        elif not is_passed(line.text):
            items.append(assignment_at(line))
    return items


# ---- commands


def some(value: Optional[str]) -> str:
    if value is None:
        raise Refused(ARGUMENTS)
    return value


def an_entry(word: str) -> str:
    return some(text_of(word))


def a_path(word: str) -> str:
    return some(path_of(word))


def a_macro(word: str) -> str:
    return some(variable_of(word))


def a_name(word: str) -> str:
    text = an_entry(word)
    return some(text if NAME.fullmatch(text) else None)


def number_of(word: str) -> Optional[int]:
    """A number below 2^32, decimal or after `0x` hexadecimal."""
    match = NUMBER.fullmatch(word)
    if not match:
        return None
    digits, base = (match.group(1), 16) if match.group(1) else (match.group(2), 10)
    digits = digits.lstrip("0") or "0"
    # (Python reads no number of more than 4,300 digits)
    number = int(digits, base) if len(digits) <= DIGITS else 2**32
    return number if number < 2**32 else None


def a_number(word: str) -> int:
    number = number_of(word)
    if number is None:
        raise Refused(ARGUMENTS)
    return number


def a_truth(word: str) -> bool:
    if word.lower() not in ("true", "false"):
        raise Refused(ARGUMENTS)
    return word.lower() == "true"


def a_time(word: str) -> int:
    """Microseconds, at most 10,000 seconds."""
    match = CLOCK.fullmatch(an_entry(word))
    if not match:
        raise Refused(TIME)
    hours, minutes, seconds, alone, fraction = match.groups("0")
    if int(minutes) > 59 or (match.group(1) and int(seconds) > 59):
        raise Refused(TIME)
    whole = int(alone) + int(hours) * 3600 + int(minutes) * 60 + int(seconds)
    return within(0, whole * 10**6 + int(fraction.ljust(6, "0")), 10**10, TIME)


def within(least: int, value: int, most: int, cause: str) -> int:
    if not least <= value <= most:
        raise Refused(cause)
    return value


def a_speed(word: str) -> int:
    return within(1, a_number(word), 1000, ARGUMENTS)


def a_quantum(word: str) -> int:
    return within(1, a_time(word), 10**6, TIME)


def a_delay(word: str) -> int:
    return within(0, a_time(word), 10**6, TIME)


Sort = Callable[[str], object]


@dataclass(frozen=True)
class Row:
    """How a command begins, where `*` is any processor; how many words it has at least after that; and their sorts."""

    opening: Tuple[str, ...]
    least: int = 0
    sorts: Tuple[Sort, ...] = ()

    @property
    def name(self) -> str:
        return " ".join(self.opening)


ROWS = (
    Row(("*", "PC"), 0, (a_number,)),
    Row(("*", "IsHalted"), 0, (a_truth,)),
    Row(("*", "PerformanceInMips"), 0, (a_speed,)),
    Row(("showAnalyzer",), 1, (an_entry,)),
    Row(("include",), 1, (a_path,)),
    Row(("runMacro",), 1, (a_macro,)),
    Row(("Save",), 1, (a_path,)),
    Row(("Load",), 1, (a_path,)),
    Row(("pause",)),
    Row(("start",)),
    Row(("quit",)),
    Row(("mach", "create"), 0, (a_name,)),
    Row(("mach", "set"), 1, (a_name,)),
    Row(("machine", "LoadPlatformDescription"), 1, (a_path,)),
    Row(("machine", "Reset")),
    Row(("sysbus", "LoadELF"), 1, (a_path,)),
    Row(("sysbus", "LoadBinary"), 2, (a_path, a_number)),
    Row(("sysbus", "LoadHEX"), 1, (a_path,)),
    Row(("sysbus", "ReadDoubleWord"), 1, (a_number,)),
    Row(("sysbus", "WriteDoubleWord"), 2, (a_number, a_number)),
    Row(("emulation", "SetGlobalQuantum"), 1, (a_quantum,)),
    Row(("emulation", "RunFor"), 1, (a_time,)),
    Row(("emulation", "CreateUARTHub"), 1, (a_name, a_delay)),
    Row(("emulation", "CreateCANHub"), 1, (a_name, a_delay)),
    Row(("connector", "Connect"), 2, (an_entry, a_name)),
    Row(("using", "sysbus")),
)

BY_OPENING = {row.opening: row for row in ROWS}


def row_of(words: Sequence[str]) -> Optional[Row]:
    """The row that a command begins: those of processors come first, and those of one word before those of two."""
    second = words[1] if len(words) > 1 else ""
    openings = (("*", second), (words[0],), (words[0], second))
    return next((BY_OPENING[opening] for opening in openings if opening in BY_OPENING), None)


def sides_of(text: str) -> List[str]:
    """The words of a line. In one that sets a variable the sign is a word: `$name`, `=` or `?=`, and the value."""
    sides = left_of(text)
    left = words_of(sides[0]) if sides else []
    if sides is None or len(left) != 1 or variable_of(left[0]) is None:
        return words_of(text)
    return [left[0], "?=" if sides[1] else "=", *words_of(sides[2])]


def sets_variable(words: Sequence[str]) -> bool:
    """Whether a line with these words sets a variable: `$name`, then `=` or `?=`, with or without blanks between."""
    first = left_of(words[0])
    if first and variable_of(first[0]) is not None:
        return True
    second = left_of(words[1]) if len(words) > 1 else None
    return variable_of(words[0]) is not None and second is not None and second[0] == ""


def command_of(words: Sequence[str]) -> Tuple[Row, List[object]]:
    """The row of a command, whose variables are replaced, and what its words after the opening say."""
    if words[0] == "macro" or sets_variable(words):
        raise Refused(ARGUMENTS)
    row = row_of(words)
    if row is None:
        raise Refused(UNKNOWN)
    if row.opening[0] == "*":
        an_entry(words[0])
    arguments = words[len(row.opening) :]
    if not row.least <= len(arguments) <= len(row.sorts):
        raise Refused(ARGUMENTS)
    return row, [sort(word) for sort, word in zip(row.sorts, arguments)]


def names_macro(words: Sequence[str]) -> bool:
    """Whether the second word names a macro and no variable."""
    return len(words) > 1 and words[0] == "runMacro" and variable_of(words[1]) is not None
