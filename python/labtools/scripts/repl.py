"""What platform files say, by the rules of docs/PLATFORMS.md: the files that they use, and their entries.

This reader stands beside the program's own and is not proved: `lab check` decides. It looks for no fault, and passes
over a line that has no form of platform text.
"""
import re
from dataclasses import dataclass, field
from typing import Dict, List, Match, Optional, Union

from labtools.scripts import resc

PROCESSOR = "CPU.RiscV32"
FINISHER = "Miscellaneous.SiFiveTest"

# One that is not closed reaches to the end.
COMMENT = re.compile(r'"[^"\n]*["\n]?|//[^\n]*|/\*.*?(?:\*/|\Z)', re.DOTALL)
USING = re.compile(r'using[ \t]*"([^"]*)"[ \t]*')
HEAD = re.compile(r"(\w+)[ \t]*:[ \t]*([A-Za-z][\w.]*)?")
ATTRIBUTE = re.compile(r'\b(\w+)[ \t]*:[ \t]*(?:"([^"]*)"|([\w.]*))')


@dataclass(frozen=True)
class Using:
    """The line `using "path"`."""

    number: int
    path: str


@dataclass
class Entry:
    """An entry, at the line of its head. One without a type adds to the entry of its name before it."""

    number: int
    name: str
    type_name: str
    attributes: Dict[str, str] = field(default_factory=dict)


Item = Union[Using, Entry]


def blanked(text: str) -> str:
    """A text with blanks in place of its comments. Its lines keep their numbers."""

    def blanks(match: Match[str]) -> str:
        found = match.group()
        return found if found.startswith('"') else re.sub(r"[^\n]", " ", found)

    return COMMENT.sub(blanks, text)


def attributes_in(text: str) -> Dict[str, str]:
    """The attributes in a part of a line, by their keys. Texts are without their quotes."""
    return {key: quoted or plain for key, quoted, plain in ATTRIBUTE.findall(text)}


def items_of(text: str) -> List[Item]:
    """The items of a platform file, in order."""
    items: List[Item] = []
    entry: Optional[Entry] = None
    is_open = False
    for number, line in enumerate(resc.lines_of(blanked(text)), 1):
        using = None if is_open else USING.fullmatch(line)
        head = None if is_open else HEAD.match(line)
        if using:
            items.append(Using(number, using[1]))
            entry = None
            continue
        if head:
            entry = Entry(number, head[1], head[2] or "")
            items.append(entry)
            _, brace, line = line.partition("{")
            is_open = bool(brace)
        if entry:
            entry.attributes.update(attributes_in(line))
        is_open = is_open and "}" not in line
    return items
