"""Finds the function whose body an edit changes, in files as `rt fmt` writes them: a body ends with a brace below the
first letter of its function's line."""
import dataclasses
import pathlib
import re
from typing import Iterator, List, Optional, Tuple

from labdev.contracts import owners_of

FILE = re.compile(r"src/(?:\w+/)*\w+\.rt")
FUNCTION = re.compile(r"( *)(?:pub(?:\([a-z ]+\))? )?(?:unsafe )?fn (\w+)")
# What a body may have on which other proofs rest: an item of its own, or a type that hides which body is called.
ITEM = re.compile(r"\b(?:fn|impl|trait|struct|enum|static|const|macro_rules|dyn)\b")
# So may a result whose type is that of the body, and functions that have one proof together.
SHARED = re.compile(r"-> *impl\b|^ *#\[cycle\b", re.MULTILINE)


@dataclasses.dataclass(frozen=True)
class Function:
    """A free function, or a method of a type itself: the name by which `rt check --only` takes it, the end of the path
    of the folder with its proof, its lines in its file, and where it begins there, and its body begins and ends."""

    name: str
    folder: str
    lines: range
    start: int
    opened: int
    closed: int


@dataclasses.dataclass(frozen=True)
class Placed:
    """An edit that changes nothing but the body of one function: its name, the file, the function as it stands there,
    and the body with the edit."""

    edit: str
    file: str
    function: Function
    body: str


def module_of(crate: str, file: str) -> str:
    """Returns the path of the module that a file below src/ holds."""
    parts = file[len("src/") : -len(".rt")].split("/")
    return "::".join([crate, *(it for it in parts if it not in ("lib", "main", "mod"))])


def body_below(lines: List[str], first: int, indent: str) -> Optional[Tuple[int, int]]:
    """Returns the lines with the braces of the body of the function whose line is the first, or None for none."""
    for number in range(first, len(lines)):
        line = lines[number]
        is_end_of_head = number == first or line.startswith((f"{indent})", f"{indent}>"))
        if line == f"{indent}{{" or is_end_of_head and line.endswith("{"):
            end = next((it for it in range(number + 1, len(lines)) if lines[it] == f"{indent}}}"), None)
            return None if end is None else (number, end)
        # (a contract may have comments and lines without anything)
        if not is_end_of_head and line and not line.startswith((f"{indent} ", f"{indent}where")):
            return None
    return None


def first_above(lines: List[str], number: int) -> int:
    """Returns the first of the lines that stand above a function without a gap: its description and attributes."""
    while number and lines[number - 1].lstrip().startswith(("///", "#[", "//")):
        number -= 1
    return number


def owner_of(lines: List[str], first: int) -> str:
    """Returns the type to which the `impl` belongs that begins with this line, or nothing if it is one of a trait."""
    last = next((it for it in range(first, len(lines)) if lines[it].endswith("{")), first)
    header = " ".join(lines[first : last + 1])
    owners = owners_of(header)
    return "" if " for " in header or len(owners) != 1 else "".join(owners)


def functions_of(crate: str, file: str, text: str) -> Iterator[Function]:
    """Yields the functions of a file that `Function` speaks of, in their order."""
    lines = text.split("\n")
    starts = [0]
    for line in lines:
        starts.append(starts[-1] + len(line) + 1)
    owner = ""
    for number, line in enumerate(lines):
        if line == "}":
            owner = ""
        elif re.match(r"impl\b", line):
            owner = owner_of(lines, number)
        head = FUNCTION.match(line)
        body = body_below(lines, number, head[1]) if head and head[1] == "    " * bool(owner) else None
        if head and body:
            name = f"{owner}::{head[2]}" if owner else f"{module_of(crate, file)}::{head[2]}"
            folder = "/".join(name.split("::")[0 if owner else 1 :])
            first = first_above(lines, number)
            numbers = range(first + 1, body[1] + 2)
            yield Function(name, folder, numbers, starts[first], starts[body[0] + 1], starts[body[1]])


def changes_of(edit: str) -> Optional[Tuple[str, List[Tuple[str, str]]]]:
    """Returns the file that an edit changes, and each text of it with the one for it, or None if it is not so plain."""
    files = re.findall(r"(?m)^file: (.*)$", edit)
    pairs = re.findall(r"(?m)^old: (.*)\nnew: ?(.*)$", edit)
    # (rt reads these lines alone)
    read = [it for it in edit.split("\n") if it.startswith(("file: ", "old: ", "new:"))]
    is_plain = len(files) == 1 and pairs and len(read) == 1 + 2 * len(pairs) and read[0].startswith("file: ")
    return (files[0].strip(), pairs) if is_plain else None


def with_changes(text: str, pairs: List[Tuple[str, str]]) -> Optional[str]:
    """Returns the text with these changes, or None where one does not apply or nothing changes."""
    changed = text
    for old, new in pairs:
        if changed.count(old) != 1:
            return None
        changed = changed.replace(old, new)
    return None if changed == text else changed


def is_apart(folder: pathlib.Path, one: Function, texts: Tuple[str, str], bodies: Tuple[str, str]) -> bool:
    """Returns whether no proof of another function can rest on a body of this one, before or after the edit. A whole
    proof by hand may cite what it likes, so its function is not told from others."""
    by_hand = any(str(it.parent).endswith(f"/{one.folder}") for it in (folder / "proofs").rglob("Proof.antt"))
    return not by_hand and not any(map(SHARED.search, texts)) and not any(map(ITEM.search, bodies))


def changed_function(functions: List[Function], before: str, after: str) -> Optional[Function]:
    """Returns the function in whose body alone two texts of a file differ, or None for none."""
    for one in functions:
        end = one.closed + len(after) - len(before)
        is_within = end >= one.opened and before[: one.opened] == after[: one.opened]
        if is_within and before[one.closed :] == after[end:]:
            return one
    return None


def place_of(folder: pathlib.Path, edit: pathlib.Path) -> Optional[Placed]:
    """Returns an edit of a crate's folder with the function whose body alone it changes, or None if there is no such
    function, or proofs of others may rest on that body."""
    changes = changes_of(edit.read_text(encoding="utf-8", errors="replace"))
    if changes is None or not FILE.fullmatch(changes[0]) or not (folder / changes[0]).is_file():
        return None
    file, before = changes[0], (folder / changes[0]).read_text(encoding="utf-8")
    after = with_changes(before, changes[1])
    functions = list(functions_of(folder.name, file, before))
    one = changed_function(functions, before, after) if after else None
    if after is None or one is None:
        return None
    changed = dataclasses.replace(one, closed=one.closed + len(after) - len(before))
    now = list(functions_of(folder.name, file, after))
    is_as_before = changed in now and [it.name for it in now] == [it.name for it in functions]
    texts = before[one.start : one.closed], after[one.start : changed.closed]
    bodies = before[one.opened : one.closed], after[one.opened : changed.closed]
    is_alone = is_as_before and [it.name for it in functions].count(one.name) == 1
    return Placed(edit.name, file, one, bodies[1]) if is_alone and is_apart(folder, one, texts, bodies) else None
