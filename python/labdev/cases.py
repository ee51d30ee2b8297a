"""The runs of a case: the words of each, and the files that it finds. The head of cases/check has the form of a case.

Nothing is run here, and what a run has to print or to keep is not looked at."""
import dataclasses
import os
import re
from typing import Dict, Iterator, List, Tuple, Union

Files = Dict[str, bytes]
ESCAPE = re.compile(rb"\\(x[0-9A-Fa-f]{2}|.)", re.DOTALL)
ESCAPES = {b"n": b"\n", b"r": b"\r", b"t": b"\t", b"\\": b"\\"}
FORM = re.compile(r"(?P<more>\+ )?(?P<name>\S+)(?: (?P<how>x|as|after|in|is) (?P<what>\S+))?")
EACH = re.compile(r"each (.*?): lab (.*?)(?:, snapshot .*)?")
CUT = re.compile(r"( = \d+)?( with \S+ of \d+ to \d+ bytes)?$")


@dataclasses.dataclass(frozen=True)
class Run:
    """The words of a run, and the files that are there before it. Who makes it adds what it has kept to them."""

    words: List[str]
    files: Files
    # Whether it is a run before with the refused line in another place.
    is_again: bool = False


def unescaped(text: bytes) -> bytes:
    return ESCAPE.sub(lambda m: ESCAPES[m[1]] if len(m[1]) == 1 else bytes([int(m[1][1:], 16)]), text)


def without_notes(lines: List[str]) -> List[str]:
    return [word for line in lines for word in line.partition("#")[0].split()]


def words_to_bytes(lines: List[str]) -> bytes:
    return b"".join(int(word, 16).to_bytes(4, "little") for word in without_notes(lines))


def times_to_bytes(lines: List[str]) -> bytes:
    parted = [word.partition("x") for word in without_notes(lines)]
    return b"".join(bytes([int(byte, 16)]) * int(count or 1) for byte, _, count in parted)


def changed(held: bytes, lines: List[str]) -> bytes:
    """Returns bytes with the words and the length that the lines say."""
    new = bytearray(held)
    for line in lines:
        place, value = line.partition("#")[0].split(":")
        if place == "length":
            new = new[: int(value)].ljust(int(value), b"\0")
        else:
            new[int(place) : int(place) + 4] = int(value, 16).to_bytes(4, "little")
    return bytes(new)


def text_of(lines: List[str]) -> bytes:
    return "".join(f"{line}\n" for line in lines).encode()


def from_form(form: str, lines: List[str]) -> bytes:
    """Returns the bytes of a part that has them in words, in bytes or in escapes."""
    if form == "words":
        return words_to_bytes(lines)
    if form == "bytes":
        return times_to_bytes(lines)
    return unescaped("".join(lines).encode())


def furnish(files: Files, heading: str, lines: List[str]) -> None:
    """Makes the file of a part."""
    form = FORM.fullmatch(heading)
    assert form, heading
    name, how, what = form["name"], form["how"], form["what"]
    if form["more"]:
        files[name] += text_of(lines)
    elif how == "x":
        files[name] = text_of(lines) * int(what)
    elif how == "as":
        files[name] = changed(files[what], lines)
    elif how == "after":
        files[name] = files[what] + text_of(lines)
    elif how == "in":
        files[name] = from_form(what, lines)
    elif how != "is":
        files[name] = text_of(lines)


def rows_of(lines: List[str]) -> Iterator[List[str]]:
    """Yields the lines of each row of a part `each` that stand before what is wanted of it."""
    row: List[str] = []
    is_whole = False
    for line in lines:
        if line.startswith("=>"):
            is_whole = True
        elif is_whole:
            yield row
            row, is_whole = [line], False
        else:
            row.append(line)
    yield row


def refused(files: Files, lines: List[str]) -> Iterator[Run]:
    """Yields the runs of a script whose last line is refused: as it stands, in a macro, and in an included file."""
    before, line = lines[:-1], lines[-1]
    words = ["run", "s.resc"]
    files["s.resc"] = text_of([*before, line, "foo"])
    yield Run(words, files)
    files["s.resc"] = text_of([*before, "macro inner", '"""', "", f"    {line}", '"""', "runMacro $inner"])
    yield Run(words, files, is_again=True)
    files["s.resc"] = text_of([*before, "include @i.resc"])
    files["i.resc"] = f"# a note\n{line}\r\nfoo".encode()
    yield Run(words, files, is_again=True)


def runs_of_part(files: Files, heading: str, lines: List[str]) -> Iterator[Run]:
    each = EACH.fullmatch(heading)
    if heading.startswith("each refused "):
        for line in lines:
            yield from refused(files, [line])
    elif heading.startswith("refused "):
        yield from refused(files, lines)
    elif heading.startswith("lab "):
        yield Run(CUT.sub("", heading).split()[1:], files)
    elif heading.startswith("snapshot "):
        files.pop(heading.split()[1], None)
    elif each:
        for row in rows_of(lines):
            furnish(files, each[1], row)
            yield Run(each[2].split(), files)
    else:
        furnish(files, heading, lines)


def parts_of(path: Union[str, "os.PathLike[str]"]) -> Iterator[Tuple[str, List[str]]]:
    """Yields the heading and the lines of each part, and of those of other files whose parts it has."""
    with open(path, encoding="utf-8", newline="") as file:
        parts = re.split(r"^-- (.+) --\n", file.read(), flags=re.MULTILINE)
    for heading, text in zip(parts[1::2], parts[2::2]):
        if heading.startswith("parts of "):
            yield from parts_of(os.path.join(os.path.dirname(path), heading[len("parts of ") :]))
        else:
            yield heading, text.split("\n")[:-1]


def runs_of(path: Union[str, "os.PathLike[str]"]) -> Iterator[Run]:
    """Yields the runs of a case in order, all with the same files, which change from one to the next."""
    files: Files = {}
    for heading, lines in parts_of(path):
        yield from runs_of_part(files, heading, lines)
