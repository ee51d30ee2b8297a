"""Runs what the documents show: README.md and the other pages at the top, and docs/. Prints what is not true, and what
it passes over.

    tools/recipes [DOCUMENT ..]

A comment on a line of its own says what the block after it is. A block is indented by four blanks, or it is a table,
whose lines begin with a bar.

    <!-- lines of PATH -->     these lines stand in that file of the repository, one after another
    <!-- file PATH -->         the room gets a file of these lines
    <!-- run COMMAND -->       the command prints these lines on its standard output, and ends with 0
    <!-- run COMMAND = N -->   the same, and it ends with N
    <!-- do -->                each of these lines is a command, and they end with 0

A comment may end with `with PROGRAM` or `with FILE`: its block is tried only if that program or file is installed.

Each document has a room of its own, a new folder in which its commands run, with `lab`, `tools` and `demo`. With LAB
set, `lab` is ./lab with that program. A line that begins with `passed over` tells what is passed over. It ends with 0;
with 1 if something is not true; and with 2 if a document cannot be read.
"""
import itertools
import os
import pathlib
import re
import shutil
import subprocess
import sys
import tempfile
from typing import Dict, Iterator, List, Optional, Tuple

from labdev.pythons import with_pyelftools
from labtools.common.program import TOP, counted, end_wrong, path_of_program

MARK = re.compile(r"<!-- (lines of|file|run|do)\b ?(.*?) ?-->")
WITH = re.compile(r"(.*?) ?with (\S+)$")
STATUS = re.compile(r"(.*) = (\d+)$")


class Wrong(Exception):
    """What a document shows and is not so."""


def marks_of(text: str) -> Iterator[Tuple[int, str, str, List[str]]]:
    """Yields the line, the kind and the words of each comment, and the lines after it."""
    lines = text.split("\n")
    for place, line in enumerate(lines):
        mark = MARK.fullmatch(line.strip())
        if mark:
            yield place + 1, mark[1], mark[2], lines[place + 1 :]


def table_after(lines: List[str]) -> List[str]:
    """Returns the lines of the table that comes first, or none where something else does."""
    rest = itertools.dropwhile(lambda it: not it.strip(), lines)
    return list(itertools.takewhile(lambda it: it.startswith("|"), rest))


def indented_after(lines: List[str]) -> List[str]:
    """Returns the lines of the indented block that comes first, without their indentation, or none."""
    found: List[str] = []
    for line in lines:
        if line.startswith("    "):
            found.append(line[4:])
        elif line.strip() == "":
            found += [""] * bool(found)
        else:
            break
    while found and not found[-1]:
        found.pop()
    return found


def block_after(lines: List[str]) -> str:
    """Returns the block after a comment: a table, or indented lines without their indentation."""
    found = table_after(lines) or indented_after(lines)
    if not found:
        raise Wrong("no block follows the comment")
    return "".join(f"{line}\n" for line in found)


def run(command: str, room: str) -> Tuple[int, str, str]:
    """Runs a command in the room, and returns its status and what it prints."""
    words, env = ["bash", "-e", "-c", command], {**os.environ, "PATH": f"{room}/.python:{os.environ['PATH']}"}
    ran = subprocess.run(
        words, cwd=room, env=env, stdin=subprocess.DEVNULL, capture_output=True, text=True, timeout=300
    )
    return ran.returncode, ran.stdout, ran.stderr


def try_lines(path: str, block: str) -> None:
    with open(f"{TOP}/{path}", encoding="utf-8") as file:
        if f"\n{block}" not in f"\n{file.read()}":
            raise Wrong(f"{path} does not have these lines")


def make_file(path: str, block: str, room: str) -> None:
    os.makedirs(os.path.dirname(f"{room}/{path}"), exist_ok=True)
    with open(f"{room}/{path}", "w", encoding="utf-8") as file:
        file.write(block)


def try_run(words: str, block: str, room: str) -> None:
    given = STATUS.fullmatch(words)
    command, wanted = (given[1], int(given[2])) if given else (words, 0)
    status, printed, told = run(command, room)
    if printed != block or status != wanted:
        ended = "" if status == wanted else f"ended with {status} instead of {wanted} and "
        raise Wrong(f"`{command}` {ended}printed\n{printed}{told}")


def do_lines(block: str, room: str) -> None:
    status, printed, told = run(block, room)
    if status != 0:
        raise Wrong(f"the commands ended with {status} and printed\n{printed}{told}")


def is_here(needed: str) -> bool:
    """Whether a program is installed, a file is there, or a Python has pyelftools."""
    if needed == "pyelftools":
        return with_pyelftools() is not None
    return shutil.which(needed) is not None or os.path.exists(needed)


def try_block(kind: str, words: str, block: str, room: str) -> Optional[str]:
    """Tries a block, and returns what it needs and is not installed, for which it is passed over, or None."""
    needs = WITH.fullmatch(words)
    if needs and not is_here(needs[2]):
        return needs[2]
    words = needs[1] if needs else words
    if kind == "lines of":
        try_lines(words, block)
    elif kind == "file":
        make_file(words, block, room)
    elif kind == "run":
        try_run(words, block, room)
    else:
        do_lines(block, room)
    return None


def furnish(room: str, program: str) -> None:
    """Puts `lab`, `tools` and `demo` into a room, as a package has them, and a Python, with pyelftools if possible."""
    os.mkdir(f"{room}/.python")
    os.symlink(with_pyelftools() or sys.executable, f"{room}/.python/python3")
    os.mkdir(f"{room}/bin")
    os.symlink(program, f"{room}/bin/lab")
    for name in "lab", "VERSION":
        shutil.copy(f"{TOP}/{name}", f"{room}/{name}")
    for name in "tools", "python":
        os.symlink(f"{TOP}/{name}", f"{room}/{name}")
    shutil.copytree(f"{TOP}/demo", f"{room}/demo")


def text_of(document: str) -> str:
    """Returns what a document holds, or ends the script where it cannot be read."""
    try:
        with open(document, encoding="utf-8") as file:
            return file.read()
    except OSError as fault:
        end_wrong(f"{document}: {fault.strerror}")
    except UnicodeDecodeError:
        end_wrong(f"{document}: it is not UTF-8")


def is_so(document: str, text: str, program: str) -> bool:
    """Tries all blocks of a document, and says which are wrong, and what was passed over."""
    is_well = True
    lacking: Dict[Optional[str], int] = {}
    marks = list(marks_of(text))
    with tempfile.TemporaryDirectory(prefix="lab-recipes-") as room:
        if marks:
            furnish(room, program)
        for line, kind, words, rest in marks:
            try:
                lacks = try_block(kind, words, block_after(rest), room)
                lacking[lacks] = lacking.get(lacks, 0) + 1
            except (Wrong, OSError, subprocess.TimeoutExpired) as fault:
                print(f"{os.path.relpath(document, TOP)}:{line}: {fault}")
                is_well = False
    for lacks in lacking.keys() - {None}:
        blocks = counted(lacking[lacks], "block", "blocks")
        print(f"passed over: {blocks} of {os.path.relpath(document, TOP)}, without {lacks}")
    return is_well


def all_documents() -> List[pathlib.Path]:
    """Returns the pages of the repository: those at its top, and those of docs/ and its folders."""
    return [*sorted(TOP.glob("*.md")), *sorted(TOP.glob("docs/**/*.md"))]


def main(documents: List[str]) -> int:
    documents = documents or [str(it) for it in all_documents()]
    texts = [text_of(it) for it in documents]
    program = path_of_program()
    return 0 if all([is_so(it, text, program) for it, text in zip(documents, texts)]) else 1
