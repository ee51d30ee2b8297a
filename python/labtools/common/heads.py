"""What a script of tools/ answers to --help, in parts. It asks nobody whether the script does so."""
import dataclasses
import re
from typing import Iterator, List, Tuple

# A word of a form that stands for something: FILE, or BOARD=ELF.
NAMED = re.compile(r"[A-Z]+(?:=[A-Z]+)?")
# An option of a form, with the word for its value if it takes one.
OPTION = re.compile(r"(?<![\w-])(--?[a-z][a-z-]*)(?: ([A-Z]+))?")
# A line of a table: what is explained, and the beginning of what is said of it.
ROW = re.compile(r" {2,4}(\S(?:.*?\S)?) {2,}(\S.*)")


@dataclasses.dataclass(frozen=True)
class Form:
    """Words with which a script is called, and what it does then, if the words alone do not say it."""

    words: str
    does: str

    def options(self) -> Iterator[Tuple[str, str]]:
        """Yields each option with the word for its value, or nothing."""
        yield from OPTION.findall(self.words)

    def operands(self) -> List[str]:
        """Returns the words that stand for something and are no value of an option."""
        return NAMED.findall(OPTION.sub("", self.words.partition(" ")[2]))


@dataclasses.dataclass(frozen=True)
class Head:
    """The first sentence without its end, the forms, and the other paragraphs by their lines."""

    summary: str
    forms: List[Form]
    paragraphs: List[List[str]]


def read(answer: str) -> Head:
    """Returns the parts of an answer. Its second paragraph has the forms."""
    first, forms, *rest = [part.split("\n") for part in answer.strip("\n").split("\n\n")]
    summary, _, more = " ".join(first).partition(". ")
    pairs = [re.split(" {2,}", line.strip(), maxsplit=1) for line in forms]
    return Head(summary.rstrip("."), [Form(it[0], "".join(it[1:])) for it in pairs], [[more]] * bool(more) + rest)


def table_of(lines: List[str]) -> List[Tuple[str, str]]:
    """Returns the rows of a paragraph that is a table, or none where it is something else."""
    rows: List[Tuple[str, str]] = []
    for line in lines:
        row = ROW.fullmatch(line)
        if row:
            rows.append((row[1], row[2]))
        elif rows and line.startswith(" " * 6):
            rows[-1] = rows[-1][0], f"{rows[-1][1]} {line.strip()}"
        else:
            return []
    return rows
