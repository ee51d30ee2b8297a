"""What the tables of docs/ say to do about a refused line. The documents are the one place for it: nothing here knows a
cause or a cure.

    cures.cures_of("S1 unknown command", ["logLevel", "3"])

gives the texts that `./lab` prints: of docs/RENODE.md where the words are Renode's, else of the symptoms in
docs/TROUBLESHOOTING.md, and else of the table that has a row for the code.
"""
import re
from dataclasses import dataclass
from typing import Iterator, List, Sequence

from labtools.common.manual import rows_after
from labtools.common.program import TOP

BACKQUOTED = re.compile(r"`([^`]+)`")
# Words in capital letters stand for any word, but for the one that is a part of a command.
ANY = re.compile("(?!PC$)[A-Z]+")
CODE = re.compile(r"\b([SPEH]\d+|status 4)\b")


@dataclass(frozen=True)
class Table:
    """A table of causes: the line of its heading, and the columns of what says the code, the cause and the cure."""

    document: str
    heading: str
    code: int
    cause: int
    cure: int


OF_RENODE = Table("docs/RENODE.md", "| In Renode | Refused by | Here |", 1, 0, 2)
OF_SYMPTOMS = Table("docs/TROUBLESHOOTING.md", "| Symptom | Cause | Check |", 0, 1, 2)
OF_CODES = (
    Table("docs/SCRIPTS.md", "| Cause | It comes where | Cure |", 0, 1, 2),
    Table("docs/PLATFORMS.md", "| Cause | Why | What to do |", 0, 1, 2),
    Table("docs/IMAGES.md", "| Code | Cause | What to do |", 0, 1, 2),
)


def rows_of(table: Table) -> Iterator[List[str]]:
    """The rows of all tables of a document with this heading. A document may be missing where lab is installed."""
    path = TOP / table.document
    text = path.read_text(encoding="utf-8") if path.exists() else ""
    for part in text.split(f"\n{table.heading}\n")[1:]:
        yield from rows_after(f"{table.heading}\n{part}", table.heading)


def codes_in(cell: str) -> List[str]:
    """The codes that a cell names, but for those of a range, whose rows stand elsewhere."""
    return [] if " to " in cell else CODE.findall(cell)


# ---- words that a row is for


def fits(form: Sequence[str], words: Sequence[str]) -> bool:
    """Whether words begin as a form does, in which capital letters stand for any word and `..` for any words."""
    if not form:
        return True
    if form[0] == "..":
        return any(fits(form[1:], words[n:]) for n in range(len(words)))
    return bool(words) and fits_word(form[0], words[0]) and fits(form[1:], words[1:])


def fits_word(own: str, word: str) -> bool:
    if own.endswith(".."):
        return word.startswith(own[:-2])
    return ANY.fullmatch(own) is not None or own == word


def forms_in(cell: str) -> List[List[str]]:
    """The forms of words that a cell names."""
    return [form.split() for form in BACKQUOTED.findall(cell) if not CODE.match(form)]


def is_for(cell: str, words: Sequence[str]) -> bool:
    return any(fits(form, words) for form in forms_in(cell))


# ---- cures


def instead_of(code: str, words: Sequence[str]) -> List[str]:
    """What docs/RENODE.md has to do in place of words of Renode's."""
    table = OF_RENODE
    rows = (row for row in rows_of(table) if code in codes_in(row[table.code]) and is_for(row[table.cause], words))
    return [f"{table.document}: {row[table.cure]}" for row in rows][:1]


def symptoms_of(code: str, words: Sequence[str]) -> List[str]:
    """What docs/TROUBLESHOOTING.md says of a code at a command with these words."""
    table = OF_SYMPTOMS
    rows = [row for row in rows_of(table) if code in codes_in(row[table.code]) and is_for(row[table.code], words)]
    return [f"{table.document}: {row[table.cause]}. Check: {row[table.cure]}" for row in rows]


def rows_for(code: str) -> List[str]:
    """What the tables with a row for each code say of one."""
    return [
        f"{table.document}: {row[table.cause].rstrip('.')}. {row[table.cure].rstrip('.')}"
        for table in OF_CODES
        for row in rows_of(table)
        if code in codes_in(row[table.code])
    ]


def cures_of(cause: str, words: Sequence[str] = ()) -> List[str]:
    """The cures of a cause, as lab prints it, at a line with these words: the nearest of the documents'."""
    code = cause if cause == "status 4" else cause.partition(" ")[0]
    return instead_of(code, words) or symptoms_of(code, words) or rows_for(code)
