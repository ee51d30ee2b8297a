"""The manual pages: lab(1), made from the tables of docs/SCRIPTS.md, and one of each script of tools/, made from what
it answers to --help. They know nothing besides."""
import re
from typing import List, Sequence, Tuple

from labtools.common import heads

HEAD = """.TH LAB 1 "" "lab VERSION" "User commands"
.SH NAME
lab \\- run the firmware of several RISC-V boards together
.SH SYNOPSIS
SYNOPSIS
.SH DESCRIPTION
.B lab
runs the firmware of several 32-bit RISC-V boards on one computer, without the boards. They share one clock, talk to
each other over UART and CAN, and what they send is printed as a log on the standard output. The same firmware and the
same script give the same log, byte for byte, with every number of workers. Paths are taken from the folder in which
.B lab
is started.
.SH COMMANDS
"""
OPTIONS = """.TP
.B lab \\-\\-help
prints the words and the exits.
.TP
.B lab \\-\\-version
prints the version, the sum of the sources and the logic of the kit by which they were proved.
.TP
.B lab \\-\\-program
prints the path of the program itself.
.SH EXIT STATUS
"""
TAIL = """.SH SEE ALSO
The documents that come with it: FIRST_BOARD.md begins from nothing, SCRIPTS.md has the commands of scripts, the log and
the refusals, PLATFORMS.md the boards, and TROUBLESHOOTING.md what to do where nothing is printed. These scripts stand
beside the program, and answer \\-\\-help with what they do:
"""


class NoTable(Exception):
    """A document without a table that the page is made from: its heading."""


def cells_of(line: str) -> List[str]:
    """Returns the cells of a row of a table. A bar within a cell has a backslash before it."""
    cells = re.split(r"(?<!\\)\|", line.strip().strip("|"))
    return [cell.strip().replace("\\|", "|") for cell in cells]


def rows_after(document: str, heading: str) -> List[List[str]]:
    """Returns the cells of the rows of the table with this heading line."""
    lines = iter(document.split("\n"))
    if heading not in lines:
        raise NoTable(heading)
    next(lines)
    rows = []
    for line in lines:
        if not line.startswith("| "):
            break
        rows.append(cells_of(line))
    return rows


def plain(text: str) -> str:
    """Returns text with what means something to the formatter of pages written so that it stands for itself."""
    text = text.replace("\\", "\\e").replace("-", "\\-")
    return f"\\&{text}" if text[:1] in (".", "'") else text


def formatted(text: str) -> str:
    """Returns text of a document, in which what stands between backquotes is bold."""
    parts = re.split(r"`([^`]*)`", text)
    return "".join(f"\\fB{plain(part)}\\fR" if place % 2 else plain(part) for place, part in enumerate(parts))


def words_of(document: str) -> List[Tuple[str, str]]:
    """Returns the words with which lab is called, and what they do."""
    return [(row[0].strip("`"), row[1]) for row in rows_after(document, "| Words | Do |")]


def exits_of(document: str) -> List[Tuple[str, str]]:
    """Returns the numbers with which lab ends, and what each says of the run."""
    rows = rows_after(document, "| Status | The run | Its last line |")
    return [(row[0], row[1]) for row in rows]


def block(lines: Sequence[str]) -> str:
    """Returns a paragraph as it is: a table by its rows, and other indented lines below each other."""
    rows = heads.table_of(list(lines))
    if rows:
        return "".join(f".TP\n.B {plain(what)}\n{formatted(said)}\n" for what, said in rows)
    if lines[0].startswith(" "):
        return ".PP\n.nf\n" + "".join(f"{plain(line)}\n" for line in lines) + ".fi\n"
    return f".PP\n{formatted(' '.join(lines))}\n"


def page_of_script(name: str, answer: str, version: str) -> str:
    """Returns the page of a script, by its name and by what it answers to --help."""
    head = heads.read(answer)
    synopsis = "\n.br\n".join(f".B {plain(form.words)}" for form in head.forms)
    forms = block([f"  {form.words}  {form.does}" for form in head.forms]) if head.forms[0].does else ""
    return (
        f'.TH {plain(name.upper())} 1 "" "lab {version}" "User commands"\n'
        f".SH NAME\n{plain(name)} \\- {plain(head.summary[0].lower() + head.summary[1:])}\n"
        f".SH SYNOPSIS\n{synopsis}\n.SH DESCRIPTION\n{forms}"
        f"{''.join(block(it) for it in head.paragraphs)}.SH SEE ALSO\n.BR lab (1)\n"
    )


def manual_page(document: str, version: str, scripts: str) -> str:
    """Returns the page of lab, from docs/SCRIPTS.md, which names the scripts beside it in these words."""
    words = words_of(document)
    synopsis = "\n.br\n".join(f".B lab {plain(form)}" for form, _ in words)
    commands = "".join(f".TP\n.B lab {plain(form)}\n{formatted(does)}.\n" for form, does in words)
    exits = "".join(f".TP\n.B {number}\nThe run {formatted(says)}.\n" for number, says in exits_of(document))
    head = HEAD.replace("VERSION", version).replace("SYNOPSIS\nSYNOPSIS", f"SYNOPSIS\n{synopsis}")
    return f"{head}{commands}{OPTIONS}{exits}{TAIL}{plain(scripts)}.\n"
