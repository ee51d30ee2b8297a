"""Prints the crates of crates.txt by layer: a crate is one layer above the highest that it uses.

    tools/crates                   the crates of the program, the highest layer first
    tools/crates --chain           a longest chain down from lab_cli, which no build can shorten
    tools/crates --above NAME ..   these crates and all that use them, directly or not: if these change, all of them
                                   are proved again
    tools/crates --below NAME ..   these crates and all that they use, directly or not
    tools/crates --heads           the crates of the program as a table: what each is, and which crates it uses
    tools/crates --others          the same table of the crates beside the program: laws, tests, and other programs

--above and --below print one name a line, each crate after those that it uses. A table begins with the highest layer,
and describes a crate by the first sentence of the comment at the head of its src/lib.rt or src/main.rt. Libraries of
the kit are left out. The tool ends with 0; with 1 if a crate has no such comment or the output cannot be written; and
with 2 if it was called with wrong arguments.
"""
import functools
import itertools
import pathlib
import re
import textwrap
from typing import Callable, Dict, List, Set

from labtools.common.program import TOP, end_unless, end_wrong

PROGRAM = "lab_cli"
COLUMNS = 110
USAGE = "[--chain | --heads | --others | --above NAME .. | --below NAME ..]"
Uses = Dict[str, List[str]]


def uses_of(text: str) -> Uses:
    """Returns the crates of crates.txt, each with those of the same file that it uses."""
    lines = [line.split("#")[0] for line in text.split("\n")]
    rows = [line.partition(":") for line in lines if ":" in line]
    names = {row[0].split()[0] for row in rows}
    return {row[0].split()[0]: [it for it in row[2].split() if it in names] for row in rows}


def below(uses: Uses, crate: str) -> Set[str]:
    """Returns a crate and all that it stands on."""
    found: Set[str] = set()
    left = [crate]
    while left:
        one = left.pop()
        left += [] if one in found else uses[one]
        found.add(one)
    return found


def above(uses: Uses, crate: str) -> Set[str]:
    """Returns a crate and all that stand on it."""
    return {it for it in uses if crate in below(uses, it)}


def from_below(uses: Uses, among: Set[str]) -> List[str]:
    """Returns these crates, each after those that it uses."""
    heights = {crate: len(chain) for crate, chain in chains_of(uses).items()}
    return sorted(among, key=lambda it: (heights[it], it))


def chains_of(uses: Uses) -> Uses:
    """Returns of each crate a longest way down from it; its length is the crate's layer."""

    @functools.lru_cache(maxsize=None)
    def chain(crate: str) -> List[str]:
        none: List[str] = []
        longest = max((chain(it) for it in sorted(uses[crate])), key=len, default=none)
        return [crate, *longest]

    return {crate: chain(crate) for crate in uses}


def layers(uses: Uses) -> List[str]:
    """Returns a line a layer, and more where it is long."""
    among = below(uses, PROGRAM)
    chains = {crate: chain for crate, chain in chains_of(uses).items() if crate in among}
    lines = []
    for height in range(len(chains[PROGRAM]), 0, -1):
        crates = " ".join(sorted(crate for crate, chain in chains.items() if len(chain) == height))
        head = f"{height:2}  "
        lines += textwrap.wrap(crates, COLUMNS, initial_indent=head, subsequent_indent=" " * len(head))
    return lines


def first_sentence(source: str) -> str:
    """Returns the first sentence of the comment at the head of a source, or nothing where there is no comment."""
    head = itertools.takewhile(lambda it: it.startswith("//! "), source.split("\n"))
    found = re.match(r"(.*?\.)(?: |$)", " ".join(line[4:].strip() for line in head))
    return found[1] if found else ""


def head_of(folder: pathlib.Path) -> str:
    """Returns what the crate in a folder is, in its own words, or ends the script where the crate does not say so."""
    for name in "src/lib.rt", "src/main.rt":
        if (folder / name).is_file():
            said = first_sentence((folder / name).read_text(encoding="utf-8"))
            if said:
                return said
    end_wrong(f"crates/{folder.name}: neither src/lib.rt nor src/main.rt begins with a sentence", 1)


def table(uses: Uses, among: Set[str], head: Callable[[str], str]) -> List[str]:
    """Returns a table with a row for each of these crates, the highest layer first."""
    heights = {crate: len(chain) for crate, chain in chains_of(uses).items()}
    lines = ["| Layer | Crate | What it is | Uses |", "|---|---|---|---|"]
    for crate in sorted(among, key=lambda it: (-heights[it], it)):
        said = head(crate).replace("|", "\\|")
        used = ", ".join(f"`{it}`" for it in sorted(uses[crate])) or "none"
        lines.append(f"| {heights[crate]} | `{crate}` | {said} | {used} |")
    return lines


def printed(words: List[str], uses: Uses, crates: pathlib.Path) -> List[str]:
    """Returns the lines that these words ask for, of crates in this folder."""
    program = below(uses, PROGRAM)
    if words == ["--chain"]:
        return [" > ".join(chains_of(uses)[PROGRAM])]
    if words == ["--heads"]:
        return table(uses, program, lambda it: head_of(crates / it))
    if words == ["--others"]:
        return table(uses, set(uses) - program, lambda it: head_of(crates / it))
    if words:
        reached = above if words[0] == "--above" else below
        return from_below(uses, {it for name in words[1:] for it in reached(uses, name)})
    return layers(uses)


def main(words: List[str]) -> None:
    takes_names = len(words) > 1 and words[0] in ("--above", "--below")
    end_unless(takes_names or words in ([], ["--chain"], ["--heads"], ["--others"]), USAGE)
    uses = uses_of((TOP / "crates.txt").read_text(encoding="utf-8"))
    for name in words[1:]:
        if name not in uses:
            end_wrong(f"crates.txt has no crate {name}")
    print("\n".join(printed(words, uses, TOP / "crates")))
