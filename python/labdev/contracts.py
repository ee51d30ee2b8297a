"""The functions of crates/*/src with the names of their clauses, as far as the form of the files tells them."""
import dataclasses
import functools
import pathlib
import re
from typing import Dict, FrozenSet, Iterator, List, Set, Tuple

HEADER = re.compile(r"(?:pub )?(?:unsafe )?(?:impl|trait)\b")
FUNCTION = re.compile(r"\s*(?:pub(?:\([a-z ]+\))? )?(?:const )?(?:unsafe )?fn (\w+)")
CLAUSE = re.compile(r"\s*ensures (?:(\w+) )?\{")
TYPE = re.compile(r"^(?:pub(?:\([a-z ]+\))? )?(?:struct|enum|trait|type|union) (\w+)", re.MULTILINE)
DEFINITION = re.compile(r"^(?:\w+ )*pub (?:record |data |type )?([\w≡≢]+)(?=[ \n])", re.MULTILINE)
# Where the edits of a crate stand: those that each gate tries, and the others.
EDITS = "must-fail", "wrong"


@dataclasses.dataclass(frozen=True)
class Function:
    """A function of a crate; the types and traits, or none, whose method it is; the names of its clauses; and whether
    it has any, with a name or without."""

    crate: str
    owners: FrozenSet[str]
    name: str
    clauses: FrozenSet[str]
    is_stated: bool


@dataclasses.dataclass
class Crate:
    """What a crate names: its functions, its types and traits, the definitions of its specs, and its edits."""

    functions: List[Function]
    types: Set[str]
    definitions: Set[str]
    edits: Set[str]


def bare(text: str) -> str:
    """Returns a type without what stands in angle brackets, by its last name."""
    while "<" in text:
        shorter = re.sub(r"<[^<>]*>", "", text)
        if shorter == text:
            break
        text = shorter
    return text.replace("dyn ", "").strip(" &'_").split("::")[-1].split(":")[0].split(" where")[0].strip()


def owners_of(header: str) -> FrozenSet[str]:
    """Returns the names of what `impl Type`, `impl Trait for Type` or `trait Trait` speaks of."""
    text = header.split("{")[0].replace("->", "→")
    text = re.sub(r"^(?:pub )?(?:unsafe )?(?:impl|trait)\b", "", text)
    depth, plain = 0, ""
    for letter in text:
        depth += (letter == "<") - (letter == ">")
        plain += letter if depth == 0 and letter != ">" else ""
    return frozenset(bare(part) for part in plain.split(" for "))


def functions_of(crate: str, text: str) -> Iterator[Function]:
    """Yields the functions of one file, each with the clauses that stand before the next one."""
    owners: FrozenSet[str] = frozenset()
    found: List[Tuple[FrozenSet[str], str, Set[str]]] = []
    for line in text.split("\n"):
        if HEADER.match(line):
            owners = owners_of(line)
        elif line == "}":
            owners = frozenset()
        function = FUNCTION.match(line)
        clause = CLAUSE.match(line)
        if function:
            found.append((owners, function[1], set()))
        elif clause and found:
            found[-1][2].add(clause[1] or "")
    for owner, name, clauses in found:
        yield Function(crate, owner, name, frozenset(clauses - {""}), bool(clauses))


@functools.lru_cache(maxsize=None)
def crates_below(top: pathlib.Path) -> Dict[str, Crate]:
    """Returns all crates of the repository by their names."""
    crates = {}
    for folder in sorted(it for it in (top / "crates").iterdir() if (it / "src").is_dir()):
        crate = Crate([], set(), set(), {it.stem for name in EDITS for it in folder.glob(f"{name}/*.edit")})
        for path in sorted(folder.glob("src/**/*.rt")):
            text = path.read_text(encoding="utf-8")
            crate.functions += functions_of(folder.name, text)
            crate.types |= set(TYPE.findall(text))
        for path in sorted(folder.glob("specs/**/*.antt")):
            crate.definitions |= set(DEFINITION.findall(path.read_text(encoding="utf-8")))
        crates[folder.name] = crate
    return crates


def named(crates: Dict[str, Crate], name: str) -> List[Function]:
    """Returns the functions that `name`, `Type::name` or `crate::name` names."""
    owner, _, last = name.rpartition("::")
    functions = [it for crate in crates.values() for it in crate.functions if it.name == last]
    if owner:
        functions = [it for it in functions if owner in it.owners or owner == it.crate]
    return functions


def clauses_of(crates: Dict[str, Crate], functions: List[Function]) -> Set[str]:
    """Returns the clauses of some functions, with those that their traits state."""
    found: Set[str] = set()
    for function in functions:
        found |= function.clauses
        for trait in function.owners:
            stated = [it for it in named(crates, f"{trait}::{function.name}") if it.owners == {trait}]
            found |= {clause for it in stated for clause in it.clauses}
    return found
