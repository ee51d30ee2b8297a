"""Files as packages have them."""
import dataclasses
import os
import pathlib
from typing import Dict, Optional

from labtools.common.program import TOP

# The date of every packed file, so that the same files give the same bytes: 2026-01-01.
DATE = 1767225600
# What runs of demos leave behind.
MADE = ".snap", ".sums"


@dataclasses.dataclass(frozen=True)
class Entry:
    """A file of a package, by what it holds, or a link, by where it leads to."""

    held: bytes
    mode: int = 0o644
    leads_to: Optional[str] = None


# The files of a package by their paths.
Tree = Dict[str, Entry]


def link(leads_to: str) -> Entry:
    return Entry(b"", 0o777, leads_to)


def file_of(path: pathlib.Path) -> Entry:
    return Entry(path.read_bytes(), 0o755 if os.access(path, os.X_OK) else 0o644)


def files_below(folder: str) -> Tree:
    """Returns the files of a folder of the repository by their paths there."""
    found = [it for it in sorted((TOP / folder).rglob("*")) if it.is_file()]
    packed = [it for it in found if "__pycache__" not in it.parts and it.suffix not in MADE]
    return {str(it.relative_to(TOP)): file_of(it) for it in packed}


def put(root: pathlib.Path, tree: Tree) -> None:
    """Writes the files of a package below a folder."""
    for name, entry in sorted(tree.items()):
        path = root / name
        path.parent.mkdir(parents=True, exist_ok=True)
        if entry.leads_to is not None:
            path.symlink_to(entry.leads_to)
        else:
            path.write_bytes(entry.held)
            path.chmod(entry.mode)
