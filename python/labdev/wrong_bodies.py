"""The wrong bodies that stand beside a crate in its folder wrong/, and what is kept of the last time that they were
tried."""
import dataclasses
import hashlib
import os
import pathlib
import re
import tempfile
from typing import Dict, Iterator, List

PARTS = "src", "specs", "proofs"
TRIED = "tried"


def sum_of(data: bytes) -> str:
    return hashlib.sha256(data).hexdigest()


def files_of(folder: pathlib.Path) -> Iterator[pathlib.Path]:
    """Yields the files of a crate's sources, in the order of their paths."""
    for part in PARTS:
        yield from sorted(it for it in (folder / part).rglob("*") if it.is_file())


@dataclasses.dataclass(frozen=True)
class WrongBodies:
    """The edits of one crate's folder wrong/."""

    folder: pathlib.Path

    @property
    def name(self) -> str:
        return self.folder.name

    def edits(self) -> List[pathlib.Path]:
        return sorted((self.folder / "wrong").glob("*.edit"))

    def sums(self) -> Dict[str, str]:
        """Returns the sum of the crate's own sources and of its line in crates.txt, and that of each edit by its
        name."""
        listed = (self.folder.parent.parent / "crates.txt").read_text(encoding="utf-8")
        line = re.findall(rf"(?m)^{re.escape(self.name)}\b.*$", listed)
        said = [f"{sum_of(it.read_bytes())} {it.relative_to(self.folder)}" for it in files_of(self.folder)]
        sources = sum_of("\n".join([*line, *said]).encode())
        return {"sources": sources, **{it.name: sum_of(it.read_bytes()) for it in self.edits()}}

    def tried(self) -> Dict[str, str]:
        """Returns the sums that were kept when all edits were refused the last time, or nothing."""
        path = self.folder / "wrong" / TRIED
        if not path.is_file():
            return {}
        lines = path.read_text(encoding="utf-8").splitlines()
        return dict(line.split(" ", 1) for line in lines if " " in line)

    def is_tried(self) -> bool:
        """Returns whether exactly these edits were refused over exactly these sources."""
        return self.tried() == self.sums()

    def keep(self, sums: Dict[str, str]) -> None:
        """Keeps the sums of what was tried, in the place of those before."""
        folder = self.folder / "wrong"
        with tempfile.NamedTemporaryFile("w", dir=folder, prefix=f".{TRIED}.", delete=False, encoding="utf-8") as made:
            made.writelines(f"{name} {sum}\n" for name, sum in sums.items())
            os.fchmod(made.fileno(), 0o644)
        os.replace(made.name, folder / TRIED)


def crates_with_wrong_bodies(top: pathlib.Path) -> List[WrongBodies]:
    """Returns the crates that have edits in a folder wrong/, or sums of such, in the order of their names."""
    found = sorted(it.parent for it in top.glob("crates/*/wrong"))
    return [it for it in map(WrongBodies, found) if it.edits() or it.tried()]
