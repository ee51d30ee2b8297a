"""Tries the wrong bodies of crates: the prover has to refuse each edit in crates/NAME/wrong/.

    tools/wrong NAME ..    tries those of these crates
    tools/wrong --stale    those of the crates whose sources or edits have changed since they were tried
    tools/wrong --all      those of every crate: some two hours
    tools/wrong --check    tries nothing, and says which crates have changed since; .ci/run asks this

It works on a copy of the tree, with the libraries that this checkout has built; `rt` builds those that are missing or
out of date. Edits of the bodies of different functions are made together, and `rt check --only F --only G ..` tries
them. An edit is `refused with others` if its function then has a goal that is not proved, and that the same command
proves without the edits. All other edits are tried one by one with `rt must-fail NAME`: those of a contract, a method
of a trait, a type or a constant, and those of which the check of their function says nothing. If all edits of a crate
were refused, crates/NAME/wrong/tried gets the sum of the crate's own sources and the sum of each edit. Commit it with
the change. It ends with 0; with 1 if an edit was not refused or a crate has changed since its edits were tried; and
with 2 if it is called with wrong arguments.
"""
import os
import pathlib
import re
import shutil
import subprocess
import tempfile
from typing import List, Set

from labdev.batches import refused_together
from labdev.crates import below, uses_of
from labdev.edit_places import place_of
from labdev.wrong_bodies import WrongBodies, crates_with_wrong_bodies
from labtools.common.program import TOP, counted, end_unless, end_wrong

USAGE = "NAME .. | --stale | --all | --check"
# What rt says of an edit that the prover has refused.
REFUSED = re.compile(r"must-fail (\w+)/(\S+\.edit): refused, as it must be")
# The letters of why an edit was refused that are shown.
SHOWN = 160


def asked_for(words: List[str]) -> List[WrongBodies]:
    """Returns the crates whose edits are to be tried."""
    every = {it.name: it for it in crates_with_wrong_bodies(TOP)}
    if words == ["--all"]:
        return list(every.values())
    if words == ["--stale"]:
        return [it for it in every.values() if not it.is_tried()]
    lacking = [it for it in words if it not in every]
    end_unless(not lacking, USAGE, f"crates/{lacking[0]}/wrong has no edits" if lacking else "")
    return [every[it] for it in words]


def link_or_copy(one: str, other: str) -> None:
    """Gives a file of a library a second name, as the kit does, which never writes into such a file."""
    try:
        os.link(one, other)
    except OSError:
        shutil.copy2(one, other)


def copy_tree(crates: List[WrongBodies], to: pathlib.Path) -> None:
    """Copies the sources, without any edit in a folder must-fail/, and takes along the libraries below these crates
    that are built here."""
    for name in "crates.txt", "HANDLES":
        shutil.copy(TOP / name, to)
    shutil.copytree(TOP / "crates", to / "crates", ignore=shutil.ignore_patterns("out", "must-fail"))
    uses = uses_of((TOP / "crates.txt").read_text(encoding="utf-8"))
    for name in set().union(*(below(uses, it.name) for it in crates)):
        library = pathlib.Path("crates", name, "out", "rlib")
        if (TOP / library).is_dir():
            shutil.copytree(TOP / library, to / library, copy_function=link_or_copy)


def try_together(crate: WrongBodies) -> Set[str]:
    """Tries the edits of a copied crate in batches where that can be done, and returns those that were refused, as
    CRATE/EDIT."""
    found = (place_of(crate.folder, it) for it in crate.edits())
    refused = refused_together(crate.folder, [it for it in found if it])
    for edit, why in refused.items():
        print(f"{crate.name}/{edit}: refused with others: {why[:SHOWN]}", flush=True)
    return {f"{crate.name}/{it}" for it in refused}


def try_alone(crates: List[WrongBodies], folder: pathlib.Path, refused: Set[str]) -> Set[str]:
    """Has rt try the other edits of these copied crates, each alone, showing what it says, and returns those that were
    refused, as CRATE/EDIT."""
    left = [(it, edit) for it in crates for edit in it.edits() if f"{it.name}/{edit.name}" not in refused]
    for crate, edit in left:
        (crate.folder / "must-fail").mkdir(exist_ok=True)
        shutil.copy(edit, crate.folder / "must-fail")
    names = list(dict.fromkeys(it.name for it, _ in left))
    return refused_by_prover(names, folder) if names else set()


def refused_by_prover(names: List[str], folder: pathlib.Path) -> Set[str]:
    """Has rt try the edits that lie in the folders must-fail/ of these crates, and returns those that it refuses."""
    refused = set()
    with subprocess.Popen(
        ["rt", "must-fail", *names],
        cwd=folder,
        stdout=subprocess.PIPE,
        stderr=subprocess.STDOUT,
        text=True,
        errors="replace",
    ) as ran:
        assert ran.stdout is not None
        for line in ran.stdout:
            if line.startswith("rt: "):
                print(line, end="", flush=True)
            refused |= {f"{crate}/{edit}" for crate, edit in REFUSED.findall(line)}
    return refused


def try_edits(crates: List[WrongBodies]) -> int:
    """Tries the edits of these crates, and keeps the sums of those crates of which each was refused."""
    if not shutil.which("rt"):
        end_wrong("this needs the Rattle kit, whose command is rt")
    with tempfile.TemporaryDirectory(prefix="lab-wrong-") as room:
        folder = pathlib.Path(room)
        copy_tree(crates, folder)
        copies = [WrongBodies(folder / "crates" / it.name) for it in crates]
        # (of the copy, which nobody changes meanwhile)
        sums = {it.name: it.sums() for it in copies}
        refused: Set[str] = set().union(*map(try_together, copies))
        refused |= try_alone(copies, folder, refused)
    failed = False
    for crate in crates:
        missed = [it for it in sums[crate.name] if it != "sources" and f"{crate.name}/{it}" not in refused]
        for edit in missed:
            print(f"crates/{crate.name}/wrong/{edit} was not refused")
        if not missed:
            crate.keep(sums[crate.name])
        failed = failed or bool(missed)
    print(f"{counted(len(refused), 'wrong body', 'wrong bodies')} refused in {counted(len(crates), 'crate', 'crates')}")
    return 1 if failed else 0


def check() -> int:
    """Says which crates have changed since their edits were tried."""
    every = crates_with_wrong_bodies(TOP)
    stale = [it.name for it in every if not it.is_tried()]
    if stale:
        print(f"these crates have changed since their wrong bodies were tried: run tools/wrong {' '.join(stale)}")
        return 1
    edits = sum(len(it.edits()) for it in every)
    print(f"{counted(edits, 'wrong body', 'wrong bodies')} tried over the present sources, and all refused")
    return 0


def main(words: List[str]) -> int:
    is_word = words in (["--all"], ["--stale"], ["--check"])
    end_unless(bool(words) and (is_word or not any(it.startswith("-") for it in words)), USAGE)
    if words == ["--check"]:
        return check()
    crates = asked_for(words)
    return try_edits(crates) if crates else 0
