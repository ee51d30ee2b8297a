"""Prints each file that a script reads, in order, with the lines that lead to it.

    tools/reads [--json] SCRIPT

Each line says whether the file is there, its kind (script, platform, elf, hex, binary, snapshot), its path, and the
place that asks for it, with the places that lead there after `<`. If the file is missing, the lines themselves follow,
the script's own first. Paths are taken from the folder in which this is started, as lab takes them. If lab refuses a
line of the script, and that shows without boards, the list ends with it. Nothing is run, and no image is read.

This is not lab's own reader, and it is not proved: `lab check` decides. It sees no fault of a platform file or an
image, and no wrong name or address on a board, and continues where lab refuses such a line.

The list ends at a script or a snapshot that is a pipe or a device, since only lab may read it. A line on the standard
error says so.

It ends with 0; with 1 if a file is missing, a line is refused or the list cannot be written; with 2 if it is called
wrongly. With --json it prints the same as data: `files`, `saves` (the files of `Save`) and `refusal`, which may be
null.
"""
import dataclasses
import json
import pathlib
import sys
from typing import Any, Dict, List

from labtools.common.escapes import shown
from labtools.common.program import name_of_script, parser_of
from labtools.scripts import reads


def tell(text: str) -> None:
    print(shown(text, "\t"))


def tell_steps(chain: reads.Chain) -> None:
    for step in chain:
        tell(f"           {step.place}: {step.text}")


def tell_file(file: reads.FileRead) -> None:
    state = "there" if file.is_there else "MISSING"
    places = " < ".join(step.place for step in reversed(file.chain))
    tell(f"{state:8} {file.kind:8} {file.path}" + (f"  {places}" if places else ""))
    if not file.is_there:
        tell_steps(file.chain)


def tell_reading(reading: reads.Reading) -> None:
    for file in reading.files:
        tell_file(file)
    if reading.refusal:
        tell(f"refused  {reading.refusal.place}: {reading.refusal.cause}")
        tell_steps(reading.refusal.chain)


def data_of(reading: reads.Reading) -> Dict[str, Any]:
    refusal = reading.refusal and dataclasses.asdict(reading.refusal)
    return {
        "files": [dataclasses.asdict(file) for file in reading.files],
        "saves": [dataclasses.asdict(file) for file in reading.saves],
        "refusal": refusal,
    }


def main(words: List[str]) -> int:
    parser = parser_of(__doc__)
    parser.add_argument("--json", action="store_true")
    parser.add_argument("script", metavar="SCRIPT")
    given = parser.parse_args(words)
    reading = reads.follow(given.script, pathlib.Path("."))
    if given.json:
        print(json.dumps(data_of(reading), indent=2))
    else:
        tell_reading(reading)
    if reading.unseen:
        told = f"{name_of_script()}: {reading.unseen} is not a plain file, so only lab may read it"
        print(shown(told), file=sys.stderr)
    return 0 if reading.refusal is None and all(file.is_there for file in reading.files) else 1
