"""Says where the firmware of each board is, and why it may be stuck.

    tools/where [--at TIME] [--until TIME] [--json] SCRIPT or SNAPSHOT [BOARD=ELF ..]

It runs a copy of the script to its end, or to the lab time of --at. Of each processor it prints whether it runs, waits
or is halted, where it is, its interrupts, its trap handler, its last trap, its call stack and its registers; of each
board, what its devices have received and nobody has read. It warns of likely mistakes. `?` marks guesses. --until is
lab's. The program is that of the variable LAB, or else ./lab of this repository.

Functions and lines come from the ELF files that the script loads. BOARD=ELF names another one for a board: for firmware
that was loaded in another form, or for a snapshot. They need pyelftools (`apt-get install python3-pyelftools`, or `pip
install pyelftools`); without it addresses stay numbers, and a line says so. Lines of a source also need firmware
compiled with -g, which changes none of the loaded bytes.

It ends with 0; with 1 if the script or the snapshot cannot be taken that far or the output cannot be written; with 2 if
it is called with wrong arguments; and with 130 if it was interrupted.
"""
import argparse
import dataclasses
import json
from typing import List, Tuple

from labtools.boards import looks, run_until, where, where_text
from labtools.common.escapes import shown


def image_of(word: str) -> Tuple[str, str]:
    board, sign, path = word.partition("=")
    if not (board and sign and path):
        raise argparse.ArgumentTypeError(f"{word} is not BOARD=ELF")
    return board, path


def asked(words: List[str]) -> argparse.Namespace:
    parser = looks.parser_of(__doc__)
    parser.add_argument("--json", action="store_true")
    parser.add_argument("images", nargs="*", type=image_of)
    return parser.parse_intermixed_args(words)


def report_of(given: argparse.Namespace) -> where.Report:
    held, images = looks.laboratory(given, "lab-where-")
    names = [board["name"] for board in held["boards"]]
    for board, _ in given.images:
        if board not in names:
            raise run_until.NoRun(f"there is no board {board}: {', '.join(names) or 'none is there'}")
        images[board] = [path for name, path in given.images if name == board]
    return where.report_of(held, images)


def main(words: List[str]) -> None:
    given = asked(words)
    with looks.faults_told(given.file):
        report = report_of(given)
    if given.json:
        print(json.dumps(dataclasses.asdict(report), indent=1))
    else:
        print("\n".join(map(shown, where_text.lines_of(report))))
