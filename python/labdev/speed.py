"""Counts what the work of boards costs `lab`: machine instructions a slot, a round, a post and a byte of the log.

    tools/speed [--lab PROGRAM] [--keep FILE] [--against FILE] [NAME ..]
    tools/speed --list

Each workload is run at two lengths under valgrind's callgrind, and the difference of the counts is divided by the
difference of the work; `gen` is run once, and counted from its start. The counts do not depend on what else the machine
does. NAME is a workload or a part of its name: `jumps/a`, `jumps` or `a`. Without names all are counted, which takes
some minutes. docs/SPEED.md describes the workloads and has the counts.

    --lab PROGRAM    counts this program; by default that of the variable LAB, or the one that ./lab runs
    --keep FILE      writes the counts to a file, each as it is known
    --against FILE   prints beside each count an earlier one, from such a file, and the change in percent
    --list           prints the names of the workloads, and runs nothing

It prints tables in Markdown. It ends with 0; with 1 if a run failed or the tables cannot be written; with 2 if its
words are wrong, a file cannot be read or there is no such program; and with 3 if valgrind is not installed.
"""
import argparse
import json
import os
import pathlib
import re
import shutil
import subprocess
import sys
import tempfile
from typing import Dict, List, Optional, Tuple

from labdev import speed_loads, trials
from labdev.speed_loads import Load, Run
from labtools.common.program import end_wrong, found_program, parser_of, path_of_program

Prices = Dict[str, float]
# How long a run may take under valgrind, in seconds.
SECONDS = 3600
CALLGRIND = ["valgrind", "--tool=callgrind", "--callgrind-out-file=/dev/null"]


class Failed(Exception):
    """A run that was not counted: why."""


def asked(words: List[str]) -> argparse.Namespace:
    parser = parser_of(__doc__)
    parser.add_argument("--lab")
    parser.add_argument("--keep", type=pathlib.Path)
    parser.add_argument("--against", type=pathlib.Path)
    parser.add_argument("--list", action="store_true")
    parser.add_argument("names", nargs="*")
    return parser.parse_args(words)


def program_of_words(given: Optional[str]) -> str:
    """Returns the program that is given, or else the one that every tool takes."""
    return found_program(os.path.abspath(given)) if given else path_of_program()


def counted(program: str, run: Run) -> Tuple[int, int]:
    """Returns how many machine instructions a run has, and how many units of work."""
    with tempfile.TemporaryDirectory(prefix="lab-speed-") as room:
        trials.put(room, run.files)
        command = [*CALLGRIND, program, *run.words]
        ran = subprocess.run(command, cwd=room, stdin=subprocess.DEVNULL, capture_output=True, timeout=SECONDS)
    found = re.search(rb"Collected : (\d+)", ran.stderr)
    if ran.returncode != 0 or found is None:
        told = (ran.stdout[-300:] + ran.stderr[-600:]).decode(errors="replace")
        raise Failed(f"the run ended with {ran.returncode}:\n{told}")
    return int(found[1]), len(ran.stdout) if run.units is None else run.units


def price(program: str, load: Load) -> float:
    """Returns how many machine instructions a unit of the work costs."""
    counts = [counted(program, load.run(length)) for length in load.lengths]
    first, last = counts[0] if len(counts) > 1 else (0, 0), counts[-1]
    if last[1] <= first[1]:
        raise Failed("the longer run did no more work than the shorter one")
    return (last[0] - first[0]) / (last[1] - first[1])


def price_all(program: str, loads: List[Load], keep: Optional[pathlib.Path]) -> Prices:
    """Returns the prices of workloads. Each is told on the standard error, and kept, as it is known."""
    prices: Prices = {}
    for load in loads:
        try:
            prices[load.name] = round(price(program, load), 2)
        except (Failed, subprocess.TimeoutExpired) as fault:
            raise Failed(f"{load.name}: {fault}") from fault
        print(f"{load.name} {prices[load.name]:.2f} a {load.unit}", file=sys.stderr, flush=True)
        if keep:
            keep.write_text(json.dumps(prices, indent=1) + "\n")
    return prices


def cell(name: str, prices: Prices, earlier: Prices) -> str:
    """Returns a count, with the earlier one and the change where there was one."""
    if name not in prices:
        return ""
    now, before = prices[name], earlier.get(name)
    text = f"{now:.1f}" if now < 100 else f"{now:.0f}"
    if not before:
        return text
    return f"{text} ({before:.1f}, {(now - before) / before * 100:+.1f} %)"


def row(cells: List[str]) -> str:
    return "|" + "|".join(f" {it} " if it else " " for it in cells) + "|"


def table_of_loops(prices: Prices, earlier: Prices) -> List[str]:
    """Returns the table of single boards: a row for each loop, a column for each form."""
    kinds = [it for it in speed_loads.KINDS if any(name.startswith(f"{it}/") for name in prices)]
    forms = [it for it in speed_loads.FORMS if any(f"{kind}/{it}" in prices for kind in kinds)]
    if not kinds:
        return []
    lines = [row(["Machine instructions a slot", *forms]), "|---" * (len(forms) + 1) + "|"]
    for kind in kinds:
        lines.append(row([f"`{kind}`", *(cell(f"{kind}/{it}", prices, earlier) for it in forms)]))
    return lines


def table_of_others(loads: List[Load], prices: Prices, earlier: Prices) -> List[str]:
    """Returns the table of laboratories: a row for each."""
    others = [it for it in loads if it.name.split("/")[0] not in speed_loads.KINDS]
    if not others:
        return []
    rows = [row([f"`{it.name}`", cell(it.name, prices, earlier), it.unit]) for it in others]
    return [row(["Laboratory", "Machine instructions", "for a"]), "|---|---|---|", *rows]


def earlier_prices(path: Optional[pathlib.Path]) -> Prices:
    if path is None:
        return {}
    return {str(name): float(count) for name, count in json.loads(path.read_text()).items()}


def measure(words: argparse.Namespace, loads: List[Load]) -> str:
    """Returns the tables of these workloads."""
    earlier = earlier_prices(words.against)
    prices = price_all(program_of_words(words.lab), loads, words.keep)
    tables = [table_of_loops(prices, earlier), table_of_others(loads, prices, earlier)]
    return "\n\n".join("\n".join(table) for table in tables if table)


def main(words: List[str]) -> None:
    said = asked(words)
    try:
        loads = speed_loads.chosen(said.names)
    except KeyError as fault:
        end_wrong(f"no workload has the name {fault.args[0]}: see --list")
    if said.list:
        print("\n".join(it.name for it in loads))
        return
    if shutil.which(CALLGRIND[0]) is None:
        end_wrong("valgrind, which counts the instructions, is not installed", 3)
    try:
        tables = measure(said, loads)
    except Failed as fault:
        end_wrong(fault, 1)
    except (OSError, ValueError, AttributeError) as fault:
        end_wrong(fault)
    print(tables)
