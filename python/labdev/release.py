"""Puts the program that was built here into the repository, as bin/lab, and two sums into bin/lab.sources: that of the
sources that it was built from, and its own.

    tools/release                    copies crates/lab_cli/out/lab_cli, which tools/build or .ci/run has built
    tools/release --check            compares bin/lab with it, byte for byte, and changes nothing
    tools/release --version X.Y.Z    gives the repository a new version, and copies no program

The first two refuse a program that was not built from the present sources, or that was built again by itself since. Run
the first once where the sources of the program have changed, before they land.

--version writes VERSION and python/VERSION, gives the part Unreleased of CHANGELOG.md the version and today's date,
puts the same changes into packaging/changelog, and changes the version in README.md and docs/PROJECT.md. It refuses a
version that is not higher than the one in VERSION, and an empty part Unreleased; then no file changes.

It ends with 0; with 1 if it refuses or if the programs differ, saying how; and with 2 if its arguments are wrong.
"""
import functools
import os
import pathlib
import subprocess
import tempfile
from typing import Callable, List

from labdev.released import Sums, fault_of, sum_of, sum_of_sources, sums_kept_with
from labdev.versions import NoVersion, is_version, texts_with
from labtools.common.program import TOP, end_unless, end_wrong

USAGE = "[--check | --version X.Y.Z]"
BUILT = TOP / "crates/lab_cli/out/lab_cli"
RELEASED = TOP / "bin/lab"
# What the kit writes into each program that it has proved.
MARK = b"rattle logic="


class Refused(Exception):
    """Why nothing is released, or what differs."""


def told(path: pathlib.Path) -> str:
    """Returns a path as it stands in the repository."""
    return str(path.relative_to(TOP))


def built_from(sources: str) -> bytes:
    """Returns the bytes of the program that was built here from the sources of this sum."""
    kept = sums_kept_with(BUILT).sources
    if not BUILT.is_file() or not kept:
        raise Refused(f"{told(BUILT)} is not built: tools/build or .ci/run builds it")
    if kept != sources:
        raise Refused(f"{told(BUILT)} was not built from the present sources: tools/build or .ci/run builds it")
    if BUILT.stat().st_mtime_ns > BUILT.with_name("lab_cli.sources").stat().st_mtime_ns:
        raise Refused(f"{told(BUILT)} was built again after its sum was kept: tools/build proves and builds it")
    program = BUILT.read_bytes()
    if MARK not in program:
        raise Refused(f"{told(BUILT)} does not name the logic by which it was proved, as programs of the kit do")
    return program


def put(path: pathlib.Path, held: bytes, mode: int) -> None:
    """Puts a file in the place of another one, which may be running."""
    with tempfile.NamedTemporaryFile(dir=path.parent, prefix=f".{path.name}.", delete=False) as made:
        made.write(held)
        os.fchmod(made.fileno(), mode)
    os.replace(made.name, path)


def release() -> None:
    """Copies the program, and keeps the sums."""
    sources = sum_of_sources()
    program = built_from(sources)
    RELEASED.parent.mkdir(exist_ok=True)
    put(RELEASED, program, 0o755)
    sums = Sums(sources, sum_of(program))
    put(RELEASED.with_name("lab.sources"), sums.text.encode(), 0o644)
    print(f"bin/lab is the program of the sources {sources}: {len(program)} bytes, {sums.program}")


def first_difference(one: bytes, other: bytes) -> int:
    """Returns the place of the first byte in which two differ, or the end of the shorter one."""
    pairs = enumerate(zip(one, other))
    return next((place for place, (left, right) in pairs if left != right), min(len(one), len(other)))


def compare() -> None:
    """Compares what is released with the present sources, and with what was built from them."""
    sources = sum_of_sources()
    if sums_kept_with(RELEASED).sources != sources:
        raise Refused("bin/lab.sources is not the sum of the present sources: build, and run tools/release")
    program = built_from(sources)
    released = RELEASED.read_bytes() if RELEASED.is_file() else b""
    if released != program:
        raise Refused(
            f"bin/lab is not what was built here: {len(released)} bytes, and not {len(program)}, and another byte at "
            f"{first_difference(released, program)}. The same kit makes the same bytes (bin/README.md)"
        )
    fault = fault_of(RELEASED)
    if fault:
        raise Refused(fault)
    if not os.access(RELEASED, os.X_OK):
        raise Refused("bin/lab may not be executed")


def give_version(version: str) -> None:
    """Writes a new version into each file that has one. All texts are made before the first file changes."""
    for path, text in texts_with(TOP, version).items():
        put(TOP / path, text.encode("utf-8"), (TOP / path).stat().st_mode & 0o777)
    print(f"lab is version {version}: read what has changed, and commit it")


def work_of(words: List[str]) -> Callable[[], None]:
    """Returns what these words ask for, or ends the script."""
    if not words:
        return release
    if words == ["--check"]:
        return compare
    end_unless(len(words) == 2 and words[0] == "--version", USAGE)
    end_unless(is_version(words[1]), USAGE, f"{words[1]} is not a version of three numbers, such as 1.2.0")
    return functools.partial(give_version, words[1])


def main(words: List[str]) -> None:
    work = work_of(words)
    try:
        work()
    except (Refused, NoVersion, OSError, subprocess.CalledProcessError) as fault:
        end_wrong(fault, 1)
