"""Makes a wheel: the tools as a package that pip installs, with the program and what the tools read in the folder
`labtools/share`. What it says of itself is that of python/pyproject.toml. It takes the standard library alone."""
import base64
import hashlib
import pathlib
import re
import stat
import time
import zipfile
from typing import Iterator, List, Tuple

from labdev.packed import DATE, Entry, Tree, files_below
from labtools.common.program import TOP, names_of_tools

# The program needs the GNU C library 2.34 on x86-64.
TAG = "py3-none-manylinux_2_34_x86_64"
WHEEL = f"Wheel-Version: 1.0\nGenerator: lab tools/package\nRoot-Is-Purelib: false\nTag: {TAG}\n"
SHARE = "labtools/share"


def name_of(version: str) -> str:
    return f"lab_emulator-{version}-{TAG}.whl"


def table_of(name: str) -> List[Tuple[str, str]]:
    """Returns the keys and values of a table of python/pyproject.toml as they stand there, but for quotes around a
    text."""
    text = (TOP / "python/pyproject.toml").read_text(encoding="utf-8")
    rows = text.partition(f"\n[{name}]\n")[2].partition("\n\n")[0]
    return re.findall(r'^([\w-]+) = "?(.*?)"?$', rows, re.MULTILINE)


def metadata(version: str) -> Iterator[str]:
    project = dict(table_of("project"))
    yield "Metadata-Version: 2.1"
    yield f"Name: {project['name']}"
    yield f"Version: {version}"
    yield f"Summary: {project['description']}"
    yield f"Requires-Python: {project['requires-python']}"
    for extra, needed in table_of("project.optional-dependencies"):
        yield f"Provides-Extra: {extra}"
        yield from (f"Requires-Dist: {it} ; extra == '{extra}'" for it in re.findall('"(.*?)"', needed))


def entry_points() -> Iterator[str]:
    """Yields the commands, and what other programs find by a name, as far as these are there."""
    tools = {"lab", *(f"lab-{name}" for name in names_of_tools())}
    yield "[console_scripts]"
    yield from (f"{name} = {place}" for name, place in table_of("project.scripts") if name in tools)
    for name, module in table_of("project.entry-points.pytest11"):
        if (TOP / "python" / f"{module.replace('.', '/')}.py").is_file():
            yield from ("", "[pytest11]", f"{name} = {module}")


def text_of(lines: Iterator[str]) -> Entry:
    return Entry("".join(f"{line}\n" for line in lines).encode())


def record(tree: Tree, own: str) -> Iterator[str]:
    """Yields the sum of each file. The record's own has none."""
    for name, entry in sorted(tree.items()):
        digest = base64.urlsafe_b64encode(hashlib.sha256(entry.held).digest()).rstrip(b"=").decode()
        yield f"{name},sha256={digest},{len(entry.held)}"
    yield f"{own},,"


def wheel_tree(version: str, share: Tree) -> Tree:
    """Returns the files of the wheel, with these in its folder `share`, and there a file for each tool. No file there
    but ./lab is to be called, which starts these by the Python that LAB_PYTHON names."""
    launcher = Entry((TOP / "python/__main__.py").read_bytes())
    about = f"lab_emulator-{version}.dist-info"
    tree = {
        **{name.partition("/")[2]: entry for name, entry in files_below("python/labtools").items()},
        **{f"{SHARE}/{name}": entry for name, entry in share.items()},
        **{f"{SHARE}/tools/{name}": launcher for name in names_of_tools()},
        f"{about}/METADATA": text_of(metadata(version)),
        f"{about}/WHEEL": Entry(WHEEL.encode()),
        f"{about}/entry_points.txt": text_of(entry_points()),
    }
    return {**tree, f"{about}/RECORD": text_of(record(tree, f"{about}/RECORD"))}


def make(path: pathlib.Path, tree: Tree) -> None:
    """Writes a wheel of these files."""
    with zipfile.ZipFile(path, "w", zipfile.ZIP_DEFLATED) as archive:
        for name, entry in tree.items():
            member = zipfile.ZipInfo(name, time.gmtime(DATE)[:6])
            member.create_system, member.compress_type = 3, zipfile.ZIP_DEFLATED
            member.external_attr = (stat.S_IFREG | entry.mode) << 16
            archive.writestr(member, entry.held)
