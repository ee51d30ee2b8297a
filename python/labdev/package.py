"""Makes the packages of lab: an archive that runs where it is unpacked, a Debian package, and a wheel for pip.

    tools/package [FOLDER]    writes them to FOLDER, or to out/package

They are called lab-VERSION-x86_64-linux.tar.gz, lab_VERSION_amd64.deb and
lab_emulator-VERSION-py3-none-manylinux_2_34_x86_64.whl. Each contains the program, the tools for users, the documents,
and a file SUMS with the version, the sum of the sources, the sum of the program, and the logic that proved it. The
archive and the Debian package also contain the manual page lab(1), completion for bash, the changelog and the demos.
The program is bin/lab or the one that was built here, whichever was built from the present sources; nothing is built.
The same files always give the same bytes. If dpkg-deb is not installed, the Debian package is left out, and a line says
so. It ends with 0; with 1 if no program was built from the present sources; and with 2 if its arguments are wrong.

The archive is laid out like the repository, with ./lab, tools/, docs/ and demo/. The Debian package puts that folder in
/usr/lib/lab, its commands in /usr/bin as lab, lab-expect and so on, and documents and demos in /usr/share/doc/lab. Each
command has a manual page, which is made from its --help, and the installed documents use the installed names.
packaging/lintian-overrides lists what lintian would report, with the reasons. The wheel is the package `labtools`, with
the program and the documents in its folder `share`; pip makes the same commands.
"""
import dataclasses
import functools
import gzip
import hashlib
import importlib
import io
import os
import pathlib
import re
import shutil
import subprocess
import tarfile
import tempfile
from typing import Dict, List

from labdev import wheel
from labdev.completions import completion as completion_of_scripts
from labdev.packed import DATE, Entry, Tree, file_of, files_below, link, put
from labdev.released import Sums, fault_of, sum_of, sum_of_sources, sums_kept_with
from labtools.common.manual import manual_page, page_of_script
from labtools.common.program import TOP, end_wrong, named_as_installed, names_of_tools, parser_of, tell

PROGRAMS = TOP / "bin/lab", TOP / "crates/lab_cli/out/lab_cli"
# What the kit writes into each program that it has proved, and how much of it `rt version` prints.
LOGIC = re.compile(rb"rattle logic=([0-9a-f]{16})")


class Refused(Exception):
    """Why nothing is packed."""


def released_program() -> pathlib.Path:
    """Returns the program that was built from the present sources. bin/lab has to have its sum."""
    sources = sum_of_sources()
    for program in PROGRAMS:
        if program.is_file() and sums_kept_with(program).sources == sources:
            fault = fault_of(program) if program == PROGRAMS[0] else None
            if fault:
                raise Refused(fault)
            return program
    raise Refused("no program was built from the present sources: tools/build or .ci/run builds it")


def version() -> str:
    return (TOP / "VERSION").read_text(encoding="ascii").strip()


def sums(program: bytes, sources: str) -> bytes:
    """Returns what the file SUMS holds."""
    logic = LOGIC.search(program)
    lines = {
        "version": version(),
        "sources": sources,
        "program": sum_of(program),
        "logic": logic[1].decode() if logic else "unknown: the program does not say it",
    }
    return "".join(f"{name} {value}\n" for name, value in lines.items()).encode()


def program_files(program: bytes, sources: str) -> Tree:
    """Returns ./lab and the program, and what is known of it."""
    return {
        "lab": file_of(TOP / "lab"),
        "bin/lab": Entry(program, 0o755),
        "bin/lab.sources": Entry(Sums(sources, sum_of(program)).text.encode()),
        "VERSION": Entry(f"{version()}\n".encode()),
        "SUMS": Entry(sums(program, sources)),
    }


def commands(program: bytes, sources: str) -> Tree:
    """Returns what runs: ./lab, the program and the tools."""
    return {
        **program_files(program, sources),
        **files_below("python/labtools"),
        "python/__main__.py": file_of(TOP / "python/__main__.py"),
        **{f"tools/{name}": file_of(TOP / "tools" / name) for name in names_of_tools()},
    }


def documents() -> Tree:
    """Returns what is read, and the demos."""
    return {"README.md": file_of(TOP / "README.md"), **files_below("docs"), **files_below("demo")}


@functools.lru_cache(maxsize=None)
def answers() -> Dict[str, str]:
    """Returns what each script of the package answers to --help, by its name: the text of its module."""
    texts = {name: importlib.import_module(f"labtools.{name}").__doc__ or "" for name in names_of_tools()}
    return {name: f"{text.strip()}\n" for name, text in texts.items()}


def manual(is_installed: bool) -> bytes:
    """Returns the page of lab, which names the scripts beside it as they are called."""
    names = ", ".join(f"lab-{name}(1)" if is_installed else f"tools/{name}" for name in names_of_tools())
    return manual_page((TOP / "docs/SCRIPTS.md").read_text(encoding="utf-8"), version(), names).encode()


def manual_of_script(name: str, answer: str) -> bytes:
    return page_of_script(f"lab-{name}", answer, version()).encode()


def completion(said: Dict[str, str]) -> bytes:
    text = (TOP / "packaging/completion.bash").read_text(encoding="utf-8")
    return f"{text}\n{completion_of_scripts(said)}".encode()


def changelog() -> bytes:
    return (TOP / "packaging/changelog").read_bytes()


def changelog_as_installed() -> bytes:
    return named_as_installed(changelog().decode("utf-8"), names_of_tools()).encode()


def archive_tree(program: bytes, sources: str) -> Tree:
    """Returns the files of the archive."""
    tree = {**commands(program, sources), **documents()}
    tree["man/lab.1"] = Entry(manual(is_installed=False))
    tree["completion.bash"] = Entry(completion(answers()))
    tree["CHANGELOG"] = Entry(changelog())
    return tree


def installed(name: str, entry: Entry) -> Entry:
    """Returns a document or a file of a demo as the Debian package has it: a text names the commands as they are called
    there, and an image of firmware is no program of the system."""
    if name.endswith(".md"):
        text = named_as_installed(entry.held.decode("utf-8"), names_of_tools())
        return dataclasses.replace(entry, held=text.encode())
    return dataclasses.replace(entry, mode=0o644) if name.endswith(".elf") else entry


def debian_pages() -> Tree:
    """Returns what Debian wants of a package and of its commands: pages, completion, the changes, and which words of
    lintian are to be passed over."""
    said = {name: named_as_installed(text, names_of_tools()) for name, text in answers().items()}
    pages = {"lab": manual(is_installed=True), **{f"lab-{name}": manual_of_script(name, said[name]) for name in said}}
    completions = "usr/share/bash-completion/completions"
    return {
        **{f"usr/share/man/man1/{name}.1.gz": Entry(zipped(page)) for name, page in pages.items()},
        f"{completions}/lab": Entry(completion(answers())),
        **{f"{completions}/lab-{name}": link("lab") for name in said},
        "usr/share/doc/lab/changelog.gz": Entry(zipped(changelog_as_installed())),
        "usr/share/lintian/overrides/lab": Entry((TOP / "packaging/lintian-overrides").read_bytes()),
    }


def zipped(held: bytes) -> bytes:
    return gzip.compress(held, mtime=0)


def debian_tree(program: bytes, sources: str) -> Tree:
    """Returns the files of the Debian package."""
    tree = {f"usr/lib/lab/{name}": entry for name, entry in commands(program, sources).items()}
    for name, entry in documents().items():
        if pathlib.PurePath(name).name != ".gitignore":
            tree[f"usr/share/doc/lab/{name}"] = installed(name, entry)
    tree.update(debian_pages())
    tree["usr/bin/lab"] = link("../lib/lab/lab")
    tree.update({f"usr/bin/lab-{name}": link(f"../lib/lab/tools/{name}") for name in names_of_tools()})
    # So that the commands of demos, and the paths of documents, are true in both folders.
    for name in "lab", "tools", "python":
        tree[f"usr/share/doc/lab/{name}"] = link(f"../../../lib/lab/{name}")
    for name in "demo", "docs":
        tree[f"usr/lib/lab/{name}"] = link(f"../../share/doc/lab/{name}")
    return tree


def control(tree: Tree) -> bytes:
    """Returns what the Debian package says of itself."""
    size = sum(len(entry.held) for entry in tree.values())
    text = (TOP / "packaging/control").read_text(encoding="utf-8")
    return text.replace("VERSION", version()).replace("SIZE", str(-(-size // 1024))).encode()


def md5sums(tree: Tree) -> bytes:
    """Returns the sums by which `dpkg --verify` finds files that have changed."""
    files = {name: entry.held for name, entry in sorted(tree.items()) if entry.leads_to is None}
    return "".join(f"{hashlib.md5(held).hexdigest()}  {name}\n" for name, held in files.items()).encode()


def make_archive(path: pathlib.Path, folder: str, tree: Tree) -> None:
    """Makes an archive of which all files stand in a folder of this name."""
    with open(path, "wb") as file, gzip.GzipFile("", "wb", fileobj=file, mtime=DATE) as packed:
        with tarfile.TarFile(fileobj=packed, mode="w", format=tarfile.USTAR_FORMAT) as archive:
            for name, entry in sorted(tree.items()):
                member = tarfile.TarInfo(f"{folder}/{name}")
                member.mode, member.mtime, member.size = entry.mode, DATE, len(entry.held)
                member.uname = member.gname = "root"
                if entry.leads_to is not None:
                    member.type, member.linkname = tarfile.SYMTYPE, entry.leads_to
                archive.addfile(member, io.BytesIO(entry.held))


def make_debian(path: pathlib.Path, tree: Tree) -> None:
    """Makes a Debian package."""
    with tempfile.TemporaryDirectory(prefix="lab-package-") as room:
        root = pathlib.Path(room) / "root"
        put(root, tree)
        put(root, {"DEBIAN/control": Entry(control(tree)), "DEBIAN/md5sums": Entry(md5sums(tree))})
        put(root, {"DEBIAN/prerm": file_of(TOP / "packaging/prerm")})
        for folder in [root, *(it for it in root.rglob("*") if it.is_dir() and not it.is_symlink())]:
            folder.chmod(0o755)
        environment = {**os.environ, "SOURCE_DATE_EPOCH": str(DATE)}
        words = ["dpkg-deb", "--root-owner-group", "-Zgzip", "--build", str(root), str(path)]
        subprocess.run(words, check=True, env=environment, stdout=subprocess.DEVNULL)


def wheel_tree(program: bytes, sources: str) -> Tree:
    """Returns the files of the wheel. Its tools read the documents."""
    texts = {name: installed(name, entry) for name, entry in files_below("docs").items()}
    return wheel.wheel_tree(version(), {**program_files(program, sources), **texts})


def pack(folder: pathlib.Path, program: bytes, sources: str) -> Dict[str, pathlib.Path]:
    """Makes the packages of this program in a folder, and returns their paths by their kinds."""
    folder.mkdir(parents=True, exist_ok=True)
    name = f"lab-{version()}-x86_64-linux"
    made = {"archive": folder / f"{name}.tar.gz", "wheel": folder / wheel.name_of(version())}
    make_archive(made["archive"], name, archive_tree(program, sources))
    wheel.make(made["wheel"], wheel_tree(program, sources))
    if shutil.which("dpkg-deb"):
        made["Debian"] = folder / f"lab_{version()}_amd64.deb"
        make_debian(made["Debian"], debian_tree(program, sources))
    return made


def main(words: List[str]) -> int:
    parser = parser_of(__doc__)
    parser.add_argument("folder", nargs="?", type=pathlib.Path, default=TOP / "out/package")
    given = parser.parse_args(words)
    try:
        program = released_program()
        made = pack(given.folder, program.read_bytes(), sums_kept_with(program).sources)
    except (Refused, OSError, subprocess.CalledProcessError) as fault:
        end_wrong(fault, 1)
    for path in made.values():
        print(f"{sum_of(path.read_bytes())}  {path}")
    if "Debian" not in made:
        tell("tools/package: the Debian package is not made, without dpkg-deb")
    return 0
