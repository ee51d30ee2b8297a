"""Tries the packages that tools/package makes: each is unpacked or installed in an empty folder, where another user
runs demos and tools with nothing of the repository on the path; the manual pages; the completion; what lintian says.
"""
import base64
import concurrent.futures
import csv
import functools
import gzip
import hashlib
import os
import pathlib
import re
import shutil
import subprocess
import sys
import tarfile
import tempfile
import unittest
import unittest.mock
import zipfile
from typing import Callable, Dict, List, NamedTuple, Optional, Tuple

from labdev import package, wheel
from labdev.released import sum_of_sources
from labtools.common.manual import manual_page, page_of_script
from labtools.common.program import TOP, names_of_tools, path_of_program

SOURCES = "5" * 64
KINDS = "archive", "Debian", "wheel"
NOBODY = ["setpriv", "--reuid=65534", "--regid=65534", "--clear-groups", "--no-new-privs", "env"]
# A document with the two tables of docs/SCRIPTS.md, and the page that is made of it.
DOCUMENT = """# Scripts

| Words | Do |
|---|---|
| `run SCRIPT [--until TIME]` | run the script to TIME |
| `check SCRIPT` | read `a\\b` of it |

| Status | The run | Its last line |
|---|---|---|
| 0 | did all | |
| 6 | could not write the file of `Save` | none |
"""
SYNOPSIS = """.SH SYNOPSIS
.B lab run SCRIPT [\\-\\-until TIME]
.br
.B lab check SCRIPT
.SH DESCRIPTION
"""
COMMANDS = """.SH COMMANDS
.TP
.B lab run SCRIPT [\\-\\-until TIME]
run the script to TIME.
.TP
.B lab check SCRIPT
read \\fBa\\eb\\fR of it.
.TP
"""
EXITS = """.SH EXIT STATUS
.TP
.B 0
The run did all.
.TP
.B 6
The run could not write the file of \\fBSave\\fR.
.SH SEE ALSO
"""

# What a script answers to --help, and the page that is made of it.
ANSWER = """Makes a thing. `lab` calls it.

    lab-make [-j N] [--junit FILE] SCRIPT ..   makes it
    lab-make --all                             makes all

It ends with

  0    it is made
  130  it was interrupted,
       and nothing is made

    .a block
      as it is
"""
PAGE = """.TH LAB\\-MAKE 1 "" "lab 3.2" "User commands"
.SH NAME
lab\\-make \\- makes a thing
.SH SYNOPSIS
.B lab\\-make [\\-j N] [\\-\\-junit FILE] SCRIPT ..
.br
.B lab\\-make \\-\\-all
.SH DESCRIPTION
.TP
.B lab\\-make [\\-j N] [\\-\\-junit FILE] SCRIPT ..
makes it
.TP
.B lab\\-make \\-\\-all
makes all
.PP
\\fBlab\\fR calls it.
.PP
It ends with
.TP
.B 0
it is made
.TP
.B 130
it was interrupted, and nothing is made
.PP
.nf
    .a block
      as it is
.fi
.SH SEE ALSO
.BR lab (1)
"""


class Place(NamedTuple):
    """Where a package is unpacked or installed: the folder in which its documents and demos stand or were put, its
    commands, and its files."""

    folder: pathlib.Path
    lab: pathlib.Path
    tools: str
    files: pathlib.Path

    def tool(self, name: str) -> str:
        return f"{self.tools}{name}"


def as_another(words: List[str], folder: pathlib.Path) -> "subprocess.CompletedProcess[str]":
    """Runs a command as another user, where this one is root, with no environment but the system's path. What setpriv
    starts itself may still read all that root may."""
    before = NOBODY if os.geteuid() == 0 and shutil.which("setpriv") else []
    return subprocess.run(
        [*before, *words],
        cwd=folder,
        env={"PATH": "/usr/bin:/bin", "HOME": "/"},
        stdin=subprocess.DEVNULL,
        stdout=subprocess.PIPE,
        stderr=subprocess.STDOUT,
        encoding="utf-8",
        timeout=300,
        check=False,
    )


@functools.lru_cache(maxsize=None)
def python_for_all() -> Optional[str]:
    """Returns a Python that other users may run, with what makes environments and installs packages."""
    found = [sys.executable, *(os.path.join(folder, "python3") for folder in os.get_exec_path())]
    there = [it for it in dict.fromkeys(found) if os.access(it, os.X_OK)]
    runs = (it for it in there if as_another([it, "-c", "import venv, pip"], pathlib.Path("/")).returncode == 0)
    return next(runs, None)


def changed(program: pathlib.Path) -> None:
    """Changes seven bytes of a program."""
    held = program.read_bytes()
    middle = len(held) // 2
    other = bytes(byte ^ 1 for byte in held[middle : middle + 7])
    program.write_bytes(held[:middle] + other + held[middle + 7 :])


class Packages(unittest.TestCase):
    program: bytes
    room: pathlib.Path
    made: Dict[str, pathlib.Path]
    places: Dict[str, Place]

    @classmethod
    def setUpClass(cls) -> None:
        cls.program = pathlib.Path(path_of_program()).read_bytes()
        cls.room = pathlib.Path(tempfile.mkdtemp(prefix="lab-packages-"))
        cls.room.chmod(0o755)
        cls.made = package.pack(cls.room / "made", cls.program, SOURCES)
        cls.places = {}

    @classmethod
    def tearDownClass(cls) -> None:
        shutil.rmtree(cls.room)

    def place(self, kind: str) -> Place:
        """Returns where a package is, which is unpacked once."""
        if kind not in self.places:
            unpack: Dict[str, Callable[[pathlib.Path], Place]] = {
                "archive": self.unpacked_archive,
                "Debian": self.unpacked_debian,
                "wheel": self.installed_wheel,
            }
            root = self.room / kind
            root.mkdir(exist_ok=True)
            self.places[kind] = unpack[kind](root)
        return self.places[kind]

    def unpacked_archive(self, root: pathlib.Path) -> Place:
        with tarfile.open(self.made["archive"]) as archive:
            archive.extractall(root)
        (folder,) = root.iterdir()
        self.assertEqual(folder.name, f"lab-{package.version()}-x86_64-linux")
        return Place(folder, folder / "lab", f"{folder}/tools/", folder)

    def unpacked_debian(self, root: pathlib.Path) -> Place:
        if "Debian" not in self.made:
            self.skipTest("the Debian package, without dpkg-deb")
        self.assertEqual(self.made["Debian"].name, f"lab_{package.version()}_amd64.deb")
        subprocess.run(["dpkg-deb", "-x", self.made["Debian"], root], check=True)
        return Place(root / "usr/share/doc/lab", root / "usr/bin/lab", f"{root}/usr/bin/lab-", root / "usr/lib/lab")

    def installed_wheel(self, root: pathlib.Path) -> Place:
        python = python_for_all()
        if python is None:
            self.skipTest("the wheel, without a Python that has pip and venv")
        subprocess.run([python, "-m", "venv", "--without-pip", root / "venv"], check=True)
        words = ["--python", str(root / "venv/bin/python"), "install", "--no-index", "--disable-pip-version-check"]
        subprocess.run([python, "-m", "pip", *words, "--quiet", self.made["wheel"]], check=True, cwd=root)
        shutil.copytree(TOP / "demo", root / "demo")
        (share,) = root.glob("venv/lib/python3*/site-packages/labtools/share")
        return Place(root, root / "venv/bin/lab", f"{root}/venv/bin/lab-", share)

    def test_pip_is_given_the_version_of_lab(self) -> None:
        self.assertEqual((TOP / "python/VERSION").read_bytes(), (TOP / "VERSION").read_bytes())

    def test_each_runs_the_demos(self) -> None:
        """By the program alone, and by the tool that compares logs."""
        demos = sorted(it.parent.name for it in TOP.glob("demo/*/s.resc"))
        self.assertGreater(len(demos), 10)
        for kind in KINDS:
            with self.subTest(kind=kind):
                place = self.place(kind)
                words = [[str(place.lab), "run", f"demo/{name}/s.resc"] for name in demos]
                with concurrent.futures.ThreadPoolExecutor(4) as pool:
                    runs = list(pool.map(lambda it: as_another(it, place.folder), words))
                for name, ran in zip(demos, runs):
                    self.assertEqual(ran.stdout, (TOP / f"demo/{name}/output").read_text(encoding="utf-8"), name)
                    self.assertEqual(ran.returncode, 0, name)
                compared = as_another([place.tool("expect"), "demo/hub/s.resc", "demo/hub/output"], place.folder)
                self.assertEqual((compared.returncode, compared.stdout), (0, ""))

    def test_the_tools_of_each_run_its_program_and_read_its_documents(self) -> None:
        for kind in KINDS:
            with self.subTest(kind=kind):
                place = self.place(kind)
                for tool, script, line in (
                    ("where", "hub/s", "at 0.000800\n"),
                    ("suite", "suite/sum", "passed "),
                    ("reads", "hub/s", "there    script   demo/hub/s.resc\n"),
                ):
                    ran = as_another([place.tool(tool), f"demo/{script}.resc"], place.folder)
                    self.assertEqual(ran.returncode, 0, ran.stdout)
                    self.assertEqual(ran.stdout[: len(line)], line, ran.stdout)
                refused = self.room / "refused.resc"
                refused.write_text("foo\n", encoding="utf-8")
                ran = as_another([str(place.lab), "run", str(refused)], place.folder)
                self.assertEqual(ran.returncode, 3, ran.stdout)
                self.assertIn(f"\nlab:   {refused}:1: foo\nlab: docs/SCRIPTS.md: the first words are not a", ran.stdout)

    def test_each_says_what_it_is(self) -> None:
        logic = package.LOGIC.search(self.program)
        assert logic
        for kind in KINDS:
            with self.subTest(kind=kind):
                place = self.place(kind)
                said = as_another([str(place.lab), "--version"], place.folder).stdout
                lines = f"lab {package.version()}\nsources {SOURCES}\nlogic {logic[1].decode()}\n"
                self.assertEqual(said, lines)
                total = subprocess.check_output(["sha256sum", place.files / "bin/lab"], text=True).split()[0]
                sums = f"version {package.version()}\nsources {SOURCES}\nprogram {total}\nlogic {logic[1].decode()}\n"
                self.assertEqual((place.files / "SUMS").read_text(encoding="ascii"), sums)

    def test_each_has_what_users_need_and_nothing_else(self) -> None:
        have = "lab", "bin/lab", "bin/lab.sources", "VERSION", "docs/SCRIPTS.md", "tools/snapshot"
        lack = "crates", "crates.txt", *(f"tools/{it}" for it in ("build", "check", "release", "sources", "package"))
        for kind in KINDS:
            with self.subTest(kind=kind):
                files = self.place(kind).files
                for name in have:
                    self.assertTrue((files / name).is_file(), name)
                for name in lack:
                    self.assertFalse((files / name).exists(), name)
                self.assertEqual(sorted(it.name for it in (files / "tools").iterdir()), names_of_tools())
        for name in "README.md", "man/lab.1", "completion.bash", "CHANGELOG":
            self.assertTrue((self.place("archive").files / name).is_file(), name)

    def test_none_names_the_repository_or_has_its_tests(self) -> None:
        for kind in KINDS:
            with self.subTest(kind=kind):
                self.place(kind)
                for path in (self.room / kind).rglob("*"):
                    self.assertFalse("labdev" in path.parts or re.fullmatch(r"test_.*\.py", path.name), path)
                    if path.is_file() and not path.is_symlink():
                        self.assertNotIn(os.fsencode(f"{TOP}/"), path.read_bytes(), path)

    def test_the_same_files_give_the_same_bytes(self) -> None:
        again = package.pack(self.room / "again", self.program, SOURCES)
        for kind, path in again.items():
            with self.subTest(kind=kind):
                self.assertEqual(path.read_bytes(), self.made[kind].read_bytes())

    def test_each_command_answers_by_its_name(self) -> None:
        """That of the Debian package or the wheel."""
        for kind in "Debian", "wheel":
            with self.subTest(kind=kind):
                place = self.place(kind)
                for name in names_of_tools():
                    said = as_another([place.tool(name), "--help"], self.room).stdout
                    self.assertIn(f"  lab-{name} ", said)
                    self.assertNotRegex(said, r"tools/|\./lab")
                for name, word in ("log", "none"), ("where", "none"), ("suite", "--none"), ("expect", "none"):
                    told = as_another([place.tool(name), word], self.room).stdout
                    self.assertRegex(told, rf"(?m)^ *(usage: )?lab-{name}\b")
                    self.assertNotIn("tools/", told)

    # ---- the Debian package

    def test_the_debian_package_runs_from_its_folders(self) -> None:
        place = self.place("Debian")
        for folder in place.folder, place.files:
            ran = as_another(["./lab", "run", "demo/hub/s.resc"], folder)
            self.assertEqual(ran.stdout, (TOP / "demo/hub/output").read_text(encoding="utf-8"))

    def test_the_debian_package_says_what_it_is(self) -> None:
        self.place("Debian")
        said = subprocess.check_output(["dpkg-deb", "-f", self.made["Debian"]], text=True)
        recommended = "Recommends: python3 (>= 3.8), python3-pyelftools"
        for line in "Package: lab", f"Version: {package.version()}", "Architecture: amd64", recommended:
            self.assertIn(f"\n{line}\n", f"\n{said}")

    def test_the_debian_package_goes_with_what_python_has_written_beside_its_tools(self) -> None:
        shutil.copytree(self.place("Debian").files, self.room / "removed/usr/lib/lab", symlinks=True)
        written = self.room / "removed/usr/lib/lab/python/labtools/common/__pycache__"
        written.mkdir(exist_ok=True)
        (written / "program.cpython-311.pyc").touch()
        subprocess.run(["dpkg-deb", "-e", self.made["Debian"], self.room / "control"], check=True)
        env = {**os.environ, "DPKG_ROOT": str(self.room / "removed")}
        subprocess.run([self.room / "control/prerm", "remove"], check=True, env=env)
        self.assertEqual(list((self.room / "removed").rglob("__pycache__")), [])
        self.assertTrue((written.parent / "program.py").is_file())

    def test_each_command_of_the_debian_package_has_a_page_and_completion(self) -> None:
        self.place("Debian")
        system = self.room / "Debian/usr"
        commands = sorted(it.name for it in (system / "bin").iterdir())
        self.assertEqual(commands, ["lab", *(f"lab-{name}" for name in names_of_tools())])
        pages = {name: gzip.decompress((system / f"share/man/man1/{name}.1.gz").read_bytes()) for name in commands}
        self.assertEqual(pages["lab"], package.manual(is_installed=True))
        for command in commands:
            with self.subTest(command=command):
                page = pages[command].decode().replace("\\-", "-")
                self.assertIn(f".SH NAME\n{command} - ", page)
                self.assertIn(f".SH SYNOPSIS\n.B {command} ", page)
                self.assertTrue((system / "share/bash-completion/completions" / command).is_file())
                self.assertTrue(command == "lab" or f"{command}(1)" in pages["lab"].decode().replace("\\-", "-"))

    def test_the_texts_that_are_installed_name_commands_as_they_are_called_there(self) -> None:
        for kind in "Debian", "wheel":
            with self.subTest(kind=kind):
                docs = self.place(kind).files / "docs"
                texts = list(docs.rglob("*.md"))
                self.assertGreater(len(texts), 15)
                for path in texts:
                    named = rf"(?m)(^|[\s`(])(tools/({'|'.join(names_of_tools())})\b|\./lab\b)"
                    self.assertNotRegex(path.read_text(encoding="utf-8"), named, path.name)
                self.assertIn("`lab-where SCRIPT`", (docs / "TROUBLESHOOTING.md").read_text(encoding="utf-8"))

    def test_the_changes_begin_with_the_version_that_is_packed_and_name_commands_as_installed(self) -> None:
        first = f"lab ({package.version()}) "
        self.assertTrue((self.place("archive").files / "CHANGELOG").read_text(encoding="utf-8").startswith(first))
        packed = (self.place("Debian").folder / "changelog.gz").read_bytes()
        self.assertTrue(gzip.decompress(packed).decode().startswith(first))
        with unittest.mock.patch.object(package, "changelog", lambda: b"  * ./lab says, and tools/log splits.\n"):
            self.assertEqual(package.changelog_as_installed(), b"  * lab says, and lab-log splits.\n")

    def test_lintian_finds_nothing_but_what_is_told_with_its_reason(self) -> None:
        told = (TOP / "packaging/lintian-overrides").read_text(encoding="utf-8").splitlines()
        self.assertTrue(told[0].startswith("# "))
        if "Debian" not in self.made or not shutil.which("lintian"):
            self.skipTest("what lintian says of the Debian package, without lintian")
        words = ["lintian", "--allow-root", "--fail-on", "error,warning", str(self.made["Debian"])]
        ran = subprocess.run(words, stdout=subprocess.PIPE, stderr=subprocess.STDOUT, text=True, timeout=300)
        self.assertEqual((ran.returncode, re.findall("(?m)^[EWN]: .*", ran.stdout)), (0, []))

    # ---- the wheel

    def test_the_record_has_the_sum_of_each_file_of_the_wheel(self) -> None:
        with zipfile.ZipFile(self.made["wheel"]) as packed:
            held = {name: packed.read(name) for name in packed.namelist()}
        (record,) = (name for name in held if name.endswith(".dist-info/RECORD"))
        rows = {row[0]: row[1:] for row in csv.reader(held[record].decode().splitlines())}
        self.assertEqual(rows.pop(record), ["", ""])
        self.assertEqual({*rows, record}, set(held))
        for name, (total, size) in rows.items():
            # 32 bytes are 43 signs and one `=`, which a record lacks
            wanted = base64.urlsafe_b64decode(f"{total[len('sha256='):]}=")
            self.assertEqual((hashlib.sha256(held[name]).digest(), len(held[name])), (wanted, int(size)), name)

    def test_pyproject_has_a_command_for_each_tool(self) -> None:
        commands = dict(wheel.table_of("project.scripts"))
        self.assertLessEqual({"lab", *(f"lab-{name}" for name in names_of_tools())}, set(commands))
        self.assertEqual(set(commands.values()), {"labtools.common.program:run_called"})

    # ---- the program

    def test_a_damaged_program_is_told(self) -> None:
        shutil.copytree(self.place("archive").files, self.room / "damaged", symlinks=True)
        changed(self.room / "damaged/bin/lab")
        said = as_another(["./lab", "--version"], self.room / "damaged")
        self.assertEqual(said.returncode, 70)
        self.assertIn("/bin/lab is damaged: its sum is ", said.stdout)
        self.assertNotIn(SOURCES, said.stdout)

    def test_a_program_that_is_damaged_or_of_other_sources_is_not_packed(self) -> None:
        own = sum_of_sources()
        total = hashlib.sha256(self.program).hexdigest()
        program = self.room / "lab"
        for kept, is_changed, fault in (
            (f"{own}\n{total}\n", False, None),
            (f"{own}\n", False, "lab.sources has no second line"),
            (f"{own}\n{total}\n", True, "lab is damaged: its sum is "),
            (f"{SOURCES}\n{total}\n", False, "no program was built from the present sources"),
        ):
            program.write_bytes(self.program)
            (self.room / "lab.sources").write_text(kept, encoding="ascii")
            if is_changed:
                changed(program)
            with self.subTest(fault=fault), unittest.mock.patch.object(package, "PROGRAMS", (program,)):
                if fault is None:
                    self.assertEqual(package.released_program(), program)
                else:
                    self.assertRaisesRegex(package.Refused, fault, package.released_program)


class Manual(unittest.TestCase):
    def test_the_page_has_the_tables_of_the_document(self) -> None:
        page = manual_page(DOCUMENT, "3.2", "lab-one(1)")
        self.assertTrue(page.startswith('.TH LAB 1 "" "lab 3.2" "User commands"\n'))
        for part in SYNOPSIS, COMMANDS, EXITS:
            self.assertIn(part, page)

    def test_the_page_of_a_script_has_the_parts_of_its_answer(self) -> None:
        self.assertEqual(page_of_script("lab-make", ANSWER, "3.2"), PAGE)

    @unittest.skipUnless(shutil.which("groff"), "the form of the manual pages, without groff")
    def test_the_pages_are_formatted_without_a_warning(self) -> None:
        pages = [package.manual(is_installed=True), package.manual(is_installed=False)]
        pages += [package.manual_of_script(name, text) for name, text in package.answers().items()]
        for page in pages:
            words = ["groff", "-man", "-Tutf8", "-ww", "-P-c"]
            ran = subprocess.run(words, input=page, stdout=subprocess.PIPE, stderr=subprocess.PIPE, check=True)
            self.assertEqual(ran.stderr, b"")
            shown = re.sub(".\b", "", ran.stdout.decode())
            self.assertRegex(shown, r"(?s)\nNAME\n +lab.* - .*\nSYNOPSIS\n +\S.*\nSEE ALSO\n")


class Completion(unittest.TestCase):
    def offered(self, *words: str, command: str = "lab", folders: Tuple[str, ...] = ("ab",)) -> List[str]:
        """Returns what is offered for the last of these words after a command, in a folder with two files and some
        folders."""
        line = (
            'source ./completion; name=$(complete -p "$0"); name=${name#*-F }; COMP_WORDS=("$0" "$@"); COMP_CWORD=$#; '
            '"${name%% *}"; printf "%s\\n" "${COMPREPLY[@]}"'
        )
        with tempfile.TemporaryDirectory() as folder:
            for name in "a.resc", "a.repl":
                (pathlib.Path(folder) / name).touch()
            for name in folders:
                (pathlib.Path(folder) / name).mkdir()
            (pathlib.Path(folder) / "completion").write_bytes(package.completion(package.answers()))
            ran = subprocess.run(
                ["bash", "-c", line, command, *words], cwd=folder, check=True, stdout=subprocess.PIPE, text=True
            )
        return ran.stdout.split()

    def test_what_may_follow_is_offered(self) -> None:
        for words, command, wanted in (
            (("r",), "lab", ["run"]),
            (("--v",), "lab", ["--version"]),
            (("run", "--"), "lab", ["--workers", "--until"]),
            (("gen", "--"), "lab", ["--workers"]),
            (("check", "--"), "lab", []),
            (("run", "a.resc", "--workers", ""), "lab", list("12345678")),
            (("run", "a"), "lab", ["ab", "a.resc"]),
            (("run", "--until", ""), "lab", []),
            (("gen", "1", ""), "lab", []),
            (("a",), "lab-suite", ["ab", "a.resc"]),
            (("a",), "tools/suite", ["ab", "a.resc"]),
            (("--junit", "a.re"), "lab-suite", ["a.repl", "a.resc"]),
            (("--junit", "a.re"), "tools/suite", ["a.repl", "a.resc"]),
            (("--timeout", ""), "lab-suite", []),
            (("--timeout", ""), "tools/suite", []),
            (("--html", "a.re"), "lab-log", ["a.repl", "a.resc"]),
            (("--split", "a"), "lab-log", ["ab"]),
            (("--bl",), "lab-expect", ["--bless"]),
            (("--bless", "a"), "lab-expect", ["ab", "a.resc"]),
            (("a.",), "lab-reads", ["a.resc"]),
        ):
            with self.subTest(words=words, command=command):
                self.assertEqual(self.offered(*words, command=command), wanted)

        for name in "lab-suite", "tools/suite":
            self.assertLess({"-j", "--junit", "--tap", "--timeout", "--help"}, set(self.offered("-", command=name)))

    def test_scripts_are_offered_where_no_folder_matches(self) -> None:
        self.assertEqual(self.offered("run", "a", folders=()), ["a.resc"])
        self.assertEqual(self.offered("check", "a.", folders=("ab", "b")), ["a.resc"])
