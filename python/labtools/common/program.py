"""What the tools share: which one is run, where the program stands that they run, what they say of wrong words and of
outputs that fail, and their answer to --help."""
import argparse
import contextlib
import importlib
import importlib.util
import io
import os
import pathlib
import re
import shutil
import signal
import subprocess
import sys
from types import ModuleType
from typing import Any, Callable, Collection, Dict, List, NoReturn, Optional, Type

# The package `labtools` itself, whose modules are the tools.
TOOLS = pathlib.Path(__file__).resolve().parents[1]


def top_of(tools: pathlib.Path) -> pathlib.Path:
    """Returns the folder that has ./lab, tools/ and docs/: `share` of the package where pip has installed it, and else
    the repository or the unpacked archive in which it stands."""
    share = tools / "share"
    return share if share.is_dir() else tools.parents[1]


TOP = top_of(TOOLS)

# A tool and ./lab as texts name them, but not as the ends of longer paths.
NAMED = re.compile(r"(?<![\w./)}-])tools/([a-z]+)\b(?!\.\w)")
LAB = re.compile(r"(?<![\w./])\./lab\b(?![\w./-])")


def named_as_installed(text: str, scripts: Collection[str]) -> str:
    """Returns a text in which these scripts and ./lab have the names that they have where a package is installed: lab
    for ./lab, and lab-log for tools/log."""
    text = NAMED.sub(lambda it: f"lab-{it[1]}" if it[1] in scripts else it[0], text)
    return LAB.sub("lab", text)


def names_of_tools() -> List[str]:
    """Returns the names of the tools for those who use lab: the files of tools/ of which `labtools` has a module."""
    return sorted(it.name for it in (TOP / "tools").glob("*") if (TOOLS / f"{it.name}.py").is_file())


def is_called_as_installed() -> bool:
    return os.path.basename(sys.argv[0]).startswith("lab-")


def as_called(text: Optional[str]) -> str:
    """Returns a text of the script that runs, in which commands have the names by which this one was called."""
    if not is_called_as_installed():
        return text or ""
    return named_as_installed(text or "", names_of_tools())


def name_of_script() -> str:
    """Returns the name of the script that runs: tools/log, or lab-log where it was called so, or its path where it
    stands elsewhere."""
    if is_called_as_installed():
        return os.path.basename(sys.argv[0])
    path = pathlib.Path(sys.argv[0]).parent.resolve() / os.path.basename(sys.argv[0])
    return str(path.relative_to(TOP)) if TOP in path.parents else sys.argv[0]


def forms_of(head: Optional[str]) -> str:
    """Returns the lines of a script's head that say with which words it is called."""
    return as_called(head).split("\n\n")[1]


def parser_of(head: Optional[str], is_strict: bool = False) -> argparse.ArgumentParser:
    """Returns a parser for the words of the script that runs, which shows its forms where they are wrong. A strict one
    takes no shorter options."""
    said, forms = as_called(head), forms_of(head).strip().replace("%", "%%")
    how: Dict[str, Any] = {"formatter_class": argparse.RawDescriptionHelpFormatter, "allow_abbrev": not is_strict}
    return argparse.ArgumentParser(name_of_script(), forms, said, add_help=not is_strict, **how)


def tell(text: str) -> None:
    """Prints a line on the standard error, which may be full, or closed: it is none then."""
    with contextlib.suppress(OSError, AttributeError):
        sys.stderr.write(f"{text}\n")
        sys.stderr.flush()


def counted(count: int, one: str, more: str) -> str:
    """Returns how many there are, in words: `1 crate`, or `2 crates`."""
    return f"{count} {one if count == 1 else more}"


def end_wrong(text: object, status: int = 2) -> NoReturn:
    """Ends the script with a line on the standard error."""
    tell(f"{name_of_script()}: {text}")
    raise SystemExit(status)


def end_unless(is_well: bool, usage: str, fault: str = "wrong arguments") -> None:
    """Ends the script where its words are not well: a line says why, and which words it takes."""
    if not is_well:
        end_wrong(f"{fault}; usage: {name_of_script()} {usage}".rstrip())


def number_of(word: str, usage: str, most: int = 999_999_999) -> int:
    """Returns the number that a word is, from 1 on, or ends the script."""
    is_number = re.fullmatch("[1-9][0-9]*", word) and len(word) <= len(str(most)) and int(word) <= most
    end_unless(bool(is_number), usage, f"{word} is not a number from 1 to {most}")
    return int(word)


def found_program(path: str) -> str:
    """Returns where a program is, or ends the script where it is none that can be run."""
    found = shutil.which(path)
    if found is None:
        end_wrong(f"{path} is not a program that can be run")
    return os.path.abspath(found)


def path_of_program() -> str:
    """Returns the path in LAB, or else that of the program that ./lab runs, which builds it where it has to. Ends the
    script where there is none."""
    given = os.environ.get("LAB")
    if given:
        return found_program(given)
    said = subprocess.run([TOP / "lab", "--program"], stdout=subprocess.PIPE, text=True)
    if said.returncode != 0:
        raise SystemExit(said.returncode)
    return said.stdout.rstrip("\n")


def program_or(fault: Type[Exception]) -> str:
    """Returns what path_of_program does, but raises this where there is none."""
    try:
        return path_of_program()
    except SystemExit as ended:
        cause = "LAB names no program" if os.environ.get("LAB") else f"./lab ended with {ended.code}"
        raise fault(f"there is no program to run: {cause}") from ended


def standing_program() -> Optional[str]:
    """Returns the path in LAB, or else that of the program that ./lab runs. It builds none, and returns None where no
    program stands or ./lab finds it damaged."""
    given = os.environ.get("LAB")
    if given:
        return shutil.which(given)
    lab = str(TOP / "lab")
    with contextlib.suppress(OSError, subprocess.CalledProcessError):
        if b", of which no program is built yet" not in said_by(lab, "--version"):
            return os.fsdecode(said_by(lab, "--program")).rstrip("\n")
    return None


def said_by(*words: str) -> bytes:
    """Returns what a command prints that ends with 0."""
    return subprocess.check_output(words, stdin=subprocess.DEVNULL, stderr=subprocess.DEVNULL)


def end_with_reader() -> None:
    """From now on this script ends in silence where nobody reads on what it prints, as with `| head`."""
    signal.signal(signal.SIGPIPE, signal.SIG_DFL)


def open_output() -> None:
    """Makes a standard output that is closed one that cannot be written, so that this is seen. What its encoding lacks
    is written as an escape."""
    if sys.stdout is None:
        sys.stdout = os.fdopen(os.open(os.devnull, os.O_RDONLY), "w")
    if isinstance(sys.stdout, io.TextIOWrapper):
        sys.stdout.reconfigure(errors="backslashreplace")


def drop_output() -> None:
    """Lets what could not be written go, so that nothing is told of it at the end."""
    with contextlib.suppress(OSError, AttributeError):
        os.dup2(os.open(os.devnull, os.O_WRONLY), sys.stdout.fileno())


def end_with(main: Callable[[], Optional[int]], failed: int = 1) -> NoReturn:
    """Ends the script with what it answers: in silence where nobody reads on what it prints, with a line and the status
    `failed` where that cannot be written, or a file cannot be read, and with 130 where it was interrupted."""
    end_with_reader()
    open_output()
    try:
        try:
            status = main()
        finally:
            sys.stdout.flush()
    except OSError as fault:
        drop_output()
        end_wrong(fault, failed)
    except KeyboardInterrupt:
        end_wrong("interrupted", 130)
    raise SystemExit(status)


def answer_help(head: Optional[str], failed: int = 1) -> None:
    """Where the one word is --help, prints the head of the script and ends it."""
    if sys.argv[1:] == ["--help"]:
        end_with(lambda: print(as_called(head).strip()), failed)


def run_tool(tool: ModuleType) -> NoReturn:
    """Runs a tool with the words of the command line, and ends with what it answers. A tool is a module with a function
    `main`, which takes the words. To --help it answers with the text of the module. `UNWRITTEN` is its status where
    what it prints cannot be written, if that is not 1."""
    failed = int(getattr(tool, "UNWRITTEN", 1))
    main: Callable[[List[str]], Optional[int]] = tool.main
    answer_help(tool.__doc__, failed)
    end_with(lambda: main(sys.argv[1:]), failed)


def environment() -> Dict[str, str]:
    """Returns the environment of ./lab, by which it has this Python explain what a run leaves unsaid."""
    return {"LAB_PYTHON": sys.executable, **os.environ}


def run_lab() -> NoReturn:
    """Becomes ./lab."""
    lab = str(TOP / "lab")
    try:
        os.execve(lab, [lab, *sys.argv[1:]], environment())
    except OSError as fault:
        end_wrong(f"{lab}: {fault.strerror}", 70)


def name_called() -> str:
    """Returns the name of the tool by which this was called: that of tools/suite, ./test, or lab-suite."""
    name = os.path.basename(sys.argv[0])
    return name[len("lab-") :] if name.startswith("lab-") else name


def run_called(*packages: str) -> NoReturn:
    """Runs what has the name by which this was called: lab itself, or a tool of one of these packages. Without packages
    it is the entry point of what pip installs, whose tools are those of `labtools`."""
    name = name_called()
    if name == "lab":
        run_lab()
    for package in packages or ("labtools",):
        if has_tool(package, name):
            run_tool(importlib.import_module(f"{package}.{name}"))
    end_wrong(f"there is no tool {name}")


def has_tool(package: str, name: str) -> bool:
    """Whether a package is there and has a module of this name."""
    has_package = name.isidentifier() and importlib.util.find_spec(package) is not None
    return has_package and importlib.util.find_spec(f"{package}.{name}") is not None
