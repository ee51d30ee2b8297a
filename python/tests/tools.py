"""Calls tools as the files of tools/ do, each in a process of its own that begins as a copy of this one: to start a
Python for each, which reads its modules again, would take most of the time of these tests. test_help.py starts each."""
import contextlib
import importlib
import io
import os
import subprocess
import sys
import tempfile
import traceback
from typing import Any, Callable, Dict, List, Mapping, NoReturn, Optional, Sequence, TextIO

from labtools.common.program import TOP, run_called

PACKAGES = "labtools", "labdev"
# In place of the number of an output: one that is closed.
CLOSED = -100


def module_of(path: object) -> Optional[str]:
    """Returns the module that a file of tools/ runs, or None where it runs none."""
    folder, name = os.path.split(str(path))
    found = (f"{it}.{name}" for it in PACKAGES if (TOP / "python" / it / f"{name}.py").exists())
    return next(found, None) if folder == str(TOP / "tools") else None


def settings_of_python(environment: Mapping[str, str]) -> Dict[str, str]:
    return {name: value for name, value in environment.items() if name.startswith("PYTHON") and value}


def call(
    path: object,
    *words: object,
    cwd: object = TOP,
    env: Optional[Mapping[str, str]] = None,
    given: str = "",
    stdout: int = subprocess.PIPE,
    stderr: int = subprocess.PIPE,
    is_buffered: bool = True,
    before: Optional[Callable[[], None]] = None,
    python: str = sys.executable,
) -> "subprocess.CompletedProcess[str]":
    """Calls a tool or another program with these words in a folder, and returns how it has ended and what it has
    printed. `before` is called in its process first. A Python is started where it is another one, or has other settings
    of its own."""
    command, env = [str(path), *map(str, words)], dict(os.environ if env is None else env)
    module = module_of(path)
    if module is None or python != sys.executable or settings_of_python(env) != settings_of_python(os.environ):
        how: Dict[str, Any] = {"cwd": str(cwd), "env": env, "stdout": stdout, "stderr": stderr, "preexec_fn": before}
        command = [*[python] * (module is not None), *command]
        return subprocess.run(command, input=given, text=True, errors="replace", timeout=600, **how)
    # It is read here once, and not in each process.
    importlib.import_module(module)
    with in_memory(given) as read, in_memory() as printed, in_memory() as told:
        output = printed.fileno() if stdout == subprocess.PIPE else stdout
        numbers = [read.fileno(), output, told.fileno() if stderr == subprocess.PIPE else printed.fileno()]
        process = os.fork()
        if process == 0:
            end_as_tool(numbers, command, str(cwd), env, is_buffered, before)
        _, status = os.waitpid(process, 0)
        printed.seek(0)
        told.seek(0)
        ended = -os.WTERMSIG(status) if os.WIFSIGNALED(status) else os.WEXITSTATUS(status)
        return subprocess.CompletedProcess(command, ended, printed.read(), told.read())


def in_memory(text: str = "") -> TextIO:
    """Returns a file without a name, which is read from its beginning."""
    file = open(os.memfd_create("lab"), "w+", errors="replace")
    file.write(text)
    file.seek(0)
    return file


def end_as_tool(
    numbers: Sequence[int],
    command: List[str],
    cwd: str,
    env: Mapping[str, str],
    is_buffered: bool,
    before: Optional[Callable[[], None]],
) -> NoReturn:
    """Ends this process as a tool does, whose standard files are those of these numbers."""
    status = 1
    try:
        for standard, number in enumerate(numbers):
            os.close(standard) if number == CLOSED else os.dup2(number, standard)
        if before:
            before()
        os.chdir(cwd)
        os.environ.clear()
        os.environ.update(env)
        tempfile.tempdir = None
        sys.argv = command
        sys.stdin = open(0, closefd=False)
        sys.stdout, sys.stderr = written(1, is_buffered), written(2, is_buffered)
        status = status_of_tool()
    except BaseException:
        traceback.print_exc()
    finally:
        for file in sys.stdout, sys.stderr:
            with contextlib.suppress(OSError, AttributeError):
                file.flush()
        os._exit(status)


def written(number: int, is_buffered: bool) -> Any:
    """Returns a standard output as Python makes it at its start: None where it is closed."""
    try:
        os.fstat(number)
    except OSError:
        return None
    raw = io.FileIO(number, "w", closefd=False)
    errors = "strict" if number == 1 else "backslashreplace"
    if is_buffered:
        return io.TextIOWrapper(io.BufferedWriter(raw), errors=errors, line_buffering=number == 2)
    return io.TextIOWrapper(raw, errors=errors, write_through=True)


def status_of_tool() -> int:
    """Runs the tool that is called, and returns its status."""
    try:
        run_called(*PACKAGES)
    except SystemExit as ended:
        if isinstance(ended.code, int) or ended.code is None:
            return (ended.code or 0) & 0xFF
        print(ended.code, file=sys.stderr)
        return 1
