"""A Python that has pyelftools: the one that runs, or else the first of those on the path."""
import contextlib
import functools
import importlib
import os
import subprocess
import sys
from typing import Optional


@functools.lru_cache(maxsize=None)
def with_pyelftools() -> Optional[str]:
    """Returns its path, or None where there is none."""
    with contextlib.suppress(ImportError):
        importlib.import_module("elftools.elf.elffile")
        return sys.executable
    found = [os.path.join(folder, "python3") for folder in os.get_exec_path()]
    return next((python for python in found if has_pyelftools(python)), None)


def has_pyelftools(python: str) -> bool:
    try:
        return subprocess.run([python, "-c", "import elftools.elf.elffile"], capture_output=True).returncode == 0
    except OSError:
        return False
