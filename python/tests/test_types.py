"""Tries that the Python programs of this repository are typed and laid out, and that Python 3.8 reads them. What mypy,
flake8 or black would say is passed over where it is not installed."""
import ast
import os
import pathlib
import re
import shutil
import subprocess
import unittest
from typing import List

from labtools.common.program import TOP

PYTHON = TOP / "python"
# What a file may not hold, but for a comment with what it ignores and the reason: `# type: ignore[code]  # (why)`.
GAMES = re.compile(r"sys\.path\b|#\s*noqa\b|#\s*type:\s*ignore(?!\[[a-z-]+(?:,[a-z-]+)*\]  # \()")
SAMPLE = """import sys
def typed(it: int) -> int:
    sys.%s.append("lib")  # no%s
    return it + ""  # type%s ignore
"""


def programs() -> List[pathlib.Path]:
    """Returns all Python programs: modules, and files that begin as programs do."""
    folders = [PYTHON, TOP / "demo", TOP / "cases", TOP / "packaging", TOP / "tools"]
    found = [it for folder in folders for it in folder.rglob("*") if it.is_file() and not it.is_symlink()]
    first = b"#!/usr/bin/env python3\n"
    return sorted(it for it in found if it.suffix == ".py" or it.read_bytes().startswith(first))


def outside_packages() -> List[pathlib.Path]:
    """Returns the programs that stand elsewhere, one of those that have the same text."""
    return list({it.read_bytes(): it for it in programs() if PYTHON not in it.parents}.values())


class Types(unittest.TestCase):
    def said_by(self, tool: str, *words: str) -> str:
        """Returns what a checker says of all programs, with the settings of python/, or passes over it."""
        # Debian's stands for the Python of the system, where another one may be first on the path.
        found = next((it for it in (shutil.which(tool), f"/usr/bin/{tool}") if it and pathlib.Path(it).exists()), None)
        if found is None:
            self.skipTest(f"what {tool} would say, without {tool}")
        command = [found, *words]
        env = {**os.environ, "BLACK_CACHE_DIR": str(TOP / "out/black")}
        ran = subprocess.run(command, cwd=PYTHON, env=env, stdout=subprocess.PIPE, stderr=subprocess.STDOUT, text=True)
        return "" if ran.returncode == 0 else ran.stdout

    def test_mypy_finds_nothing(self) -> None:
        # What was found of a file that has not changed since is kept where builds keep theirs.
        quiet = ["--no-error-summary", "--hide-error-context", "--cache-dir", str(TOP / "out/mypy")]
        outside = map(str, outside_packages())
        self.assertEqual(self.said_by("mypy", *quiet, "--scripts-are-modules", ".", *outside), "")

    def test_flake8_finds_nothing(self) -> None:
        self.assertEqual(self.said_by("flake8", ".", *map(str, outside_packages())), "")

    def test_black_changes_nothing(self) -> None:
        words = ["--config", "pyproject.toml", ".", *map(str, outside_packages())]
        # It keeps of which files it has changed nothing where it only checks, and shows no difference then.
        if self.said_by("black", "--check", *words):
            self.assertEqual(self.said_by("black", "-q", "--check", "--diff", *words), "")

    def test_python_3_8_reads_each_program(self) -> None:
        self.assertIn(PYTHON / "__main__.py", programs())
        self.assertGreater(len(programs()), 50)
        for program in programs():
            with self.subTest(program=str(program.relative_to(TOP))):
                ast.parse(program.read_text(encoding="utf-8"), feature_version=(3, 8))

    def test_no_program_plays_games_with_its_path_or_with_the_checkers(self) -> None:
        self.assertEqual(len(GAMES.findall(SAMPLE % ("path", "qa", ":"))), 3)
        for program in programs():
            with self.subTest(program=str(program.relative_to(TOP))):
                self.assertEqual(GAMES.findall(program.read_text(encoding="utf-8")), [])
