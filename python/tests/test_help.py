"""Tries that the files of tools/ are what they have to be, that each answers --help with its text, and so do ./test,
demo/check and cases/check; and that ./lab --help lists the words and the exits of docs/SCRIPTS.md."""
import ast
import os
import pathlib
import re
import subprocess
import unittest
from typing import List

from labtools.common.manual import exits_of, words_of
from labtools.common.program import TOP

PYTHON = TOP / "python"


def modules() -> List[str]:
    """Returns the names of the modules that are tools: those with a function `main`."""
    found = [it for package in ("labtools", "labdev") for it in (PYTHON / package).glob("*.py")]
    return sorted(it.stem for it in found if re.search(r"(?m)^def main\(\w+: List\[str\]\)", it.read_text("utf-8")))


def scripts() -> List[pathlib.Path]:
    return [TOP / "test", TOP / "demo/check", TOP / "cases/check", *sorted((TOP / "tools").iterdir())]


def is_launcher(script: pathlib.Path) -> bool:
    return script.read_bytes() == (TOP / "test").read_bytes()


def text_of(script: pathlib.Path) -> str:
    """Returns the text of a tool's module, or the first line of a shell script's comment."""
    if not is_launcher(script):
        return str(re.findall(r"#!.*\n# (.*)\n", script.read_text("utf-8"))[0])
    [module] = PYTHON.glob(f"lab*/{script.name}.py")
    return (ast.get_docstring(ast.parse(module.read_text("utf-8")), clean=False) or "").strip()


def answer(script: pathlib.Path) -> "subprocess.CompletedProcess[str]":
    environment = {**os.environ, "LAB": "/none"}
    return subprocess.run(
        [str(script), "--help"],
        env=environment,
        text=True,
        timeout=60,
        stdin=subprocess.DEVNULL,
        stdout=subprocess.PIPE,
        stderr=subprocess.STDOUT,
    )


class Help(unittest.TestCase):
    def test_each_tool_has_a_launcher_and_each_launcher_a_tool(self) -> None:
        launchers = [it.name for it in scripts() if is_launcher(it)]
        self.assertEqual(sorted(launchers), modules())
        for script in scripts():
            with self.subTest(script=script.name):
                self.assertTrue(script.is_file() and os.access(script, os.X_OK))

    def test_each_script_answers_with_its_text(self) -> None:
        for script in scripts():
            with self.subTest(script=str(script.relative_to(TOP))):
                said = answer(script)
                self.assertEqual(said.returncode, 0, said.stdout)
                self.assertTrue(said.stdout.startswith(text_of(script)), said.stdout)

    def test_lab_lists_the_words_and_exits_of_the_document(self) -> None:
        said = answer(TOP / "lab").stdout
        document = (TOP / "docs/SCRIPTS.md").read_text(encoding="utf-8")
        words = [form for form, _ in words_of(document)]
        exits = [number for number, _ in exits_of(document)]
        self.assertEqual([it.split()[0] for it in words], ["run", "check", "gen"])
        self.assertEqual(exits, ["0", "1", "2", "3", "4", "5", "6", "70", "71"])
        for line in words:
            self.assertIn(f"  lab {line} ", said)
        for number in exits:
            self.assertRegex(said, rf"(?m)^  {number} +\S")
