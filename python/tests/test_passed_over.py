"""Tries which tests say by a line, as ./test looks for it, what they pass over since a program is not installed, or
root may do all. Their path has bash and this Python alone."""
import importlib.util
import os
import shutil
import sys

from labdev.pythons import has_pyelftools
from labtools.common.program import TOP, path_of_program
from tests.commands import Commands

# What is passed over, and by which test.
ROWS = (
    ("whether each page is freed, without valgrind", "pages_are_freed"),
    ("the files that the program opens, without strace", "reads.Opened"),
    ("a run that is killed, without strace", "store -k is_killed"),
    ("a disk that refuses a call, without strace", "store -k refuses_a_call"),
    ("a full disk, without the right to mount", "store -k full_disk"),
    ("Servers.test_make, without make", "suite.Servers.test_make"),
    ("Servers.test_ctest, without cmake", "suite.Servers.test_ctest"),
    ("the words of the loops, without an assembler for RISC-V", "speed -k words_are_those"),
)
WITHOUT_PYELFTOOLS = (("the reports, without pyelftools", "where.Reports"),)
WITHOUT_PYYAML = (("the settings of GitHub and GitLab, without PyYAML", "pipelines.Pipelines"),)
ROWS_OF_ROOT = (
    ("a folder that may not be entered, as root, who may read all", "explain -k may_not_be_entered"),
    ("a device of the system, as root, who could replace it", "store -k device_of_the_system"),
)


class PassedOver(Commands):
    def test_a_line_says_what_is_passed_over(self) -> None:
        (self.room / "few").mkdir()
        for name, path in ("bash", str(shutil.which("bash"))), ("python3", sys.executable):
            (self.room / "few" / name).symlink_to(path)
        self.environment["LAB"] = path_of_program()
        python = str(TOP / "python")
        rows = [*ROWS, *(ROWS_OF_ROOT if os.geteuid() == 0 else ())]
        rows += () if has_pyelftools(sys.executable) else WITHOUT_PYELFTOOLS
        rows += () if importlib.util.find_spec("yaml") else WITHOUT_PYYAML
        for what, words in rows:
            with self.subTest(words=words):
                test, *rest = words.split()
                command = [sys.executable, "-m", "labdev.quiet", f"tests.test_{test}", *rest]
                said = self.wants(0, "", *command, PATH=f"{self.room}/few", PYTHONPATH=python)
                self.assertEqual(said, f"passed over: {what}\n")
