"""Tries tools/workers: that its scripts are taken and have the boards that they say, and what it tells of runs that a
stand-in makes."""
import pathlib
import subprocess
import tempfile
import unittest

from labdev import trials, workers
from labtools.common.program import TOP, path_of_program
from tests import tools


def tell(program: str, *words: str) -> "subprocess.CompletedProcess[str]":
    """Returns what the script tells of runs of a shell program with this text."""
    with tempfile.TemporaryDirectory(prefix="lab-tests-workers-") as room:
        path = pathlib.Path(room) / "lab"
        path.write_text(f"#!/bin/sh\n{program}\n")
        path.chmod(0o755)
        return tools.call(TOP / "tools/workers", "--lab", str(path), *words)


class Runs(unittest.TestCase):
    def test_each_script_is_taken(self) -> None:
        for name, run in workers.runs().items():
            if not run.files:
                continue
            with self.subTest(name=name), tempfile.TemporaryDirectory(prefix="lab-tests-workers-") as room:
                trials.put(room, run.files)
                ended = trials.run([path_of_program(), "check", "s.resc"], room)
                self.assertEqual((ended.status, ended.printed), (0, b""))

    def test_sixteen_boards_are_there_and_the_halted_ones_come_last(self) -> None:
        runs = workers.runs()
        for name, halted in (("1ms", 0), ("two-awake", 14), ("halted", 16)):
            lines = runs[name].files["s.resc"].decode().splitlines()
            self.assertEqual(sum(line.startswith("mach create") for line in lines), 16, name)
            self.assertEqual(lines.count("cpu0 IsHalted true"), halted, name)
        lines = runs["two-awake"].files["s.resc"].decode().splitlines()
        self.assertGreater(lines.index("cpu0 IsHalted true"), lines.index('mach create "m2"'))


class Table(unittest.TestCase):
    def test_a_run_has_a_row_with_the_least_of_each_number_of_workers(self) -> None:
        # A run by one worker takes a tenth of a second, and any other two tenths.
        told = tell('[ "$5" = 1 ] && exec sleep 0.1; exec sleep 0.2', "--times", "2", "gen")
        self.assertEqual((told.returncode, told.stderr), (0, ""))
        head, line, row = told.stdout.splitlines()
        self.assertEqual(head, "| Run | 1 worker | 2 workers | 4 workers | 8 workers |")
        self.assertEqual(line, "|---|---|---|---|---|")
        cells = [cell.strip() for cell in row.strip("|").split("|")]
        self.assertEqual(cells[0], "gen")
        clocks = [float(cell.split()[0]) for cell in cells[1:]]
        self.assertTrue(clocks[0] >= 0.1 and all(clock >= 0.2 for clock in clocks[1:]), clocks)

    def test_logs_that_differ_are_told(self) -> None:
        told = tell('echo "$@"', "--times", "1", "gen")
        self.assertEqual((told.returncode, told.stderr), (1, "tools/workers: gen: its logs differ\n"))

    def test_a_run_that_fails_is_told(self) -> None:
        told = tell("echo error; exit 3", "gen")
        self.assertEqual((told.returncode, told.stderr), (1, "tools/workers: gen: it ended with 3: error\n\n"))

    def test_wrong_words_are_refused(self) -> None:
        for words in (["none"], ["--times", "0"], ["--times", "x"]):
            self.assertEqual(tell("exit 0", *words).returncode, 2, words)

    def test_the_names_are_listed(self) -> None:
        told = tell("exit 1", "--list")
        self.assertEqual(told.stdout.split(), ["1ms", "100us", "10us", "gen", "two-awake", "asleep", "halted"])
