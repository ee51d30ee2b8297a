"""Tries tools/speed: that its workloads run what they say, and what it makes of counts that a stand-in for valgrind has
made up. Without binutils for RISC-V the words of its loops are not compared with what an assembler gives, and a line
says so."""
import json
import os
import pathlib
import re
import subprocess
import sys
import tempfile
import unittest
from typing import Tuple

from labdev import speed_loads, trials
from labtools.boards import machine, snapshot
from labtools.common.program import TOP, path_of_program
from tests.commands import Room

# What stands in for valgrind: a run has 5,000,000 machine instructions and 7,350 for each microsecond, and prints two
# bytes for each; `gen` has 148,000,000 and prints nothing.
VALGRIND = r"""#!/bin/sh
micros=0
count=148000000
if [ "$4" != gen ]; then
  while read -r _ kind length; do
    if [ "$kind" = RunFor ]; then
      fraction=${length#*.} && micros=$((1${fraction%?} - 1000000))
    fi
  done < "$5"
  count=$((5000000 + 7350 * micros))
fi
printf '%*s' $((2 * micros)) ""
echo "==1== Collected : $count" >&2
"""


def assembler(tool: str) -> str:
    """Returns the path of a program of binutils for RISC-V, or nothing."""
    folders = [pathlib.Path(it or ".") for it in os.environ.get("PATH", "").split(os.pathsep)]
    found = [path for it in folders for path in sorted(it.glob(f"riscv*-{tool}")) if os.access(path, os.X_OK)]
    return str(found[0]) if found else ""


def run_lab(run: speed_loads.Run, *more: str) -> Tuple[int, str]:
    """Makes a run with further lines before and after its last one, and returns how it ends and what it prints."""
    with tempfile.TemporaryDirectory(prefix="lab-tests-speed-") as room:
        trials.put(room, run.files)
        with (pathlib.Path(room) / "s.resc").open("a") as script:
            script.writelines(f"{line}\n" for line in more)
        ran = subprocess.run([path_of_program(), *run.words], cwd=room, capture_output=True, text=True, timeout=60)
        return ran.returncode, ran.stdout


def shown(run: speed_loads.Run) -> speed_loads.Run:
    """Returns the run with the UART of each board shown."""
    script = re.sub(rb"(connector .*\n)", rb"\1showAnalyzer uart\n", run.files["s.resc"])
    return speed_loads.Run(run.words, {**run.files, "s.resc": script}, run.units)


class Workloads(unittest.TestCase):
    def test_the_words_are_those_of_an_assembler(self) -> None:
        assemble, copy = assembler("as"), assembler("objcopy")
        if not (assemble and copy):
            self.skipTest("the words of the loops, without an assembler for RISC-V")
        for name, lines in speed_loads.listings().items():
            with self.subTest(name=name), tempfile.TemporaryDirectory(prefix="lab-tests-speed-") as room:
                march = "rv32imac_zicsr" if name.endswith("/half") else "rv32ima_zicsr"
                text = [re.sub(r"^ +[0-9a-f]+ +", "", line) for line in lines]
                (pathlib.Path(room) / "s").write_text(".option norelax\n" + "\n".join(text) + "\n")
                words = [assemble, f"-march={march}", "-mabi=ilp32", "-o", "o", "s"]
                subprocess.run(words, cwd=room, check=True)
                subprocess.run([copy, "-O", "binary", "o", "b"], cwd=room, check=True)
                image = (pathlib.Path(room) / "b").read_bytes()
                self.assertEqual(image, speed_loads.programs()[name].image)

    def test_a_loop_of_words_is_parted_where_it_begins(self) -> None:
        lines = ["    00000097  auipc x1, 0", "loop:", ".rept 2", "    a009  c.j .+2", ".endr", "    bfcd  c.j loop"]
        program = speed_loads.program_of(lines)
        self.assertEqual(program.image.hex(), "97000000" "09a0" "09a0" "cdbf")
        self.assertEqual([program.place_after(slots) for slots in range(6)], [0, 4, 6, 8, 4, 6])

    def test_each_loop_stands_where_so_many_slots_lead(self) -> None:
        for load in speed_loads.loops():
            kind, name = load.name.split("/")
            form = speed_loads.FORMS[name]
            with self.subTest(load=load.name):
                run = load.run(3)
                status, log = run_lab(run, *(f"cpu{hart} PC" for hart in range(form.harts)))
                self.assertEqual((status, run.units), (0, 300 * form.harts))
                places = [int(line, 16) - start for line, start in zip(log.splitlines(), form.starts)]
                self.assertEqual(len(places), form.harts, log)
                if form.is_wired or kind in speed_loads.JUMPING:
                    self.assertTrue(all(0 <= it < len(run.files["program"]) for it in places), places)
                else:
                    program = speed_loads.programs()[f"{kind}/half" if name == "half" else kind]
                    self.assertEqual(places, [program.place_after(300)] * form.harts)

    def test_a_timer_interrupts_a_wired_board(self) -> None:
        # Register 28 has the time of the next interrupt: 100 at first, and at that time the handler makes it 200.
        for micros, time in (90, 100), (110, 200):
            run = speed_loads.loop("additions", "wired").run(micros)
            with tempfile.TemporaryDirectory(prefix="lab-tests-speed-") as room:
                kept = pathlib.Path(room) / "kept"
                self.assertEqual(run_lab(run, f"Save @{kept}"), (0, ""))
                held = snapshot.read(kept.read_bytes())[0]
            board = machine.machine_of(held["boards"][0], held["time"])
            self.assertIsNotNone(board)
            self.assertEqual(board and board.harts[0].registers[28], time)

    def test_sixteen_boards_send_as_many_bytes_as_are_counted(self) -> None:
        # 2 instructions, then 15 bytes in 16: of 48 slots the slots 2 to 16, 18 to 32 and 34 to 47 send.
        self.assertEqual(speed_loads.sent_in(48), 44)
        for name in "one-hub", "pairs", "delay":
            with self.subTest(name=name):
                [load] = speed_loads.chosen([f"posts/{name}"])
                run = load.run(1)
                status, log = run_lab(shown(run))
                self.assertEqual((status, run.units, log.count("U")), (0, 16 * 14, 16 * 14))

    def test_boards_of_short_rounds_run_wait_or_are_halted(self) -> None:
        for name, place in ("busy", 8), ("waiting", None), ("halted", 0):
            with self.subTest(name=name):
                [load] = speed_loads.chosen([f"rounds/{name}"])
                run = load.run(18)
                # 18 slots of `jumps` are the first instruction, the sixteen of the loop, and one of it.
                status, log = run_lab(run, "mach set m3", "cpu0 PC")
                self.assertEqual((status, run.units), (0, 16 * 18))
                if place is not None:
                    self.assertEqual(log, f"0x{0x80000000 + place:08x}\n")

    def test_lines_are_printed(self) -> None:
        [short], [long] = speed_loads.chosen(["letters"]), speed_loads.chosen(["lines"])
        # A line feed at slots 4, 7, ..: below 100 there are 32, below 200 there are 66, below 300 there are 99.
        lines = [f"[0.00000{time}] m0/uart: A\n" for time, count in ((0, 32), (1, 34), (2, 33)) for _ in range(count)]
        self.assertEqual(run_lab(short.run(3)), (0, "".join(lines)))
        self.assertEqual(run_lab(long.run(3))[1].splitlines()[0], f"[0.000000] m0/uart: {'A' * 30}")


class Tables(Room):
    def stand_in(self, text: str) -> None:
        self.write("valgrind", text, 0o755)

    def speed(self, *words: str) -> Tuple[int, str, str]:
        # The stand-in for valgrind runs no program; it has to be one all the same.
        env = {**self.environment, "PATH": str(self.room), "LAB": sys.executable}
        ran = self.ran(TOP / "tools/speed", *words, env=env)
        return ran.returncode, ran.stdout, ran.stderr

    def test_counts_are_parted_by_the_work_between_two_lengths(self) -> None:
        self.stand_in(VALGRIND)
        # A microsecond has 100 slots of a processor, 16 rounds of a board, and 2 bytes of log; posts/pairs has 96,000
        # between its two lengths, 400 microseconds apart.
        words = "jumps/plain jumps/two memory/plain gen/1 rounds/busy posts/pairs print/letters".split()
        expected = """| Machine instructions a slot | plain | two |
|---|---|---|
| `jumps` | 73.5 | 36.8 |
| `memory` | 73.5 | |

| Laboratory | Machine instructions | for a |
|---|---|---|
| `gen/1` | 148 | slot |
| `rounds/busy` | 459 | board and round |
| `posts/pairs` | 30.6 | post |
| `print/letters` | 3675 | byte of log |
"""
        status, text, told = self.speed(*words)
        self.assertEqual((status, text), (0, expected), told)
        self.assertEqual(told.splitlines()[0], "jumps/plain 73.50 a slot")

    def test_counts_are_kept_and_compared(self) -> None:
        self.stand_in(VALGRIND)
        self.assertEqual(self.speed("--keep", "kept", "gen/1", "jumps/plain")[0], 0)
        self.assertEqual(json.loads(self.read("kept")), {"jumps/plain": 73.5, "gen/1": 148.0})
        self.write("earlier", '{"jumps/plain": 98.0}')
        text = self.speed("--against", "earlier", "gen/1", "jumps/plain")[1]
        self.assertIn("| `jumps` | 73.5 (98.0, -25.0 %) |\n", text)
        self.assertIn("| `gen/1` | 148 | slot |\n", text)

    def test_without_valgrind_it_says_so(self) -> None:
        status, text, told = self.speed("jumps")
        self.assertEqual((status, text), (3, ""))
        self.assertIn("valgrind, which counts the instructions, is not installed", told)

    def test_a_run_that_fails_is_told(self) -> None:
        self.stand_in("#!/bin/sh\necho broken\nexit 4\n")
        status, text, told = self.speed("jumps/a")
        self.assertEqual((status, text), (1, ""))
        self.assertIn("tools/speed: jumps/a: the run ended with 4:\nbroken", told)

    def test_runs_that_print_nothing_have_no_bytes_of_a_log(self) -> None:
        self.stand_in(VALGRIND.replace("printf", ": printf"))
        status, text, told = self.speed("--keep", "kept", "gen/1", "print/lines")
        self.assertEqual((status, text), (1, ""))
        self.assertIn("print/lines: the longer run did no more work", told)
        self.assertEqual(json.loads(self.read("kept")), {"gen/1": 148.0})

    def test_words_that_are_wrong(self) -> None:
        self.stand_in(VALGRIND)
        for words in ["jump"], ["--against", "none", "gen/1"], ["--quick"]:
            with self.subTest(words=words):
                status, text, _ = self.speed(*words)
                self.assertEqual((status, text), (2, ""))

    def test_a_name_is_a_workload_a_loop_or_a_form(self) -> None:
        forms = "plain", "c", "a", "two", "four", "two-apart"
        self.assertEqual(self.speed("--list", "csr")[1].split(), [f"csr/{it}" for it in forms])
        halves = ["jumps/half", "additions/half", "memory/half", "branches/half"]
        self.assertEqual(self.speed("--list", "half", "jumps/half")[1].split(), halves)
        names = self.speed("--list")[1].split()
        self.assertEqual(len(names), len(set(names)))
