"""Tries that the scripts of tools/ tell in a line what is wrong with their words and files, or that what they print
cannot be written, and end with the status that their heads say. The lines were written down by hand beforehand. It
needs no program: a stand-in does nothing."""
import os
import shutil
import signal
import subprocess
import sys

from labtools.common.program import TOP
from tests import tools
from tests.commands import Commands

CRATES = "[--chain | --heads | --others | --above NAME .. | --below NAME ..]"
BUILD = "[LANES] | --unproved [--out FILE]"
# The words of a command, its status and its line, where no program is there. COUNT, FIRST and LANES are numbers from 1.
WORDS = (
    ("mangle abc", 2, "abc is not a number from 1 to 999999999; usage: tools/mangle [COUNT [SEED]]"),
    ("mangle -1", 2, "-1 is not a number from 1 to 999999999; usage: tools/mangle [COUNT [SEED]]"),
    ("mangle 0", 2, "0 is not a number from 1 to 999999999; usage: tools/mangle [COUNT [SEED]]"),
    ("mangle 1000000000", 2, "1000000000 is not a number from 1 to 999999999; usage: tools/mangle [COUNT [SEED]]"),
    ("mangle 1 2 3", 2, "wrong arguments; usage: tools/mangle [COUNT [SEED]]"),
    ("starve abc", 2, "abc is not a number from 1 to 999999999; usage: tools/starve [FIRST]"),
    ("starve -1", 2, "-1 is not a number from 1 to 999999999; usage: tools/starve [FIRST]"),
    ("starve x y", 2, "wrong arguments; usage: tools/starve [FIRST]"),
    ("build 99999999999999999", 2, f"99999999999999999 is not a number from 1 to 999; usage: tools/build {BUILD}"),
    ("build 1000", 2, f"1000 is not a number from 1 to 999; usage: tools/build {BUILD}"),
    ("build x", 2, f"x is not a number from 1 to 999; usage: tools/build {BUILD}"),
    ("build 1 2", 2, f"wrong arguments; usage: tools/build {BUILD}"),
    ("build --unproved --out", 2, f"wrong arguments; usage: tools/build {BUILD}"),
    (f"build --unproved --out {TOP}/bin/x", 2, f"{TOP}/bin/x is in bin/, where only proved programs are"),
    ("edges x", 2, "wrong arguments; usage: tools/edges [--limits]"),
    ("edges --limit", 2, "wrong arguments; usage: tools/edges [--limits]"),
    ("edges --limits x", 2, "wrong arguments; usage: tools/edges [--limits]"),
    ("cuts x", 2, "wrong arguments; usage: tools/cuts"),
    ("costs nosuch", 2, "no name has the word nosuch; usage: tools/costs [WORD ..]"),
    ("costs hubs nosuch", 2, "no name has the word nosuch; usage: tools/costs [WORD ..]"),
    ("crates x", 2, f"wrong arguments; usage: tools/crates {CRATES}"),
    ("crates --heads x", 2, f"wrong arguments; usage: tools/crates {CRATES}"),
    ("crates --above", 2, f"wrong arguments; usage: tools/crates {CRATES}"),
    ("crates --below lab_num none", 2, "crates.txt has no crate none"),
    ("recipes none.md", 2, "none.md: No such file or directory"),
    ("recipes page.md none.md", 2, "none.md: No such file or directory"),
    ("recipes .", 2, ".: Is a directory"),
    ("recipes bytes.md", 2, "bytes.md: it is not UTF-8"),
    ("edges", 2, "/none/lab is not a program that can be run"),
    ("edges --limits", 2, "/none/lab is not a program that can be run"),
    ("cuts", 2, "/none/lab is not a program that can be run"),
    ("mangle 1", 2, "/none/lab is not a program that can be run"),
    ("costs hubs", 2, "/none/lab is not a program that can be run"),
    ("starve 1", 2, "/none/lab is not a program that can be run"),
    ("recipes page.md", 2, "/none/lab is not a program that can be run"),
    ("workers gen", 2, "/none/lab is not a program that can be run"),
    ("speed gen/1", 2, "/none/lab is not a program that can be run"),
    ("workers --lab /none/x", 2, "/none/x is not a program that can be run"),
    ("speed --lab /none/x", 2, "/none/x is not a program that can be run"),
    ("workers --lab page.md", 2, "ROOM/page.md is not a program that can be run"),
    ("log --trace none.log", 1, "[Errno 2] No such file or directory: 'none.log'"),
)
# The words of a command that prints something, and its status where that cannot be written.
PRINTING = (
    ("where kept", 1),
    ("where --json kept", 1),
    ("reads s.resc", 1),
    ("reads --json s.resc", 1),
    ("snapshot kept", 1),
    ("crates", 1),
    ("crates --chain", 1),
    ("crates --heads", 1),
    ("speed --list", 1),
    ("workers --list", 1),
    ("log --trace a.log", 1),
    ("log --help", 1),
    ("build --help", 1),
    ("cuts --help", 1),
    ("recipes --help", 1),
    ("explain --help", 1),
    ("package --help", 1),
    ("expect --help", 73),
    ("suite --help", 2),
)
FULL = "[Errno 28] No space left on device"
CLOSED = "[Errno 9] Bad file descriptor"
# A laboratory without boards, at its beginning, whose quantum is 100 microseconds (docs/SNAPSHOTS.md).
KEPT = b"LABSNAP1" + bytes(8) + (100).to_bytes(8, "little") + bytes(4 * 8)
COMMENT = "# A page\n\n<!-- do -->\nNo block is here.\n"


class Words(Commands):
    def setUp(self) -> None:
        super().setUp()
        held = {"kept": KEPT, "s.resc": b"", "a.log": b"[0.000001] m/u: one\n", "bytes.md": b"\xff\n", "page.md": b""}
        for name, data in {**held, "comment.md": COMMENT.encode()}.items():
            (self.room / name).write_bytes(data)
        # So that no script begins anything, whatever it makes of its words.
        (self.room / "bin").mkdir()
        for name in "rt", "valgrind", "lab":
            (self.room / "bin" / name).symlink_to(str(shutil.which("false")))
        path = f"{self.room}/bin:{os.environ['PATH']}"
        self.environment.update({"LAB": "/none/lab", "PATH": path, "LC_ALL": "C"})

    def ended(self, words: str, buffered: bool = True, output: int = subprocess.PIPE, **settings: str) -> int:
        """Calls a script, and returns its status. Its output may be closed, by `tools.CLOSED`."""
        script, *rest = words.split()
        env = {**self.environment, **settings}
        ran = tools.call(TOP / "tools" / script, *rest, cwd=self.room, env=env, stdout=output, is_buffered=buffered)
        self.printed, self.told = ran.stdout, ran.stderr
        return ran.returncode

    def test_a_line_says_what_is_wrong(self) -> None:
        for words, status, line in WORDS:
            with self.subTest(words=words):
                ended = self.ended(words)
                wanted = f"tools/{words.split()[0]}: {line}\n".replace("ROOM", str(self.room))
                self.assertEqual((ended, self.printed, self.told), (status, "", wanted))

    def test_a_comment_without_a_block_is_told_with_its_line(self) -> None:
        ended = self.ended("recipes comment.md", LAB=str(self.room / "bin/lab"))
        line = f"{os.path.relpath(self.room / 'comment.md', TOP)}:3: no block follows the comment\n"
        self.assertEqual((ended, self.printed, self.told), (1, line, ""))

    def test_an_output_that_is_full_is_told(self) -> None:
        for words, status in PRINTING:
            for buffered in True, False:
                with self.subTest(words=words, buffered=buffered), open("/dev/full", "wb") as full:
                    ended = self.ended(words, buffered=buffered, output=full.fileno())
                    self.assertEqual((ended, self.told), (status, f"tools/{words.split()[0]}: {FULL}\n"))

    def test_a_suite_tells_that_its_results_cannot_be_written(self) -> None:
        lab = str(self.room / "bin/lab")
        (self.room / "s.log").write_bytes(b"one\n")
        for buffered in True, False:
            with self.subTest(buffered=buffered), open("/dev/full", "wb") as full:
                ended = self.ended("suite s.resc", buffered, full.fileno(), LAB=lab)
                self.assertEqual((ended, self.told), (2, f"suite: {FULL}\n"))
        ended = self.ended("suite s.resc", output=tools.CLOSED, LAB=lab)
        self.assertEqual((ended, self.told), (2, f"suite: {CLOSED}\n"))

    def test_an_output_that_is_closed_is_told(self) -> None:
        for words, status in PRINTING:
            with self.subTest(words=words):
                ended = self.ended(words, output=tools.CLOSED)
                self.assertEqual((ended, self.told), (status, f"tools/{words.split()[0]}: {CLOSED}\n"))

    def test_the_names_of_the_tests_are_printed_as_far_as_someone_reads(self) -> None:
        command = [sys.executable, str(TOP / "test"), "--list"]
        reader, writer = os.pipe()
        os.close(reader)
        ran = subprocess.run(command, stdout=writer, stderr=subprocess.PIPE, text=True, timeout=60, check=False)
        os.close(writer)
        self.assertEqual((ran.returncode, ran.stderr), (-signal.SIGPIPE, ""))
        with open("/dev/full", "wb") as full:
            ran = subprocess.run(command, stdout=full, stderr=subprocess.PIPE, text=True, timeout=60, check=False)
        self.assertEqual((ran.returncode, ran.stderr), (1, f"test: {FULL}\n"))

    def test_it_ends_in_silence_where_nobody_reads_on(self) -> None:
        for words, _ in PRINTING:
            reader, writer = os.pipe()
            os.close(reader)
            with self.subTest(words=words):
                ended = self.ended(words, output=writer)
                self.assertEqual((ended, self.told), (-signal.SIGPIPE, ""))
            os.close(writer)
