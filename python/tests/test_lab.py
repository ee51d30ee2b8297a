"""Tries ./lab: what it answers itself, what it says of a run that did not end well, faulty images, snapshots, and runs
by several workers."""
import pathlib
import shutil

from labtools.common.program import TOP, path_of_program
from tests.commands import SCRIPT, Packaged

# Where nobody reads on.
INTO_NOTHING = '{ sleep 0.2; "$0" "$@"; } | :; exit "${PIPESTATUS[0]}"'
INTO_SOCKET = """import socket, subprocess, sys
ours, theirs = socket.socketpair()
theirs.close()
sys.exit(subprocess.run(sys.argv[1:], stdout=ours).returncode)"""
INTO_FULL = '"$0" "$@" >/dev/full'
# Faults of images in docs/IMAGES.md: the cause, the command that loads, and what makes the image.
IMAGES = (
    ("E1 short", "LoadELF", "head -c 51 demo/poll/poll.elf"),
    ("E2 not elf", "LoadELF", "cat demo/clock/clock.hex"),
    ("E7 headers", "LoadELF", "head -c 100 demo/poll/poll.elf"),
    ("E8 segment", "LoadELF", "head -c 500 demo/poll/poll.elf"),
    ("H5 length", "LoadHEX", "head -c 300 demo/clock/clock.hex"),
    ("H2 sum", "LoadHEX", "sed '2s/97/98/' demo/clock/clock.hex"),
    ("H4 kind", "LoadHEX", "echo :00000006FA"),
    ("H5 length", "LoadHEX", "echo :0100000100FE"),
    ("H3 no end", "LoadHEX", "sed '$d' demo/clock/clock.hex"),
)
# A thread's stack is as large as `ulimit -s` says, and finds no room under `ulimit -v`.
NO_THREADS = 'ulimit -s 4000000 -v 2000000; exec "$0" "$@"'
SMALL_FILES = 'trap "" XFSZ; ulimit -f 8; exec "$0" "$@"'


class Lab(Packaged):
    def test_it_answers_without_the_program_takes_no_further_word_and_needs_an_output(self) -> None:
        said = "ended with 5: the output could not be written"
        for word in "--help", "--version", "--program":
            with self.subTest(word=word):
                self.wants(0, "", self.lab, word)
                self.assertNotIn("write error", self.wants_by_shell(5, said, INTO_FULL, self.lab, word))
                self.assertNotIn("ended with 5", self.wants_by_shell(5, "", INTO_NOTHING, self.lab, word))
                self.wants(2, f"usage: lab {word}, with no further word", self.lab, word, "x")
        self.wants(0, "  71  the program could not be proved or built", self.lab, "--help")
        self.wants(0, f"lab {(TOP / 'VERSION').read_text().strip()}", self.lab, "--version")
        self.wants(0, f"{self.room}/package/bin/lab", self.lab, "--program")

    def test_it_says_what_the_program_may_not_say(self) -> None:
        self.add_unknown_command()
        self.wants(4, f"here {self.room}.", self.lab, "run", "none.resc")
        self.wants(2, "usage: lab run", self.lab)
        self.wants(3, "error: test/s.resc:6: S1 unknown command", self.lab, "run", "test/s.resc")

    def test_it_says_nothing_where_nobody_reads_on_but_tells_of_a_full_disk(self) -> None:
        run = [self.lab, "run", "test/s.resc"]
        self.assertEqual(self.wants_by_shell(5, "", INTO_NOTHING, *run), "")
        self.assertEqual(self.wants(5, "", "python3", "-c", INTO_SOCKET, *run), "")
        self.wants_by_shell(5, "the output could not be written, as on a full disk", INTO_FULL, *run)

    def test_faults_of_images_are_those_of_the_document(self) -> None:
        for cause, loads, made in IMAGES:
            with self.subTest(made=made):
                self.wants_by_shell(0, "", f"cd '{TOP}' && {made} >'{self.room}/image'")
                lines = SCRIPT.splitlines()[:2]
                self.write("image.resc", "\n".join([*lines, f"sysbus {loads} @image", ""]))
                self.wants(3, f"error: image.resc:3: {cause}", path_of_program(), "run", "image.resc")


class Workers(Packaged):
    def test_several_print_what_one_prints_again_and_again(self) -> None:
        self.wants(0, "12 runs", TOP / "tools/stress", "12")

    def test_numbers_of_runs_and_lanes_are_from_1_on(self) -> None:
        for words in "abc", "1 0", "0", "-1", "1.5", "1 x", "08":
            self.wants(2, "tools/stress [RUNS [LANES]]", TOP / "tools/stress", *words.split())

    def test_the_program_does_all_itself_where_no_thread_can_be_started(self) -> None:
        thread = "import threading; threading.Thread().start()"
        self.wants_by_shell(1, "can't start new thread", NO_THREADS, "python3", "-c", thread)
        gen = [self.lab, "gen", "7", "4"]
        alone = self.wants(0, "", *gen)
        self.assertEqual(self.wants_by_shell(0, "", NO_THREADS, *gen, "--workers", "4"), alone)


class Snapshots(Packaged):
    def test_the_one_of_a_demo_is_made_again_with_the_same_bytes(self) -> None:
        (self.room / "demo/snapshot").mkdir(parents=True)
        for name in "hello", "hub":
            (self.room / "demo" / name).symlink_to(TOP / "demo" / name)
        shutil.copy(TOP / "demo/snapshot/boot.resc", self.room / "demo/snapshot")
        self.wants(0, "[0.000255] ping/uart: ping", self.lab, "run", "demo/snapshot/boot.resc")
        kept = self.room / "demo/snapshot/booted"
        self.assertEqual(kept.read_bytes(), (TOP / "demo/snapshot/booted").read_bytes())
        self.assertEqual(sorted(it.name for it in kept.parent.iterdir()), ["boot.resc", "booted"])
        self.wants(0, "quantum 100", TOP / "tools/snapshot", kept)
        pathlib.Path(f"{kept}.short").write_bytes(kept.read_bytes()[:100])
        self.wants(1, "ends within a value", TOP / "tools/snapshot", f"{kept}.short")

    def test_what_cannot_be_kept_or_found_is_told(self) -> None:
        self.write("save.resc", "Save @none/x\n")
        self.wants(6, "could not be kept by Save", self.lab, "run", "save.resc")
        self.wants(0, "", self.lab, "check", "save.resc")
        self.write("load.resc", "Load @none\n")
        for word in "run", "check":
            self.wants(6, f"here {self.room}.", self.lab, word, "load.resc")

    def test_one_that_finds_room_for_its_first_8_kb_alone_leaves_the_name_what_it_had(self) -> None:
        (self.room / "letters").write_bytes(b"x" * 40000)
        lines = [*SCRIPT.splitlines()[:2], "sysbus LoadBinary @letters 0x80000000", "Save @kept", ""]
        self.write("large.resc", "\n".join(lines))
        self.write("small.resc", "Save @kept\n")
        self.wants(0, "", self.lab, "run", "small.resc")
        before = (self.room / "kept").read_bytes()
        self.wants_by_shell(6, "could not be kept by Save", SMALL_FILES, self.lab, "run", "large.resc")
        self.assertEqual((self.room / "kept").read_bytes(), before)
        self.assertFalse((self.room / ".lab-0").exists())
        self.wants(0, "", self.lab, "run", "large.resc")
        self.assertNotEqual((self.room / "kept").read_bytes(), before)
