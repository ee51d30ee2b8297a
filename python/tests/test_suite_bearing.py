"""What a suite bears: files that are no plain ones, damaged ones, signals, full disks, and names that look like
something else."""
import ctypes
import fcntl
import functools
import os
import shutil
import signal
import socket
import time
from typing import Callable

from tests.suite_projects import EXPECT, SUITE, Bearing, is_ended, opened_by, wait_for

FIFO = "it is a FIFO, not a plain file"
FOLDER = "it is a folder, not a plain file"
DEVICE = "it is a device, not a plain file"


class Files(Bearing):
    """Files that are no plain ones, and damaged ones."""

    def test_what_is_no_plain_file_is_told_at_once(self) -> None:
        for name in "abcdefgh":
            self.make(name, "1\n", "1\n")
        for name in "a.resc", "b.log", "c.resc", "d.log", "e.log", "f.log", "g.resc", "h.log":
            (self.room / name).unlink()
        os.mkfifo(self.room / "a.resc")
        os.mkfifo(self.room / "b.log")
        (self.room / "c.resc").mkdir()
        (self.room / "d.log").mkdir()
        (self.room / "e.log").symlink_to("/dev/zero")
        with socket.socket(socket.AF_UNIX) as made:
            made.bind(str(self.room / "f.log"))
        (self.room / "g.resc").symlink_to("/dev/zero")
        (self.room / "h.log").symlink_to("none")
        names = {
            "a.resc": f"a.resc cannot be read: {FIFO}",
            "b.resc": f"b.log cannot be read: {FIFO}",
            "c.resc": f"c.resc cannot be read: {FOLDER}",
            "d.resc": f"d.log cannot be read: {FOLDER}",
            "e.resc": f"e.log cannot be read: {DEVICE}",
            "f.resc": "f.log cannot be read: it is a socket, not a plain file",
            "g.resc": f"g.resc cannot be read: {DEVICE}",
            "h.resc": "there is no h.log: --update keeps one",
        }
        self.errors(names)
        del names["h.resc"]
        (self.room / "h.resc").unlink()
        self.errors(names, "--update")
        self.expect(["a.resc"], 2, f"error  T s  a.resc: {names['a.resc']}\n0 passed, 1 failed\n", "")

    def test_what_comes_before_a_test_is_a_plain_file_too(self) -> None:
        os.mkfifo(self.room / "pipe")
        self.make("a", "1\n", "1\n", "# suite: after pipe\n")
        self.make("b", "1\n", "1\n", "# suite: after boot.resc\n")
        self.make("boot", None, "", "include @pipe\n")
        self.make("c", "1\n", "1\n", "# suite: after c_boot.resc\n")
        self.make("c_boot", None, "", "")
        os.mkfifo(self.room / "c_boot.sums")
        lines = f"error  T s  a.resc: pipe, before it: pipe cannot be read: {FIFO}\n"
        lines += f"error  T s  b.resc: boot.resc, before it: pipe cannot be read: {FIFO}\n"
        lines += f"error  T s  c.resc: c_boot.resc, before it: c_boot.sums cannot be read: {FIFO}\n"
        self.expect(["."], 2, f"{lines}0 passed, 3 failed\n", "suite: boot.resc is run first\n")

    def test_a_file_that_is_too_long_is_told(self) -> None:
        self.make("a", "1\n", "1\n")
        self.make("b", "1\n", "1\n")
        os.truncate(self.room / "a.resc", 2**24 + 1)
        os.truncate(self.room / "b.log", 2**40)
        cause = "b.log has more than 100000000 bytes, which --most allows a test to print"
        self.errors({"a.resc": "a.resc cannot be read: it has more than 16777216 bytes", "b.resc": cause})


def send_beside(place: int, process: int, number: int) -> None:
    """Sends a signal to one of the threads of a process that are not its main thread."""
    beside = sorted(int(it) for it in os.listdir(f"/proc/{process}/task") if int(it) != process)
    assert len(beside) > place, "a thread beside the main one"
    assert ctypes.CDLL(None).tgkill(process, beside[place], number) == 0


class Signals(Bearing):
    """Signals that end a suite."""

    def ends(self, number: int, is_ready: Callable[[int], bool], send: Callable[[int, int], None] = os.kill) -> None:
        """A suite that waits, which is known of its process, is ended by a signal, and leaves nothing behind."""
        with self.begin(".") as suite:
            wait_for(lambda: is_ready(suite.pid))
            time.sleep(0.2)
            send(suite.pid, number)
            try:
                status = suite.wait(240)
            finally:
                suite.kill()
        self.assertEqual((status, list(self.temporary.iterdir())), (130, []))

    def test_a_signal_ends_a_suite_and_its_runs(self) -> None:
        self.make("a", "1\n", "1\n")
        for number in signal.SIGTERM, signal.SIGHUP, signal.SIGINT:
            self.write("a.resc.waits", "")
            self.ends(number, lambda _: bool(self.read("a.resc.waits")))
            wait_for(lambda: is_ended(int(self.read("a.resc.waits"))))

    def test_a_signal_that_the_main_thread_does_not_hear_ends_a_suite(self) -> None:
        self.make("a", "1\n", "1\n")
        for place in range(2):
            self.write("a.resc.waits", "")
            self.ends(signal.SIGTERM, lambda _: bool(self.read("a.resc.waits")), functools.partial(send_beside, place))
            wait_for(lambda: is_ended(int(self.read("a.resc.waits"))))

    def test_a_signal_ends_a_suite_that_waits_for_another_one(self) -> None:
        self.make("a", "1\n", "1\n", "# suite: after boot.resc\n")
        self.make("boot", None, "")
        with open(self.room / "boot.sums", "a+") as record:
            fcntl.flock(record, fcntl.LOCK_EX)
            for number in signal.SIGTERM, signal.SIGHUP, signal.SIGINT:
                self.ends(number, lambda process: str(self.room / "boot.sums") in opened_by(process))

    def test_a_suite_that_is_killed_leaves_no_folder(self) -> None:
        self.make("a", "1\n", "1\n")
        self.write("a.resc.waits", "")
        with self.begin(".") as suite:
            wait_for(lambda: bool(self.read("a.resc.waits")))
            suite.kill()
        wait_for(lambda: not list(self.temporary.iterdir()))
        os.kill(int(self.read("a.resc.waits")), signal.SIGKILL)


class Damage(Bearing):
    """Words, names and files that are damaged."""

    def test_sums_that_are_none_are_told(self) -> None:
        for sums in b"\xff\xfe\n", b"release of May\n", b"0" * 64 + b"  a\0b\n", b"0" * 64 + b"  boot.resc":
            self.make("a", "1\n", "1\n", "# suite: after boot.resc\n")
            self.make("boot", None, "")
            (self.room / "boot.sums").write_bytes(sums)
            cause = "boot.sums is not a list of sums: remove it, and the script is run again"
            self.errors({"a.resc": f"boot.resc, before it: {cause}"})
            self.assertEqual((self.room / "boot.sums").read_bytes(), sums)

    def test_a_time_or_a_number_that_nobody_can_wait_for_is_refused(self) -> None:
        self.make("a", "1\n", "1\n")
        self.write("a.resc.waits", "")
        for words in ["--timeout", "1e300"], ["--timeout", "nan"], ["--most", "0"], ["--most", "9" * 5000]:
            ran = self.ran(SUITE, *words, ".")
            self.assertEqual((ran.stdout, ran.returncode, self.read("a.resc.waits")), ("", 2, ""))
            self.assertIn("usage: tools/suite [-j N] [--junit FILE]", ran.stderr)

    def test_a_name_that_the_output_cannot_encode_is_told_by_numbers(self) -> None:
        self.make("größe", "1\n", "1\n")
        self.environment["PYTHONIOENCODING"] = "ascii"
        self.finds("passed  T s  gr\\xf6\\xdfe.resc", 0)

    def test_a_zero_byte_in_a_name_is_an_error_of_its_test(self) -> None:
        self.make("a", "1\n", "1\n", "# suite: after b\0.resc\n")
        self.make("c", "1\n", "1\n")
        line = "error  T s  a.resc: it comes after b\\x00.resc, which is not there\n"
        self.expect(["."], 2, f"{line}passed  T s  c.resc\n1 passed, 1 failed\n", "")


class Keeping(Bearing):
    """Logs that are kept, also on a full disk."""

    def test_a_log_is_replaced_as_a_whole_or_not_at_all(self) -> None:
        mounts = ["unshare", "-m" if os.geteuid() == 0 else "-rm"]
        mount = 'mount -t tmpfs -o size=28k none "$PWD/disk" && cd "$PWD/disk"'
        (self.room / "disk").mkdir()
        if not shutil.which("unshare") or self.ran(*mounts, "sh", "-c", mount).returncode != 0:
            self.skipTest("a full disk, without the right to mount")
        self.make("a", None, "2\n" * 8000)
        for keeps, status in (f'"{SUITE}" --update a.resc', 2), (f'"{EXPECT}" --bless a.resc a.log', 73):
            tries = f"{mount} && cp ../a.resc* . && echo 1 >a.log && {{ {keeps} >&2; echo $?; ls -A; cat a.log; }}"
            ran = self.ran(*mounts, "sh", "-c", tries)
            self.assertEqual(ran.stdout, f"{status}\na.log\na.resc\na.resc.prints\n1\n", ran.stderr)
            self.assertIn("No space left on device", ran.stderr)

    def test_a_log_that_is_kept_has_the_rights_and_the_links_of_the_one_before(self) -> None:
        for keeps in [SUITE, "--update", "a.resc"], [EXPECT, "--bless", "a.resc", "a.log"]:
            self.make("a", None, "2\n")
            self.write("logs/a.log", "1\n")
            (self.room / "logs/a.log").chmod(0o640)
            if not (self.room / "a.log").exists():
                (self.room / "a.log").symlink_to("logs/a.log")
            self.assertEqual(self.ran(*keeps).returncode, 0)
            self.assertTrue((self.room / "a.log").is_symlink())
            self.assertEqual(self.read("logs/a.log"), "2\n")
            self.assertEqual((self.room / "logs/a.log").stat().st_mode & 0o777, 0o640)

    def test_a_log_is_no_front_of_the_new_one_at_any_time(self) -> None:
        """Whoever has opened the old log goes on reading it: its file is not written."""
        for keeps in [SUITE, "--update", "a.resc"], [EXPECT, "--bless", "a.resc", "a.log"]:
            self.make("a", "1\n", "2\n")
            with open(self.room / "a.log", encoding="ascii") as old:
                self.assertEqual(self.ran(*keeps).returncode, 0)
                self.assertEqual((old.read(), self.read("a.log")), ("1\n", "2\n"))


class Befores(Bearing):
    """Lines `# suite: ..` of many blanks, and scripts that come one after another."""

    def test_lines_of_blanks_are_read_in_a_moment(self) -> None:
        blanks = " " * 300_000
        self.make("boot", None, "")
        for text in f"#{blanks}x\n", f"# suite:{blanks}exact{blanks}\n", f"# suite: after{blanks}boot.resc\n":
            self.make("a", "1\n", "1\n", text)
            _, seconds = self.used(".")
            self.assertEqual(self.read("printed")[:6], "passed")
            self.assertLess(seconds, 20)

    def test_what_a_line_says_is_told_in_short(self) -> None:
        self.make("a", "1\n", "1\n", f"# suite: {'x' * 300_000}\n")
        says = f"`# suite:` says exact, notimes, verdict or `after SCRIPT`, and not {'x' * 200} .."
        self.finds(f"error  T s  a.resc: a.resc:1: {says}", 2)

    def test_a_platform_of_empty_lines_is_read_in_a_moment(self) -> None:
        self.make("a", None, "1\n", "mach create\nmachine LoadPlatformDescription @board.repl\n")
        self.write("board.repl", "\n" * 50_000 + "// no finisher\n")
        _, seconds = self.used("--update", "a.resc")
        self.assertEqual(self.read("printed")[:6], "passed")
        self.assertLess(seconds, 20)

    def test_a_script_before_many_is_run_once(self) -> None:
        """Each level comes after the one below by two ways, so that there are 2 to the 40th ways to the lowest."""
        for level in range(20):
            after = "".join(f"# suite: after {way}{level - 1}.resc\n" for way in "bc") if level else ""
            for name in "bc":
                self.make(f"{name}{level}", None, "", after * 2)
        self.make("a", "1\n", "1\n", "# suite: after b19.resc\n# suite: after c19.resc\n")
        order = [f"suite: {name}{level}.resc is run first\n" for level in range(20) for name in "bc"]
        ran = self.ran(SUITE, "a.resc")
        self.assertEqual((ran.returncode, sorted(ran.stderr.splitlines(True))), (0, sorted(order)))

    def chain(self, count: int) -> None:
        """Makes a test that comes after so many scripts, one after another."""
        for number in range(count):
            self.make(f"b{number}", None, "", f"# suite: after b{number - 1}.resc\n" if number else "")
        self.make("a", "1\n", "1\n", f"# suite: after b{count - 1}.resc\n")

    def test_a_hundred_scripts_may_come_one_after_another(self) -> None:
        self.chain(100)
        order = "".join(f"suite: b{number}.resc is run first\n" for number in range(100))
        self.expect(["."], 0, "passed  T s  a.resc\n1 passed, 0 failed\n", order)
        for count in 101, 1200:
            self.chain(count)
            self.errors({"a.resc": "more than 100 scripts come before it, one after another"})

    def test_the_longest_way_counts(self) -> None:
        """A script that is near by one way is far by another."""
        self.chain(100)
        self.write("a.resc", "# suite: after b50.resc\n# suite: after c.resc\n")
        self.write("c.resc", "# suite: after b99.resc\n")
        self.errors({"a.resc": "more than 100 scripts come before it, one after another"})


class Names(Bearing):
    """Names and texts that look like something else."""

    def test_a_name_forges_no_result(self) -> None:
        self.make("a\nok 2 - b", "1\n", "1\n")
        self.finds("passed  T s  a\\x0aok 2 - b.resc", 0)
        tap = "TAP version 14\n1..1\nok 1 - a\\\\x0aok 2 - b.resc\n  ---\n  duration_ms: T\n  ...\n"
        tap += "# 1 passed, 0 failed\n"
        self.expect(["--tap", "."], 0, tap, "")
        self.ran(SUITE, "--junit", "told.xml", ".")
        self.assertIn('name="a\\x0aok 2 - b" file="a\\x0aok 2 - b.resc"', self.read("told.xml"))

    def test_texts_end_no_block_of_tap(self) -> None:
        self.make("a", "1\x85...\u2028...\u2029...\n", "2\x1b[31m\n")
        told = self.ran(SUITE, "--tap", ".").stdout
        self.assertIn("\n    -1\\x85...\\u2028...\\u2029...\n    +2\\x1b[31m\n", told)
        self.assertTrue(all(sign.isprintable() or sign == "\n" for sign in told))

    def test_a_name_is_no_option(self) -> None:
        self.make("-x", "1\n", "1\n")
        self.write("stand_in", '#!/bin/sh\n[ "$1 $2 $3" = "run -- -x.resc" ] && echo 1\n')
        self.finds("passed  T s  -x.resc", 0)
        self.expect(["--", "-x.resc"], 0, "passed  T s  -x.resc\n1 passed, 0 failed\n", "")
