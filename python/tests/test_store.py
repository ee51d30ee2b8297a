"""Tries `Save` and `Load` with real files: names, links, rights, full disks, and runs that are cut off. As root the
tests of rights run the program as another user. What cannot be tried here, as mounts without the right to them, is told
in a line."""
import os
import resource
import shutil
import signal
import socket
import stat
import struct
import subprocess
import unittest
from pathlib import Path
from typing import Any, Callable, Dict, List, Optional, Sequence, Tuple

from labtools.common.program import path_of_program
from tests.commands import IS_ROOT, NOBODY, Room, become_nobody

SECONDS = 60
STRACE = shutil.which("strace")
SIDE_FILES = 1000
OF_ANOTHER = b"of somebody else"
HUBS = 1000

Listing = Dict[str, Tuple[int, bytes]]


def snapshot(quantum: int, hubs: int = 0) -> bytes:
    """The bytes of a laboratory of UART hubs alone, by docs/SNAPSHOTS.md."""
    names = [name_of_hub(number).encode() for number in range(hubs)]
    spelled = b"".join(b"\0" + struct.pack("<Q", len(name)) + name + bytes(4 + 8) for name in names)
    return b"LABSNAP1" + struct.pack("<QQQQ", 0, quantum, 0, hubs) + spelled + bytes(8 + 8)


def name_of_hub(number: int) -> str:
    return f"hub{number:05}"


def saves(name: str, quantum: int, hubs: int = 0) -> List[str]:
    """The lines of a script that keeps such a laboratory."""
    makes = [f'emulation CreateUARTHub "{name_of_hub(number)}"' for number in range(hubs)]
    return [*makes, f'emulation SetGlobalQuantum "0.{quantum:06}"', f"Save @{name}"]


def with_small_files() -> None:
    """No file of the run may get longer than 8 KiB."""
    resource.setrlimit(resource.RLIMIT_FSIZE, (8192, 8192))


def with_small_files_and_no_signal() -> None:
    signal.signal(signal.SIGXFSZ, signal.SIG_IGN)
    with_small_files()


class Store(Room):
    """Each test has a folder of its own with the program, and the folder `in`, where it is run."""

    def setUp(self) -> None:
        super().setUp()
        shutil.copy(path_of_program(), self.room / "lab")
        os.chmod(self.room / "lab", 0o755)
        os.chmod(self.room, 0o755)
        self.folder = self.room / "in"
        self.folder.mkdir()

    def path(self, name: str) -> Path:
        return self.folder / name

    def run_lab(
        self, lines: Sequence[str], before: Sequence[str] = (), first: Optional[Callable[[], None]] = None
    ) -> int:
        """Runs these lines, and returns the status: of a run that a signal ended, minus its number."""
        self.write("script", "".join(f"{line}\n" for line in lines))
        ran = subprocess.run(
            [*before, "../lab", "run", "../script"],
            cwd=self.folder,
            stdin=subprocess.DEVNULL,
            stdout=subprocess.PIPE,
            stderr=subprocess.STDOUT,
            timeout=SECONDS,
            preexec_fn=first,
        )
        self.assertEqual(ran.stdout, b"", lines[-1])
        return ran.returncode

    def listing(self) -> Listing:
        """What stands in the folder: of each name its kind, and the bytes of a plain file."""
        held: Listing = {}
        for path in self.folder.iterdir():
            kind = stat.S_IFMT(path.lstat().st_mode)
            held[path.name] = kind, path.read_bytes() if stat.S_ISREG(kind) else b""
        return held

    def must_keep(self, name: str, quantum: int = 7, **how: Any) -> None:
        """A `Save` succeeds, and `Load` reads the same laboratory. Everything else in the folder stays."""
        before = self.listing()
        self.assertEqual(self.run_lab(saves(name, quantum), **how), 0, name)
        self.assertEqual(self.path(name).read_bytes(), snapshot(quantum), name)
        after = self.listing()
        for it in (before, after):
            it.pop(os.path.basename(name), None)
        self.assertEqual(after, before)

    def must_fail(self, name: str, quantum: int = 7, hubs: int = 0, status: int = 6, **how: Any) -> None:
        """A `Save` ends with a status, and everything in the folder stays."""
        before = self.listing()
        self.assertEqual(self.run_lab(saves(name, quantum, hubs), **how), status, name)
        self.assertEqual(self.listing(), before)

    # Names

    def test_a_name_keeps_the_last_snapshot(self) -> None:
        for quantum in (7, 8, 9):
            self.must_keep("s", quantum)
        self.path("deep").mkdir()
        self.must_keep("deep/s")
        self.assertEqual(os.listdir(self.path("deep")), ["s"])

    def test_a_large_snapshot_is_kept_whole(self) -> None:
        self.assertEqual(self.run_lab(saves("s", 7, HUBS)), 0)
        self.assertEqual(self.listing(), {"s": (stat.S_IFREG, snapshot(7, HUBS))})

    def test_names_beside_each_other_are_all_kept(self) -> None:
        names = ["s.unfinished", "s", ".lab-0", ".lab-1", "s.unfinished.unfinished", ".lab-999", ".lab-1000"]
        for quantum, name in enumerate(names, 1):
            self.must_keep(name, quantum)
        for quantum, name in enumerate(names, 1):
            self.assertEqual(self.path(name).read_bytes(), snapshot(quantum), name)
        for quantum, name in enumerate(names, 11):
            self.must_keep(name, quantum)

    def test_names_of_up_to_255_bytes(self) -> None:
        for length in range(244, 256):
            self.must_keep("s" * length)
            self.assertEqual(self.run_lab([f"Load @{'s' * length}", "Save @again"]), 0, length)
            self.assertEqual(self.path("again").read_bytes(), snapshot(7))
        self.must_fail("s" * 256)

    def test_a_folder_that_is_not_there(self) -> None:
        self.must_fail("none/s")
        self.must_fail("s/")
        self.must_keep("s")
        self.must_fail("s/")
        self.must_fail("s/s")

    # Files of others

    def test_side_files_of_others_stay(self) -> None:
        for number in range(3):
            self.path(f".lab-{number}").write_bytes(OF_ANOTHER)
        self.path(".lab-3").mkdir()
        self.path(".lab-4").symlink_to("nowhere")
        os.mkfifo(self.path(".lab-5"))
        self.must_keep("s")
        self.must_fail("s", 8, HUBS, first=with_small_files_and_no_signal)

    def test_a_name_that_is_free_is_found_up_to_a_bound(self) -> None:
        for number in range(SIDE_FILES - 1):
            self.path(f".lab-{number}").write_bytes(OF_ANOTHER)
        self.must_keep("s")
        self.path(f".lab-{SIDE_FILES - 1}").write_bytes(OF_ANOTHER)
        self.must_fail("s", 8)

    @unittest.skipUnless(IS_ROOT, "files of another user, without root")
    def test_files_of_another_user_stay(self) -> None:
        os.chmod(self.folder, 0o777)
        for name in ("s.unfinished", ".lab-0", ".lab-1", "theirs"):
            self.path(name).write_bytes(OF_ANOTHER)
            os.chmod(self.path(name), 0o644)
        os.chmod(self.path(".lab-1"), 0o600)
        self.must_keep("s", first=become_nobody)
        self.assertEqual(self.path("s").stat().st_uid, NOBODY)
        self.must_fail("theirs", first=become_nobody)
        os.chmod(self.path("theirs"), 0o600)
        self.must_fail("theirs", first=become_nobody)

    def test_a_file_or_a_folder_that_may_not_be_written(self) -> None:
        first = become_nobody if IS_ROOT else None
        os.chmod(self.folder, 0o777)
        self.must_keep("s", first=first)
        os.chmod(self.path("s"), 0o444)
        self.must_fail("s", 8, first=first)
        os.chmod(self.path("s"), 0o644)
        self.must_keep("s", 8, first=first)
        os.chmod(self.folder, 0o555)
        self.must_fail("s", 9, first=first)
        self.must_fail("new", first=first)
        os.chmod(self.folder, 0o755)

    # Names that are no plain files

    def test_a_link_to_a_file_is_followed(self) -> None:
        self.path("deep").mkdir()
        self.path("link").symlink_to("deep/hop")
        self.path("deep/hop").symlink_to("../target")
        self.path("target").write_bytes(snapshot(5))
        self.assertEqual(self.run_lab(saves("link", 6)), 0)
        self.assertEqual(self.path("target").read_bytes(), snapshot(6))
        self.path("deep/hop").unlink()
        self.path("deep/hop").symlink_to(self.path("deep/end"))
        self.path("deep/end").write_bytes(snapshot(5))
        self.assertEqual(self.run_lab(saves("link", 8)), 0)
        self.assertEqual(self.path("deep/end").read_bytes(), snapshot(8))
        self.assertEqual(self.run_lab(["Load @link", "Save @again"]), 0)
        self.assertEqual(self.path("again").read_bytes(), snapshot(8))
        self.assertEqual(os.readlink(self.path("link")), "deep/hop")
        self.assertEqual(sorted(os.listdir(self.folder)), ["again", "deep", "link", "target"])
        self.assertEqual(sorted(os.listdir(self.path("deep"))), ["end", "hop"])

    def test_a_folder_of_a_name_may_be_a_link(self) -> None:
        self.path("deep").mkdir()
        self.path("way").symlink_to("deep")
        self.assertEqual(self.run_lab(saves("way/s", 7)), 0)
        self.assertEqual(self.path("deep/s").read_bytes(), snapshot(7))
        self.assertEqual(os.listdir(self.path("deep")), ["s"])

    def test_a_link_that_leads_nowhere(self) -> None:
        for name, target in ("nowhere", "none"), ("round", "round"):
            self.path(name).symlink_to(target)
            self.must_fail(name)

    def test_a_name_that_is_no_plain_file(self) -> None:
        self.path("folder").mkdir()
        os.mkfifo(self.path("fifo"))
        with socket.socket(socket.AF_UNIX) as server:
            here = os.getcwd()
            os.chdir(self.folder)
            server.bind("socket")
            os.chdir(here)
        names = ["folder", "fifo", "socket"]
        for name in names:
            self.path(f"to-{name}").symlink_to(name)
            self.must_fail(name)
            self.must_fail(f"to-{name}")
        for name in (".", "..", "folder/."):
            self.must_fail(name)

    @unittest.skipIf(IS_ROOT, "a device of the system, as root, who could replace it")
    def test_a_device_of_the_system(self) -> None:
        self.must_fail("/dev/null")
        self.path("to-null").symlink_to("/dev/null")
        self.must_fail("to-null")

    @unittest.skipUnless(IS_ROOT, "a device, without root")
    def test_a_device(self) -> None:
        try:
            os.mknod(self.path("device"), stat.S_IFCHR | 0o666, os.makedev(1, 3))
        except PermissionError:
            self.skipTest("a device, without the right to make one")
        self.path("to-device").symlink_to("device")
        for name in "device", "to-device":
            self.must_fail(name)

    # Disks that take no more, and runs that are cut off

    def test_a_file_that_may_not_grow(self) -> None:
        self.must_fail("new", 7, HUBS, first=with_small_files_and_no_signal)
        self.must_keep("s")
        self.must_fail("s", 8, HUBS, first=with_small_files_and_no_signal)

    def must_leave_a_side_file(self, number: int, end: int, **how: Any) -> None:
        """A run that a signal ends leaves the name as it was, and one side file."""
        before = self.listing()
        self.assertEqual(self.run_lab(saves("s", 8, HUBS), **how), -end)
        after = self.listing()
        kind, held = after.pop(f".lab-{number}")
        self.assertEqual((kind, held), (stat.S_IFREG, snapshot(8, HUBS)[: len(held)]))
        self.assertEqual(after, before)

    def test_a_run_that_is_cut_off_leaves_a_side_file(self) -> None:
        self.must_keep("s")
        self.must_leave_a_side_file(0, signal.SIGXFSZ, first=with_small_files)
        self.must_leave_a_side_file(1, signal.SIGXFSZ, first=with_small_files)
        self.must_keep("s", 9)

    def test_a_side_file_has_never_the_name_of_its_snapshot(self) -> None:
        # `.lab-0` stands for nothing yet, and would be the first side file of any other name.
        self.assertEqual(self.run_lab(saves(".lab-0", 8, HUBS), first=with_small_files), -signal.SIGXFSZ)
        held = self.listing()
        self.assertEqual(list(held), [".lab-1"])
        self.assertEqual(held[".lab-1"], (stat.S_IFREG, snapshot(8, HUBS)[: len(held[".lab-1"][1])]))

    @unittest.skipUnless(STRACE, "a run that is killed, without strace")
    def test_a_run_that_is_killed_leaves_a_side_file(self) -> None:
        self.must_keep("s")
        for number, call in enumerate(("fsync", "/^rename")):
            how = ["strace", "-qq", "-o", "../trace", "-e", f"inject={call}:signal=SIGKILL"]
            self.must_leave_a_side_file(number, signal.SIGKILL, before=how)
        self.must_keep("s", 9)

    @unittest.skipUnless(STRACE, "a disk that refuses a call, without strace")
    def test_a_disk_that_refuses_a_call(self) -> None:
        self.must_keep("s")
        for call, error in (("fsync", "EIO"), ("fsync", "ENOSPC"), ("/^rename", "EIO"), ("write", "ENOSPC")):
            how = ["strace", "-qq", "-o", "../trace", "-e", f"inject={call}:error={error}"]
            self.must_fail("s", 8, before=how)
            self.assertIn("INJECTED", (self.room / "trace").read_text(), call)
            self.must_fail("new", 8, before=how)

    def test_a_full_disk(self) -> None:
        mounts = ["unshare", "-m" if IS_ROOT else "-rm"]
        mount = 'mount -t tmpfs -o size=16k none "$PWD" && cd "$PWD"'
        if (
            shutil.which("unshare") is None
            or subprocess.run([*mounts, "sh", "-c", mount], cwd=self.folder, stderr=subprocess.DEVNULL).returncode != 0
        ):
            self.skipTest("a full disk, without the right to mount")
        self.write("small", "".join(f"{line}\n" for line in saves("s", 7)))
        self.write("large", "".join(f"{line}\n" for line in saves("s", 8, HUBS)))
        room = str(self.room)
        tries = f'{mount} && "$0/lab" run "$0/small" && {{ "$0/lab" run "$0/large"; echo $?; ls -A; cat s; }}'
        ran = subprocess.run([*mounts, "sh", "-c", tries, room], cwd=self.folder, stdout=subprocess.PIPE, check=False)
        self.assertEqual(ran.stdout, b"6\ns\n" + snapshot(7))
