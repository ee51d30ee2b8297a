"""Reads and replaces files of a project, whatever stands at their paths: nothing here waits for the other end of a
pipe, no device is read, and no more than was asked for. What cannot be done is an OSError, whose `strerror` says
why."""
import contextlib
import errno
import os
import pathlib
import secrets
import shutil
import stat
import threading
from typing import BinaryIO, Iterator

NOT_PLAIN = (
    (stat.S_ISDIR, "a folder"),
    (stat.S_ISFIFO, "a FIFO"),
    (stat.S_ISSOCK, "a socket"),
    (stat.S_ISCHR, "a device"),
    (stat.S_ISBLK, "a device"),
)

# Who holds this keeps files from being replaced: whoever ends the process takes it before, so that none is cut short.
REPLACING = threading.Lock()


def check(status: os.stat_result) -> None:
    """Refuses what is no plain file."""
    for is_so, kind in NOT_PLAIN:
        if is_so(status.st_mode):
            raise OSError(errno.EINVAL, f"it is {kind}, not a plain file")


@contextlib.contextmanager
def opened(path: pathlib.Path, flags: int = os.O_RDONLY) -> Iterator[BinaryIO]:
    """Opens a plain file. It is looked at before it is opened, since that alone may change a device, and once more
    after, since it may be another one by then."""
    with contextlib.suppress(FileNotFoundError):
        check(os.stat(path))
    handle = os.open(path, flags | os.O_NONBLOCK | os.O_NOCTTY | os.O_CLOEXEC, 0o666)
    try:
        check(os.fstat(handle))
        with os.fdopen(handle, "r+b" if flags & os.O_RDWR else "rb", closefd=False) as file:
            yield file
    finally:
        os.close(handle)


def content_of(path: pathlib.Path, most: int) -> bytes:
    """Returns the bytes of a plain file that has at most so many."""
    with opened(path) as file:
        content = file.read(most + 1)
    if len(content) > most:
        raise OSError(errno.EFBIG, f"it has more than {most} bytes")
    return content


def replace(path: pathlib.Path, source: BinaryIO) -> None:
    """Puts what the source has in the place of a file: the old file stands there, or the new one, and each is whole,
    also where the disk is full or the machine stops. A link stays, and its target is replaced."""
    path = pathlib.Path(os.path.realpath(path))
    beside = path.parent / f".lab-kept-{secrets.token_hex(8)}"
    with REPLACING:
        try:
            with open(beside, "xb") as file:
                with contextlib.suppress(FileNotFoundError):
                    os.fchmod(file.fileno(), stat.S_IMODE(os.stat(path).st_mode))
                source.seek(0)
                shutil.copyfileobj(source, file)
                file.flush()
                os.fsync(file.fileno())
            os.replace(beside, path)
        except BaseException:
            with contextlib.suppress(FileNotFoundError):
                beside.unlink()
            raise
        make_safe(path.parent)


def make_safe(folder: pathlib.Path) -> None:
    """Writes to the disk that a file has its name now, where the file system can do so."""
    handle = os.open(folder, os.O_RDONLY | os.O_DIRECTORY | os.O_CLOEXEC)
    with contextlib.suppress(OSError):
        os.fsync(handle)
    os.close(handle)
