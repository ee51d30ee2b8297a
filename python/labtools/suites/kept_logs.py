"""What a log says of a test, and how it differs from the log that was kept of it. A log is a file that is open: it is
read from its beginning, a line or a part at a time, and is never held as a whole."""
import itertools
import os
import pathlib
import re
import subprocess
import tempfile
from collections import Counter, deque
from typing import BinaryIO, Deque, Iterator, List, Optional, Tuple, cast

from labtools.logs import folded, log_lines

LINE = re.compile(rb"\[\d+\.\d{6}\] ((?:pause )?([\w-]+/\w+): .*)", re.DOTALL)
VERDICT = re.compile(r"\[\d+\.\d{6}\] pause [\w-]+/\w+: (pass|fail \d+)")

# A longer line, which lab never prints, is taken for several.
LONGEST = 2**16
PART = 2**20
# How many lines a difference has before the first that differs, as those of `diff -u` have.
BEFORE = 3
# How many bytes of each log are compared from there on, and how many signs of a difference are told.
COMPARED = 2**20
TOLD = 2**16
# How many lines of a log's end are told, and how many bytes at most.
LAST = 20
TAIL = 2**14


def text_of(log: bytes) -> str:
    """The text of a log. Bytes that are no UTF-8, which lab never prints, become `\\xNN`."""
    return log.decode("utf-8", "backslashreplace")


def lines_of(log: str) -> List[str]:
    """The lines of a text, without their ends."""
    lines = log.split("\n")
    return lines if lines[-1] else lines[:-1]


def lines_in(log: BinaryIO) -> Iterator[bytes]:
    """The lines of a log, with their ends."""
    log.seek(0)
    return iter(lambda: log.readline(LONGEST), b"")


def size_of(log: BinaryIO) -> int:
    return log.seek(0, os.SEEK_END)


def verdicts_in(log: BinaryIO) -> Iterator[str]:
    """The lines by which finishers say how a test has ended."""
    for line in lines_in(log):
        if b"] pause " in line:
            text = text_of(line).rstrip("\n")
            if VERDICT.fullmatch(text):
                yield text


def has_verdict(log: BinaryIO) -> bool:
    return next(verdicts_in(log), None) is not None


def failures_in(log: BinaryIO) -> Iterator[str]:
    """The lines by which finishers say that a test has failed."""
    return (line for line in verdicts_in(log) if not line.endswith(": pass"))


def new_failure(kept: Optional[BinaryIO], printed: BinaryIO) -> Optional[str]:
    """The first line that says that a test has failed and is not in the kept log, which may be none."""
    failure = next(failures_in(printed), None)
    if failure is None or kept is None:
        return failure
    known = set(failures_in(kept))
    return next((line for line in failures_in(printed) if line not in known), None)


def without_times(log: BinaryIO) -> BinaryIO:
    """The lines of each device in their order, without their times, one device after the other by name. What no device
    has printed, such as the answer of `cpu PC`, comes first."""
    with tempfile.TemporaryFile() as by_device:
        words = ["sort", "-s", "-t", "\t", "-k", "1,1", "-S", "16M", "-T", tempfile.gettempdir()]
        plain = {**os.environ, "LC_ALL": "C"}
        with subprocess.Popen(words, stdin=subprocess.PIPE, stdout=by_device, env=plain) as process:
            assert process.stdin is not None
            process.stdin.writelines(map(by_its_device, lines_in(log)))
        os.lseek(by_device.fileno(), 0, os.SEEK_SET)
        bare = cast(BinaryIO, tempfile.TemporaryFile())
        cut = subprocess.run(["cut", "-f", "2-"], stdin=by_device, stdout=bare, check=False)
    if process.returncode != 0 or cut.returncode != 0:
        raise OSError("a log could not be sorted by its devices")
    return bare


def by_its_device(line: bytes) -> bytes:
    """A line without its time, behind the name of its device and a tab."""
    told = LINE.fullmatch(line)
    return b"%s\t%s" % (told[2], told[1]) if told else b"\t" + line


def are_equal(kept: BinaryIO, printed: BinaryIO) -> bool:
    """Whether two logs are the same, byte for byte."""
    if size_of(kept) != size_of(printed):
        return False
    kept.seek(0)
    printed.seek(0)
    return all(iter(lambda: same_part(kept, printed), None))


def same_part(kept: BinaryIO, printed: BinaryIO) -> Optional[bool]:
    """Whether the next parts are the same; nothing where both are at their end."""
    one, other = kept.read(PART), printed.read(PART)
    return one == other if one or other else None


def differ_by_times(kept: BinaryIO, printed: BinaryIO) -> bool:
    """Whether two logs that are not equal have other times, and nothing else that differs."""
    if ends_a_line(kept) != ends_a_line(printed):
        return False
    with without_times(kept) as one, without_times(printed) as other:
        return are_equal(one, other)


def ends_a_line(log: BinaryIO) -> bool:
    """Whether the last byte of a log is a line feed."""
    log.seek(max(size_of(log) - 1, 0))
    return log.read() == b"\n"


def first_shown(kept: BinaryIO, printed: BinaryIO) -> Tuple[int, int]:
    """Where a difference of two logs begins, some lines before the first that differs: its byte, and how many lines
    stand before that."""
    begins: Deque[int] = deque([0], BEFORE + 1)
    count = 0
    for count, (one, other) in enumerate(itertools.zip_longest(lines_in(kept), lines_in(printed))):
        if one != other:
            break
        begins.append(begins[-1] + len(one or b""))
    return begins[0], count - len(begins) + 1


def compared(log: BinaryIO, begin: int) -> Tuple[bytes, bool]:
    """The whole lines of a log from a byte on that are compared, and whether these are all."""
    log.seek(begin)
    part = log.read(COMPARED)
    if not log.read(1):
        return part, True
    return part[: part.rfind(b"\n") + 1] or part, False


def difference(kept_name: str, kept: BinaryIO, printed_name: str, printed: BinaryIO) -> str:
    """The differences of two logs, as `diff -u` prints them, up to a length; empty where there are none."""
    if are_equal(kept, printed):
        return ""
    begin, before = first_shown(kept, printed)
    (one, is_whole), (other, is_other_whole) = compared(kept, begin), compared(printed, begin)
    told = moved(printed_difference(kept_name, one, printed_name, other), before)
    if not (is_whole and is_other_whole):
        told = f"{without_last(told)}.. only {COMPARED} bytes from there on were compared\n"
    return shortened(told)


def printed_difference(kept_name: str, kept: bytes, printed_name: str, printed: bytes) -> str:
    """What `diff -u` prints of two texts, with equal accesses folded."""
    with tempfile.TemporaryDirectory(prefix="lab-diff-") as room:
        files = [pathlib.Path(room, name) for name in ("kept", "printed")]
        for file, text in zip(files, (kept, printed)):
            file.write_bytes(text)
        words = ["diff", "-a", "-u", "--label", kept_name, "--label", printed_name, *map(str, files)]
        told = text_of(subprocess.run(words, stdout=subprocess.PIPE, check=False).stdout)
    return "".join(f"{line}\n" for line in folded.difference(lines_of(told)))


def moved(told: str, count: int) -> str:
    """A difference of texts that so many lines stand before, with the numbers that their lines have then."""
    head = re.compile(r"^@@ -(\d+)(\S*) \+(\d+)(\S*) @@", re.MULTILINE)
    return head.sub(lambda it: f"@@ -{int(it[1]) + count}{it[2]} +{int(it[3]) + count}{it[4]} @@", told)


def without_last(told: str) -> str:
    """A difference without its last part, where it has several: texts that were cut differ at their ends."""
    others = told.rpartition("\n@@ ")[0]
    return f"{others}\n" if "\n@@ " in others else told


def shortened(told: str) -> str:
    """The first lines of a difference."""
    if len(told) <= TOLD:
        return told
    cut = told.rfind("\n", 0, TOLD) + 1 or TOLD
    return f"{told[:cut]}.. and {told.count(chr(10), cut)} lines more\n"


def last_lines(log: BinaryIO, count: int = LAST) -> str:
    """The last lines of a log, up to a length."""
    log.seek(max(size_of(log) - TAIL, 0))
    lines = lines_of(text_of(log.read()))
    return "".join(f"{line}\n" for line in lines[-count:])


def polls_nothing(log: BinaryIO) -> bool:
    """Whether a log that was cut off ends in accesses where nothing stands, each of which comes again."""
    whole = lines_of(last_lines(log, LAST + 2))[1:-1]
    lines = log_lines.read("", whole).lines
    counts = Counter((line.lane.name, line.text) for line in lines)
    return bool(lines) and all(line.lane.kind == "bus" for line in lines) and min(counts.values()) > 1
