"""Tries that equal accesses that repeat are shown as one line: in what tools/expect and tools/suite say of a
difference, and on the page of tools/log, which keeps none but the first. The lines were written down by hand before.
It needs no program: a stand-in prints a file.
"""
import os
import subprocess
import unittest

from labtools.common.program import TOP
from labtools.logs import folded
from tests.commands import Room

STAND_IN = '#!/bin/sh\n[ "$1" = run ] || exit 2\n[ "$2" != -- ] || shift\nexec cat "$2.prints"\n'
POLL = "[{}.{:06}] {}/sysbus: read 1 at 0x10000005"
# A difference, and what is shown of it. A line that begins with a blank stands in both logs.
DIFFERENCES = (
    (
        "accesses of a board, with what others print between them",
        """\
@@ -1,2 +1,7 @@
-[0.000001] m/u: one
+[0.000002] m/sysbus: read 1 at 0x10000005
+[0.000002] n/sysbus: read 1 at 0x10000005
+[0.000003] m/u: two
+[0.000004] m/sysbus: read 1 at 0x10000005
+[0.000004] n/sysbus: read 1 at 0x10000005
+[0.000006] m/sysbus: read 1 at 0x10000005
 [0.000006] m/u: three
""",
        """\
@@ -1,2 +1,7 @@
-[0.000001] m/u: one
+[0.000002] m/sysbus: read 1 at 0x10000005  (3 times, to 0.000006)
+[0.000002] n/sysbus: read 1 at 0x10000005  (2 times, to 0.000004)
+[0.000003] m/u: two
 [0.000006] m/u: three
""",
    ),
    (
        "another access stands between them",
        """\
+[0.000001] m/sysbus: write 4 at 0x00000000 value 0x00000001
+[0.000002] m/sysbus: write 4 at 0x00000000 value 0x00000002
+[0.000003] m/sysbus: write 4 at 0x00000000 value 0x00000001
""",
        None,
    ),
    (
        "those of one log and of the other",
        """\
-[0.000001] m/sysbus: read 2 at 0x00000000
+[0.000002] m/sysbus: read 2 at 0x00000000
 [0.000003] m/sysbus: read 2 at 0x00000000
""",
        None,
    ),
    (
        "hunks, between which lines are not shown",
        """\
@@ -1 +1,2 @@
+[0.000001] m/sysbus: read 2 at 0x00000000
@@ -9 +10,2 @@
+[0.000009] m/sysbus: read 2 at 0x00000000
""",
        None,
    ),
    (
        "what is no access: a text, and a frame",
        """\
+[0.000001] m/u: the same
+[0.000002] m/u: the same
+[0.000003] m/c: rx 123 data 0
+[0.000004] m/c: rx 123 data 0
+[0.000005] m/sysbus: read 3 at 0x00000000
+[0.000006] m/sysbus: read 3 at 0x00000000
""",
        None,
    ),
    (
        "logs without times",
        """\
+m/sysbus: read 4 at 0x0000000a
+m/sysbus: read 4 at 0x0000000a
""",
        "+m/sysbus: read 4 at 0x0000000a  (2 times)\n",
    ),
)


def flood(count: int) -> str:
    """A board that polls, each microsecond."""
    return "".join(f"{POLL.format(*divmod(n, 10**6), 'm')}\n" for n in range(1, count + 1))


class Differences(unittest.TestCase):
    maxDiff = None

    def test_equal_accesses_are_one_line(self) -> None:
        for of, given, wanted in DIFFERENCES:
            with self.subTest(of=of):
                shown = "".join(f"{line}\n" for line in folded.difference(given.splitlines()))
                self.assertEqual(shown, given if wanted is None else wanted)

    def test_no_more_rows_wait_than_are_held(self) -> None:
        """Two lines stand between the first access and the second: that is one more than may wait beside it."""
        items = ["a poll", "one", "two", "a poll", "a poll"]
        told = [(it.first, it.count) for it in folded.rows(items, lambda it: ("a", it) if "poll" in it else None, 2)]
        self.assertEqual(told, [("a poll", 1), ("one", 1), ("two", 1), ("a poll", 2)])
        told = [(it.first, it.count) for it in folded.rows(items, lambda it: ("a", it) if "poll" in it else None, 3)]
        self.assertEqual(told, [("a poll", 3), ("one", 1), ("two", 1)])


class Tools(Room):
    def setUp(self) -> None:
        super().setUp()
        self.write("lab", STAND_IN, 0o755)
        self.write("s.resc", "")
        self.environment["LAB"] = str(self.room / "lab")

    def test_a_flood_is_one_line_of_a_difference(self) -> None:
        self.put({"s.log": "[0.000001] m/u: one\n", "s.resc.prints": flood(20_000)})
        line = "+[0.000001] m/sysbus: read 1 at 0x10000005  (20000 times, to 0.020000)\n"
        for words in ("expect", "s.resc", "s.log"), ("suite", "s.resc"):
            with self.subTest(words=words):
                ran = self.ran(TOP / "tools" / words[0], *words[1:], stderr=subprocess.STDOUT)
                self.assertEqual(ran.returncode, 1, ran.stdout)
                told = ran.stdout.replace("\n  ", "\n")
                self.assertIn(f"@@ -1 +1,20000 @@\n-[0.000001] m/u: one\n{line}", told)
                self.assertLessEqual(told.count("read 1 at"), 21)

    def test_bytes_of_a_kept_log_that_are_no_text_are_shown_as_they_are(self) -> None:
        self.put({"s.log": b"\xff\xc3 a\r\n", "s.resc.prints": "b\n"})
        words = [str(TOP / "tools/expect"), "s.resc", "s.log"]
        ran = subprocess.run(words, cwd=self.room, env=self.environment, stdout=subprocess.PIPE)
        self.assertEqual((ran.returncode, ran.stdout[-22:]), (1, b"@@ -1 +1 @@\n-\xff\xc3 a\r\n+b\n"))

    def most_memory(self, count: int) -> int:
        """Returns how many KiB the tool takes to make a page of a flood."""
        self.write("a.log", flood(count))
        words = [str(TOP / "tools/log"), "--html", str(self.room / "a.html"), str(self.room / "a.log")]
        process = subprocess.Popen(words, stdout=subprocess.DEVNULL)
        _, status, usage = os.wait4(process.pid, 0)
        process.returncode = status
        self.assertEqual(status, 0)
        return int(usage.ru_maxrss)

    def test_a_page_of_a_flood_takes_no_more_memory_than_a_short_one(self) -> None:
        self.assertLess(self.most_memory(300_000) - self.most_memory(2), 8_000)
        self.assertIn('"items":[[1,2,0,0,2]]', self.read("a.html"))
