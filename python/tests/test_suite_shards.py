"""Shares of a suite for several machines: each test is in one of them, and their results are made one."""
import random
import re
import unittest
from typing import Dict, List
from xml.etree import ElementTree

from labtools.suites import shards
from tests.suite_projects import SUITE, WithStandIn

LINE = r"suite: shard {}: {} tests, \d+\.\d\d s, its largest process \d+ KB"


def random_suite(chance: random.Random) -> Dict[str, List[str]]:
    """The scripts before each test: none, some that others have too, or other tests."""
    tests = [f"t{it}" for it in range(chance.randrange(1, 40))]
    scripts = [f"b{it}" for it in range(5)] + tests[:3]
    return {it: chance.sample(scripts, chance.choice((0, 0, 1, 2))) for it in tests}


class Law(unittest.TestCase):
    """Shares of random suites."""

    def test_each_test_is_in_one_share_beside_those_that_come_after_the_same_script(self) -> None:
        chance = random.Random(2026)
        for _ in range(500):
            befores, count = random_suite(chance), chance.randrange(1, 9)
            times = {it: chance.randrange(10**5) for it in befores if chance.random() < 0.7}
            shares = [shards.share_of(shards.Shard(it + 1, count), befores, times) for it in range(count)]
            self.assertEqual(sorted(test for share in shares for test in share.tests), sorted(befores))
            self.assertEqual(len({share.plan for share in shares}), 1)
            place = {test: share.shard.number for share in shares for test in share.tests}
            for test, scripts in befores.items():
                for other, others in befores.items():
                    if set(scripts) & {other, *others}:
                        self.assertEqual(place[test], place[other], (test, other, befores))

    def test_a_share_is_the_same_in_whatever_order_tests_are_named(self) -> None:
        chance = random.Random(7)
        for _ in range(100):
            befores = random_suite(chance)
            mixed = dict(chance.sample(list(befores.items()), len(befores)))
            one, other = (shards.share_of(shards.Shard(2, 3), it, {}) for it in (befores, mixed))
            self.assertEqual((set(one.tests), one.plan), (set(other.tests), other.plan))

    def test_shares_take_equal_times(self) -> None:
        """Of 9, 5, 4, 3, 3 and a test that takes the mean of them, 24 / 5 = 4, the longest goes to the shortest, and of
        equal ones to the first: e comes to 8 and 8."""
        times = {"a": 9, "b": 5, "c": 4, "d": 3, "e": 3}
        groups = [[it] for it in "abcdef"]
        self.assertEqual(shards.shares_of(groups, times, 3), [["a"], ["b", "d", "e"], ["c", "f"]])
        self.assertEqual(shards.shares_of(groups, {}, 3), [["a", "d"], ["b", "e"], ["c", "f"]])
        self.assertEqual(shards.shares_of([["a"]], {}, 3), [["a"], [], []])


class Shards(WithStandIn):
    """Shares of a project, and their results."""

    def setUp(self) -> None:
        super().setUp()
        for number, name in enumerate("abcde"):
            self.make(
                f"tests/{name}", "1\n", "2\n" if name == "e" else "1\n", "# suite: after boot.resc\n" * (number > 2)
            )
        self.make("boot", None, "")

    def shard(self, number: int, count: int, status: int, *words: str) -> List[str]:
        """Tries a share, keeps its results as NUMBER-COUNT.xml, and returns the names of its tests."""
        told = f"{number}-{count}.xml"
        ran = self.ran(SUITE, "--shard", f"{number}/{count}", "--junit", told, *words, "tests")
        self.assertEqual(ran.returncode, status, ran.stderr)
        names = [line.split(" s  ")[1].partition(":")[0] for line in ran.stdout.splitlines()[:-1]]
        self.assertRegex(ran.stderr.splitlines()[-1], LINE.format(f"{number}/{count}", len(names)))
        return names

    def test_shares_are_made_one(self) -> None:
        """Two tests come after one script, and are the first group as the longest; then the others by name. Where the
        first test takes nine times as long as each other, it is a share by itself."""
        self.assertEqual(self.shard(1, 3, 1), ["tests/d.resc", "tests/e.resc"])
        self.assertEqual(self.shard(2, 3, 0), ["tests/a.resc", "tests/c.resc"])
        self.assertEqual(self.shard(3, 3, 0), ["tests/b.resc"])
        lines = "".join(f"passed  T s  tests/{it}.resc\n" for it in "abcd")
        lines += "failed  T s  tests/e.resc: the log differs\n4 passed, 1 failed\n"
        self.expect(["--merge", "--junit", "all.xml", "3-3.xml", "1-3.xml", "2-3.xml"], 1, lines)
        suite = ElementTree.parse(self.room / "all.xml").getroot()
        self.assertEqual([suite.get(it) for it in ("tests", "failures", "errors")], ["5", "1", "0"])
        self.assertIn("\n+2\n", suite.findtext(".//failure", ""))
        timed = re.sub(r'time="[^"]*"', 'time="1.000"', self.read("all.xml"))
        self.write("all.xml", timed.replace('a.resc" time="1.000"', 'a.resc" time="9.000"'))
        shares = [self.shard(number, 3, status, "--times", "all.xml") for number, status in ((1, 0), (2, 1), (3, 0))]
        self.assertEqual(shares, [[f"tests/{it}.resc" for it in names] for names in ("a", "de", "bc")])

    def test_a_share_may_be_empty(self) -> None:
        self.assertEqual(self.shard(5, 5, 0), [])
        for number in 1, 2, 3, 4:
            self.shard(number, 5, number == 1)
        ran = self.ran(SUITE, "--merge", *(f"{it}-5.xml" for it in range(1, 6)))
        self.assertEqual((ran.returncode, ran.stdout.splitlines()[-1]), (1, "4 passed, 1 failed"))

    def test_results_that_are_no_whole_are_told(self) -> None:
        self.shard(1, 3, 1)
        self.shard(3, 3, 0)
        self.shard(1, 2, 1)
        self.ran(SUITE, "--junit", "whole.xml", "tests")
        self.ran(SUITE, "--shard", "2/3", "--junit", "other.xml", "tests/a.resc")
        self.write("none.xml", "<testsuites/>")
        self.write("entity.xml", '<!DOCTYPE a [<!ENTITY b "c">]><testsuite>&b;</testsuite>')
        self.write("cut.xml", self.read("1-3.xml")[:300])
        for words, told in {
            ("1-3.xml",): "there are no results of shard 2/3, 3/3",
            ("1-3.xml", "3-3.xml", "1-3.xml"): "shard 1/3 is given twice: 1-3.xml and 1-3.xml",
            ("1-3.xml", "1-2.xml"): "1-3.xml and 1-2.xml are of 3 and of 2 shards",
            (
                "1-3.xml",
                "other.xml",
            ): "1-3.xml and other.xml are shares of different lists of tests, or by different times",
            ("whole.xml",): "whole.xml names no shard: --shard writes it",
            ("none.xml",): "none.xml has no JUnit results: 0 suites instead of one",
            ("entity.xml",): "entity.xml has no JUnit results: it has a DOCTYPE",
            ("missing.xml",): "missing.xml cannot be read: No such file or directory",
            ("tests",): "tests cannot be read: it is a folder, not a plain file",
        }.items():
            self.expect(["--merge", *words], 2, "", f"suite: {told}\n")
        self.assertIn("suite: cut.xml has no JUnit results: ", self.ran(SUITE, "--merge", "cut.xml").stderr)

    def test_wrong_words_are_told(self) -> None:
        for words, told in {
            ("--shard", "4/3", "."): "4/3 is not K/N, with K from 1 to N",
            ("--shard", "0/3", "."): "0/3 is not K/N, with K from 1 to N",
            ("--shard", "1", "."): "1 is not K/N, with K from 1 to N",
            ("--times", "a.xml", "."): "--times is for --shard",
            ("--merge", "--shard", "1/3", "a.xml"): "--merge takes no --shard, --times or --update",
            ("--merge",): "which results?",
        }.items():
            ran = self.ran(SUITE, *words)
            self.assertEqual((ran.returncode, ran.stdout), (2, ""))
            self.assertIn(told, ran.stderr)
