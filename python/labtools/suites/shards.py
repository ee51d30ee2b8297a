"""Shares of a list of tests, each for a machine of its own, and the results of all shares as one."""
import argparse
import dataclasses
import hashlib
import heapq
import json
import pathlib
import re
from typing import Dict, List, Mapping, Sequence, Tuple
from xml.etree import ElementTree

from labtools.common import plain_files
from labtools.suites import suite_reports
from labtools.suites.suite_tests import Undone, unread

# How many bytes a file of results may have.
RESULTS_LIMIT = 2**28
WORD = re.compile(r"([1-9]\d{0,5})/([1-9]\d{0,5})", re.ASCII)


@dataclasses.dataclass(frozen=True)
class Shard:
    """The share with a number from 1 on, of so many."""

    number: int
    count: int

    def __str__(self) -> str:
        return f"{self.number}/{self.count}"


@dataclasses.dataclass(frozen=True)
class Share:
    """The tests of a shard in their order. The plan is a sum over all shards: it differs where another machine was
    given other tests, or other times."""

    shard: Shard
    tests: List[str]
    plan: str

    def properties(self, memory: int) -> Dict[str, str]:
        """What is written of it into its results, with the KB that its largest process took."""
        return {"shard": str(self.shard), "plan": self.plan, "memory_kb": str(memory)}


def shard_of(word: str) -> Shard:
    """Reads K/N."""
    match = WORD.fullmatch(word)
    if not match or int(match[1]) > int(match[2]):
        raise argparse.ArgumentTypeError(f"{word} is not K/N, with K from 1 to N")
    return Shard(int(match[1]), int(match[2]))


def groups_of(befores: Mapping[str, Sequence[str]]) -> List[List[str]]:
    """The tests in groups that stay together: those that come after one and the same script, and that script where it
    is a test. `befores` has the scripts before each test."""
    leaders: Dict[str, str] = {}

    def leader(script: str) -> str:
        while leaders.setdefault(script, script) != script:
            leaders[script] = script = leaders[leaders[script]]
        return script

    for test, scripts in befores.items():
        for script in scripts:
            leaders[leader(script)] = leader(test)
    groups: Dict[str, List[str]] = {}
    for test in befores:
        groups.setdefault(leader(test), []).append(test)
    return list(groups.values())


def shares_of(groups: Sequence[Sequence[str]], times: Mapping[str, int], count: int) -> List[List[str]]:
    """The groups in so many shares, by name: the longest group first, each to the share that is the shortest by then.
    Times are milliseconds. A test whose time is not known takes the mean of those that are."""
    known = [times[test] for group in groups for test in group if test in times]
    mean = max(sum(known) // len(known), 1) if known else 1
    sized = [(-sum(max(times.get(test, mean), 1) for test in group), sorted(group)) for group in groups]
    shares: List[List[str]] = [[] for _ in range(count)]
    lengths = [(0, number) for number in range(count)]
    for size, group in sorted(sized):
        length, number = lengths[0]
        shares[number] += group
        heapq.heapreplace(lengths, (length - size, number))
    return shares


def share_of(shard: Shard, befores: Mapping[str, Sequence[str]], times: Mapping[str, int]) -> Share:
    """The share of one machine, by the scripts before each test and the times that are known."""
    shares = shares_of(groups_of(befores), times, shard.count)
    plan = hashlib.sha256(json.dumps(shares).encode()).hexdigest()
    own = set(shares[shard.number - 1])
    return Share(shard, [test for test in befores if test in own], plan[:16])


def times_in(path: pathlib.Path) -> Dict[str, int]:
    """The milliseconds of each test by results that were kept as JUnit."""
    cases = suite_of(path).iter("testcase")
    try:
        return {case.get("file", ""): round(1000 * float(case.get("time", "0"))) for case in cases}
    except (ValueError, OverflowError) as fault:
        raise Undone(f"{path}: a time is not a number") from fault


def suite_of(path: pathlib.Path) -> ElementTree.Element:
    """The one suite of a file of results."""
    try:
        content = plain_files.content_of(path, RESULTS_LIMIT)
        # Entities may stand for more than any memory has, and no results have some.
        if b"<!DOCTYPE" in content:
            raise Undone(f"{path} has no JUnit results: it has a DOCTYPE")
        root = ElementTree.fromstring(content)
    except OSError as fault:
        raise unread(path, fault) from fault
    except (ElementTree.ParseError, ValueError, LookupError) as fault:
        raise Undone(f"{path} has no JUnit results: {fault}") from fault
    suites = [root] if root.tag == "testsuite" else root.findall("testsuite")
    if len(suites) != 1:
        raise Undone(f"{path} has no JUnit results: {len(suites)} suites instead of one")
    return suites[0]


@dataclasses.dataclass(frozen=True)
class Result:
    """What a shard has found."""

    path: pathlib.Path
    shard: Shard
    plan: str
    memory: str
    cases: List[ElementTree.Element]

    def line(self) -> str:
        """A line of what it has cost."""
        seconds = sum(suite_reports.seconds_of(case) for case in self.cases)
        return line_of(self.shard, len(self.cases), seconds, self.memory)


def line_of(shard: Shard, count: int, seconds: float, memory: str) -> str:
    return f"shard {shard}: {count} tests, {seconds:.2f} s, its largest process {memory} KB"


def result_in(path: pathlib.Path) -> Result:
    """Reads the results of a shard."""
    suite = suite_of(path)
    said = {it.get("name", ""): it.get("value", "") for it in suite.iter("property")}
    try:
        shard = shard_of(said["shard"])
    except (KeyError, argparse.ArgumentTypeError) as fault:
        raise Undone(f"{path} names no shard: --shard writes it") from fault
    return Result(path, shard, said.get("plan", ""), said.get("memory_kb", "?"), suite.findall("testcase"))


def results_in(paths: Sequence[pathlib.Path]) -> List[Result]:
    """The results of all shards of a suite, by number. Each is there once."""
    results: Dict[int, Result] = {}
    for path in paths:
        result = result_in(path)
        first = next(iter(results.values()), result)
        pair = f"{first.path} and {path}"
        if result.shard.count != first.shard.count:
            raise Undone(f"{pair} are of {first.shard.count} and of {result.shard.count} shards")
        if result.shard.number in results:
            raise Undone(f"shard {result.shard} is given twice: {results[result.shard.number].path} and {path}")
        if result.plan != first.plan:
            raise Undone(f"{pair} are shares of different lists of tests, or by different times")
        results[result.shard.number] = result
    count = first.shard.count
    missing = [str(Shard(it, count)) for it in range(1, count + 1) if it not in results]
    if missing:
        more = f" and {len(missing) - 9} more" if len(missing) > 9 else ""
        raise Undone(f"there are no results of shard {', '.join(missing[:9])}{more}")
    return [results[number] for number in sorted(results)]


def cases_of(results: Sequence[Result]) -> List[ElementTree.Element]:
    """All tests of some shards, by name."""

    def name_of(case: ElementTree.Element) -> Tuple[str, str, str]:
        return case.get("file", ""), case.get("classname", ""), case.get("name", "")

    return sorted((case for result in results for case in result.cases), key=name_of)
