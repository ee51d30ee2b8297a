"""Runs tests side by side: scripts whose logs were kept.

    tools/suite [-j N] [--junit FILE] [--tap] [--timeout S] [--most BYTES] [--update] FOLDER or SCRIPT ..
    tools/suite --shard PART [--times FILE] [-j N] [--junit FILE] .. FOLDER or SCRIPT ..
    tools/suite --merge [--junit FILE] RESULTS ..

  -j N          runs N tests at a time; by default as many as there are processors
  --junit FILE  also writes the results as JUnit XML, with the differences and the last 20 lines of each test
  --tap         prints TAP 14 in place of the lines below
  --timeout S   ends a test that takes longer than S seconds; 300 by default, and 1000000 at most
  --most BYTES  ends a test that prints more; 100000000 by default
  --update      keeps what each test prints as its log
  --shard PART  runs a share of the tests, as 2/3: the second of three; each test is in one of them
  --times FILE  makes shares that take equal times, by the results of an earlier run (--junit)
  --merge       merges the results of all shards, prints them, and ends as one suite would

Each X.resc with an X.log beside it is a test, in a folder and its subfolders. All run in the folder in which
tools/suite is called, the project's: paths in scripts are taken from there. Comment lines in a script say more:

  # suite: exact            the log is the kept one; this is the default
  # suite: notimes          each device's lines are the kept ones in their order, at whatever times
  # suite: verdict          a finisher says `pass`, and none `fail`; the rest of the log is not compared
  # suite: after boot.resc  that script runs first, once for all that name it, and again if a file that it reads or a
                            snapshot that it keeps has changed (docs/SUITES.md)

It prints a line for each test, `passed`, `failed` or `error` (it could not be tried) with its seconds and its cause,
and finally `N passed, M failed`, in which an error counts as failed. Differences go to the standard error. It ends with

  0    all passed (or their logs were kept)
  1    one failed
  2    something could not be done: wrong arguments, no test, a missing file, or lab did not end with 0
  130  it was interrupted

With LAB set, that program runs in place of ./lab of this repository: LAB=/opt/lab/lab tools/suite ..
"""
import argparse
import pathlib
import sys
from typing import List

from labtools.suites import sessions, shards, suite_reports, trials

# What this ends with where what it prints cannot be written.
UNWRITTEN = 2


def parser() -> argparse.ArgumentParser:
    made = sessions.parser(__doc__)
    made.add_argument("--tap", action="store_true")
    made.add_argument("--update", action="store_true")
    made.add_argument("--times", type=pathlib.Path)
    made.add_argument("--merge", action="store_true")
    made.add_argument("paths", nargs="*")
    return made


def report_to(given: argparse.Namespace, count: int) -> sessions.Report:
    return suite_reports.Tap(sys.stdout, count) if given.tap else sessions.Lines()


def run_tests(session: sessions.Session) -> int:
    """Runs the tests, or a share of them, and prints what was found."""
    given = session.given
    tests = trials.tests_in(given.paths)
    times = shards.times_in(given.times) if given.times else {}
    trial = trials.Trials(session.runs(), sessions.tell, given.update)
    share = shards.share_of(given.shard, {it: trial.scripts_before(it) for it in tests}, times) if given.shard else None
    tests = share.tests if share else tests
    report = report_to(given, len(tests))
    outcomes = []
    for outcome in trial.outcomes(tests, given.j):
        report.tell(outcome)
        outcomes.append(outcome)
    return session.end(outcomes, report, share)


def merge(session: sessions.Session) -> int:
    """Makes the results of all shards one."""
    results = shards.results_in(list(map(pathlib.Path, session.given.paths)))
    cases = shards.cases_of(results)
    outcomes = list(map(suite_reports.outcome_of, cases))
    report = report_to(session.given, len(outcomes))
    for outcome in outcomes:
        report.tell(outcome)
    for result in results:
        sessions.tell(result.line())
    report.end(sessions.summary_of(outcomes))
    if session.given.junit:
        suite_reports.write_document(session.given.junit, suite_reports.document_of(cases, {}))
    return sessions.status_of(outcomes)


def main(words: List[str]) -> int:
    made = parser()
    given = sessions.read_words(made, words)
    if not given.paths:
        made.error("which results?" if given.merge else "which tests?")
    if given.merge and (given.shard or given.times or given.update):
        made.error("--merge takes no --shard, --times or --update")
    if given.times and not given.shard:
        made.error("--times is for --shard")
    return sessions.run(given, merge if given.merge else run_tests)
