"""A pytest plugin: scripts with logs are tests, and the fixture `lab` runs laboratories for tests in Python.

docs/SUITES.md ("pytest") shows how to use it. If lab was installed by pip, pytest finds it; otherwise load it by
`-p labtools.pytest_plugin`, with lab's folder python/ in PYTHONPATH.
"""
import argparse
import os
import pathlib
import signal
import sys
import threading
from typing import Any, Callable, Dict, Generator, Iterable, List, Optional, Sequence, Tuple, TypeVar, Union, cast

import pytest

from labtools.common.escapes import shown, shown_lines
from labtools.common.program import program_or
from labtools.suites import lab_runs, laboratories, sessions, shards, suite_reports, trials
from labtools.suites.laboratories import Lab
from labtools.suites.suite_reports import Outcome

# How many runs of a test that has failed are shown.
SHOWN_RUNS = 3


Function = TypeVar("Function", bound=Callable[..., Any])


def hook(**how: bool) -> Callable[[Function], Function]:
    """pytest.hookimpl, which has no types everywhere."""
    return cast(Callable[[Function], Function], pytest.hookimpl(**how))


class ScriptFailed(Exception):
    """A script that is a test has not passed."""

    def __init__(self, outcome: Outcome) -> None:
        super().__init__(outcome.finding.cause)
        self.outcome = outcome


class Project:
    """What the tests of a session share."""

    def __init__(self, config: pytest.Config) -> None:
        self.config = config
        self.made: Optional[trials.Trials] = None
        self.lab: Optional[Lab] = None
        # What the results say of a shard.
        self.said: Dict[str, str] = {}

    @property
    def folder(self) -> pathlib.Path:
        return self.config.rootpath / str(self.config.getini("lab_folder"))

    @property
    def trials(self) -> trials.Trials:
        """Made when the first test needs it, since ./lab may build its program then."""
        if self.made is None:
            program = program_or(pytest.UsageError)
            seconds = float(self.config.getoption("--lab-timeout"))
            runs = lab_runs.Runs(program, self.folder, seconds, sessions.MOST_PRINTED)
            end_by_signals(runs)
            self.made = trials.Trials(runs, lambda text: print(f"suite: {shown(text)}", file=sys.stderr))
        return self.made


PROJECT = pytest.StashKey[Project]()


def end_by_signals(runs: lab_runs.Runs) -> None:
    """From now on a signal that ends pytest ends its runs before. Ctrl-C is an exception, which does so by itself."""

    def end(number: int, _: object) -> None:
        runs.end_all()
        signal.signal(number, signal.SIG_DFL)
        os.kill(os.getpid(), number)

    if threading.current_thread() is threading.main_thread():
        for number in signal.SIGTERM, signal.SIGHUP:
            if signal.getsignal(number) is signal.SIG_DFL:
                signal.signal(number, end)


def pytest_addoption(parser: pytest.Parser) -> None:
    group = parser.getgroup("lab", "laboratories of emulated boards")
    group.addoption("--lab", action="store_true", help="take each X.resc with an X.log for a test")
    group.addoption("--lab-timeout", type=float, default=300.0, metavar="S", help="end a run after S seconds (300)")
    group.addoption("--shard", metavar="K/N", help="run a share of the tests, the K-th of N")
    parser.addini("lab_suites", "folders in which each X.resc with an X.log is a test", type="paths", default=[])
    parser.addini("lab_folder", "the folder from which paths in scripts are taken, from rootdir on", default=".")


def pytest_configure(config: pytest.Config) -> None:
    config.stash[PROJECT] = Project(config)
    try:
        word = config.getoption("--shard")
        if word:
            shards.shard_of(word)
    except argparse.ArgumentTypeError as fault:
        raise pytest.UsageError(f"--shard: {fault}") from fault


def pytest_collect_file(file_path: pathlib.Path, parent: pytest.Collector) -> Optional["ScriptFile"]:
    """Takes a script for a test that is named, or has a log and stands where it is asked for."""
    if file_path.suffix != ".resc":
        return None
    folders = parent.config.getini("lab_suites")
    is_asked = parent.config.getoption("--lab") or any(folder in file_path.parents for folder in folders)
    has_log = os.path.lexists(file_path.with_suffix(".log"))
    if parent.session.isinitpath(file_path) or (is_asked and has_log):
        return cast(ScriptFile, ScriptFile.from_parent(parent, path=file_path))
    return None


class ScriptFile(pytest.File):
    """A script, which is one test."""

    def collect(self) -> Iterable[pytest.Item]:
        yield ScriptItem.from_parent(self, name=self.path.stem)


class ScriptItem(pytest.Item):
    """A script whose log was kept, tried as tools/suite tries it."""

    @property
    def script(self) -> str:
        return os.path.relpath(self.path, self.config.stash[PROJECT].folder)

    def runtest(self) -> None:
        outcome = self.config.stash[PROJECT].trials.outcome_of(self.script)
        if outcome.last_lines:
            self.add_report_section("call", "log", shown_lines(outcome.last_lines))
        if not outcome.is_passed:
            raise ScriptFailed(outcome)

    def repr_failure(self, excinfo: "pytest.ExceptionInfo[BaseException]", style: Any = None) -> Any:
        if isinstance(excinfo.value, pytest.UsageError):
            return str(excinfo.value)
        if not isinstance(excinfo.value, ScriptFailed):
            return super().repr_failure(excinfo, style)
        outcome = excinfo.value.outcome
        told = [shown(f"{outcome.finding.result}: {outcome.finding.cause}"), suite_reports.in_words(outcome)]
        if not outcome.is_error and outcome.finding.kind not in ("timeout", "size"):
            project = self.config.stash[PROJECT]
            told.append(shown_lines(laboratories.where(project.trials.runs, self.script)))
        return "\n".join(part for part in told if part)

    def reportinfo(self) -> Tuple[Union["os.PathLike[str]", str], Optional[int], str]:
        return self.path, None, shown(self.script)


@pytest.fixture(scope="session")
def lab(request: pytest.FixtureRequest, tmp_path_factory: pytest.TempPathFactory) -> Lab:
    """Runs laboratories: `run = lab.run("tests/talk.resc")`."""
    project = request.config.stash[PROJECT]
    project.lab = Lab(project.trials.runs, tmp_path_factory.mktemp("lab"))
    return project.lab


def pytest_runtest_setup(item: pytest.Item) -> None:
    made = item.config.stash[PROJECT].lab
    if made:
        made.recent.clear()


@hook(hookwrapper=True)
def pytest_runtest_makereport(item: pytest.Item) -> Generator[None, Any, None]:
    """Shows of a test that has failed what it has run, and where the boards stand."""
    told = yield
    report: pytest.TestReport = told.get_result()
    made = item.config.stash[PROJECT].lab
    if report.failed and made:
        for run in made.recent[-SHOWN_RUNS:]:
            report.sections.append((f"lab: {shown(run.name)}", shown_lines(laboratories.report_of(run))))


@hook(trylast=True)
def pytest_collection_modifyitems(config: pytest.Config, items: List[pytest.Item]) -> None:
    """Leaves the tests of one shard."""
    word = config.getoption("--shard")
    if not word:
        return
    project = config.stash[PROJECT]
    share = shards.share_of(shards.shard_of(word), befores_of(project, items), {})
    project.said = share.properties(0)
    own = set(share.tests)
    config.hook.pytest_deselected(items=[it for it in items if it.nodeid not in own])
    items[:] = [it for it in items if it.nodeid in own]


def befores_of(project: Project, items: Sequence[pytest.Item]) -> Dict[str, Sequence[str]]:
    """What each test comes after: of a script other scripts, and itself, by which those find it that come after it."""
    befores: Dict[str, Sequence[str]] = {}
    for item in items:
        befores[item.nodeid] = ()
        if isinstance(item, ScriptItem):
            befores[item.nodeid] = [item.script, *project.trials.scripts_before(item.script)]
    return befores


@hook(tryfirst=True)
def pytest_sessionfinish(session: pytest.Session) -> None:
    """Writes into the results which shard they are of, for `tools/suite --merge`. A worker of pytest-xdist tells the
    session that writes them."""
    said = session.config.stash[PROJECT].said
    if not said:
        return
    said["memory_kb"] = str(max(int(said["memory_kb"]), sessions.memory_used()))
    output = getattr(session.config, "workeroutput", None)
    if output is not None:
        output["lab"] = said
    for plugin in session.config.pluginmanager.get_plugins():
        # That of --junitxml has this.
        add = getattr(plugin, "add_global_property", None)
        if add:
            for name, value in said.items():
                add(name, value)


@hook(optionalhook=True)
def pytest_testnodedown(node: Any) -> None:
    """Takes what a worker of pytest-xdist has told."""
    project = node.config.stash[PROJECT]
    told = getattr(node, "workeroutput", {}).get("lab")
    if told:
        memory = max(int(told["memory_kb"]), int(project.said.get("memory_kb", "0")))
        project.said = {**told, "memory_kb": str(memory)}
