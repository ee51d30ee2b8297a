"""Suites that lab runs: a project outside this repository, the demos, and files of make and of servers. Expected texts
were written by hand: results by docs/SUITES.md, logs by those of the demos."""
import fcntl
import re
import shutil
import subprocess
from typing import Any, List

from labtools.common.program import TOP
from tests.suite_projects import DEMO_LINES, NO_VERDICT, SUITE, Project, WithLab, without_seconds

DATA = TOP / "python/tests/data/project"

DEMO_TOLD = """\
suite: demo/suite/boot.resc is run first
  --- demo/suite/wrong_sum.log
  +++ this run
  @@ -1 +1 @@
  -[0.000100] pause m0/fin: pass
  +[0.000100] pause m0/fin: fail 3

  the last lines printed:
  [0.000100] pause m0/fin: fail 3
"""

AGAIN = "suite: demo/suite/boot.resc is run again"


class OwnProject(Project):
    """A project outside this repository, data/project, whose README.md derives what is expected."""

    def setUp(self) -> None:
        super().setUp()
        for part in "boards", "firmware", "tests":
            shutil.copytree(DATA / part, self.room / part)

    def expected(self, name: str) -> str:
        return (DATA / "expected" / name).read_text(encoding="utf-8")

    def test_a_project(self) -> None:
        self.expect(["--junit", "junit.xml", "tests"], 2, self.expected("lines"), self.expected("told"))
        self.assertEqual(without_seconds(self.read("junit.xml")), self.expected("junit"))
        self.expect(["--tap", "-j", "1", "tests"], 2, self.expected("tap"), "")

    def test_firmware_that_is_built_anew(self) -> None:
        tests = ["tests/later.resc", "tests/talk.resc"]
        self.assertEqual(self.ran(SUITE, *tests).returncode, 0)
        image = self.room / "firmware/talk.bin"
        # addi x7, x0, 100 in place of addi x7, x0, 102
        image.write_bytes(image.read_bytes().replace(b"\x93\x03\x60\x06", b"\x93\x03\x40\x06"))
        self.expect(tests, 1, self.expected("lines_rebuilt"), self.expected("told_rebuilt"))

    def test_logs_of_a_project_are_kept(self) -> None:
        for log in (self.room / "tests").glob("*.log"):
            log.unlink()
        tests = [f"tests/{name}.resc" for name in ("bus", "later", "talk", "waits")]
        lines = [f"passed  T s  {test}: the log has {count} lines now\n" for test, count in zip(tests, (4, 2, 2, 1))]
        told = f"suite: tests/boot.resc is run first\nsuite: tests/waits.log {NO_VERDICT}\n"
        self.expect(["--update", *tests], 0, "".join(lines) + "4 passed, 0 failed\n", told)
        kept = [self.read(f"tests/{name}.log") for name in ("bus", "later", "talk")]
        self.assertEqual(kept, [(DATA / f"tests/{name}.log").read_text() for name in ("bus", "later", "talk")])


class Demos(WithLab):
    """The demo of a suite, and scripts that others come after."""

    def booting(self) -> List[str]:
        """What a call of two tests that come after another script tells of it."""
        ran = self.ran(SUITE, "demo/suite/booted.resc", "demo/suite/rounds.resc")
        self.assertEqual(ran.returncode, 0, ran.stdout)
        return ran.stderr.splitlines()

    def test_a_demo(self) -> None:
        self.expect(["demo/suite"], 1, DEMO_LINES, DEMO_TOLD)

    def test_a_script_is_run_once_for_all(self) -> None:
        self.assertEqual(self.booting(), ["suite: demo/suite/boot.resc is run first"])
        self.assertEqual(self.booting(), [])

    def test_a_script_is_run_again_where_a_file_has_changed(self) -> None:
        self.booting()
        image = self.room / "demo/hub/ping.bin"
        image.touch()
        self.assertEqual(self.booting(), [])
        image.write_bytes(image.read_bytes() + bytes(4))
        self.assertEqual(self.booting(), [f"{AGAIN}: demo/hub/ping.bin has changed"])
        self.write("demo/hello/board.repl", self.read("demo/hello/board.repl") + "\n")
        self.assertEqual(self.booting(), [f"{AGAIN}: demo/hello/board.repl has changed"])

    def test_a_script_is_run_again_where_its_snapshot_is_another_one(self) -> None:
        self.booting()
        (self.room / "demo/suite/booted.snap").unlink()
        self.assertEqual(self.booting(), [f"{AGAIN}: there is no demo/suite/booted.snap"])
        self.write("demo/suite/booted.snap", "LABSNAP1")
        self.assertEqual(self.booting(), [f"{AGAIN}: demo/suite/booted.snap has changed"])

    def test_other_firmware_is_not_tested_by_an_old_snapshot(self) -> None:
        self.booting()
        image = self.room / "demo/hub/pong.bin"
        image.write_bytes(image.read_bytes().replace(b"pong", b"PONG"))
        ran = self.ran(SUITE, "demo/suite/booted.resc")
        self.assertEqual(ran.returncode, 1)
        self.assertIn("\n  -[0.000356] pong/uart: pong\n  +[0.000356] pong/uart: PONG\n", ran.stderr)

    def test_two_suites_run_a_script_once(self) -> None:
        words = [SUITE, "demo/suite/booted.resc", "demo/suite/rounds.resc"]
        both = [
            subprocess.Popen(words, cwd=self.room, stdout=subprocess.PIPE, stderr=subprocess.PIPE, text=True)
            for _ in range(2)
        ]
        told = [suite.communicate(timeout=300)[1] for suite in both]
        self.assertEqual("".join(told), "suite: demo/suite/boot.resc is run first\n")
        self.assertEqual([suite.returncode for suite in both], [0, 0])

    def test_a_chain_of_scripts(self) -> None:
        board = "mach create\nmachine LoadPlatformDescription @demo/hello/board.repl\ncpu PC\n"
        self.write("a.resc", "emulation RunFor 0.000001\nSave @one\n")
        self.write("b.resc", "# suite: after a.resc\nLoad @one\nemulation RunFor 0.000001\nSave @two\n")
        self.write("sub/c.resc", f"# suite: after b.resc\nLoad @two\n{board}")
        self.write("sub/c.log", "0x00000000\n")
        told = "suite: a.resc is run first\nsuite: b.resc is run first\n"
        self.expect(["sub"], 0, "passed  T s  sub/c.resc\n1 passed, 0 failed\n", told)
        self.expect(["sub"], 0, "passed  T s  sub/c.resc\n1 passed, 0 failed\n", "")
        self.write("a.resc", "emulation RunFor 0.000002\nSave @one\n")
        told = "suite: a.resc is run again: a.resc has changed\nsuite: b.resc is run again: one has changed\n"
        self.expect(["sub"], 0, "passed  T s  sub/c.resc\n1 passed, 0 failed\n", told)

    def test_scripts_after_each_other_are_told(self) -> None:
        self.write("a.resc", "# suite: after b.resc\n")
        self.write("b.resc", "# suite: after a.resc\n")
        self.write("a.log", "1\n")
        line = "error  T s  a.resc: b.resc, before it: it comes after a.resc, which comes after it\n"
        self.expect(["a.resc"], 2, f"{line}0 passed, 1 failed\n", "")

    def test_a_circle_is_told_while_another_suite_runs_one_of_its_scripts(self) -> None:
        self.write("a.resc", "# suite: after b.resc\n")
        self.write("b.resc", "# suite: after a.resc\n")
        self.write("c.resc", "# suite: after a.resc\n")
        self.write("c.log", "1\n")
        cause = "a.resc, before it: b.resc, before it: it comes after a.resc, which comes after it"
        with open(self.room / "b.sums", "a+") as record:
            fcntl.flock(record, fcntl.LOCK_EX)
            self.expect(["c.resc"], 2, f"error  T s  c.resc: {cause}\n0 passed, 1 failed\n", "")

    def test_a_script_that_fails_is_told_of_each_test(self) -> None:
        (self.room / "demo/hub/ping.bin").unlink()
        cause = "demo/suite/boot.resc, before it: lab ended with 4: a file could not be read, demo/hub/ping.bin"
        place = "(demo/suite/boards.resc:6)"
        lines = "".join(f"error  T s  demo/suite/{name}.resc: {cause} {place}\n" for name in ("booted", "rounds"))
        told = "suite: demo/suite/boot.resc is run first\n"
        self.expect(["demo/suite/booted.resc", "demo/suite/rounds.resc"], 2, f"{lines}0 passed, 2 failed\n", told)
        self.write("demo/suite/booted.resc", "# suite: after none.resc\n")
        line = "error  T s  demo/suite/booted.resc: it comes after none.resc, which is not there\n"
        self.expect(["demo/suite/booted.resc"], 2, f"{line}0 passed, 1 failed\n")

    def test_a_script_that_others_come_after_may_be_a_test(self) -> None:
        booted = "".join(self.read("demo/hub/output").splitlines(keepends=True)[:3])
        self.write("demo/suite/boot.log", booted)
        ran = self.ran(SUITE, "demo/suite")
        self.assertIn("passed", ran.stdout.splitlines()[0])
        self.assertEqual(ran.stdout.splitlines()[-1], "6 passed, 1 failed")

    def test_a_snapshot_has_a_finisher(self) -> None:
        script = 'mach create "m0"\nmachine LoadPlatformDescription @demo/{}/board.repl\nSave @board\ncpu PC\n'
        self.write("test.resc", "# suite: after boot.resc\nLoad @board\nmach set m0\ncpu PC\n")
        warning = f"test.log {NO_VERDICT}\n"
        for platform, wanted in {"pass": f"suite: {warning}", "hello": ""}.items():
            self.write("boot.resc", script.format(platform))
            told = self.ran(SUITE, "--update", "test.resc").stderr
            self.assertEqual("".join(line for line in told.splitlines(True) if "boot.resc" not in line), wanted)


class Servers(WithLab):
    """The files that run a suite in make, CTest, GitLab and GitHub."""

    def setUp(self) -> None:
        super().setUp()
        self.environment["LAB_HOME"] = str(TOP)

    def pass_over(self, missing: str) -> None:
        self.skipTest(f"{type(self).__name__}.{self._testMethodName}, without {missing}")

    def needs(self, *programs: str) -> None:
        """Passes the test over where a program is not installed."""
        missing = [it for it in programs if not shutil.which(it)]
        if missing:
            self.pass_over(missing[0])

    def try_lines(self, lines: str) -> None:
        """Runs the lines of a job, which end with 1 since a test fails, and have written their results."""
        ran = self.ran("bash", "-e", "-c", lines)
        self.assertEqual((without_seconds(ran.stdout), ran.returncode), (DEMO_LINES, 1), ran.stderr)
        self.assertIn('<testsuites tests="6" failures="1" errors="0"', self.read("suite.xml"))

    def parsed(self, path: str) -> Any:
        """What a file of YAML says."""
        try:
            import yaml
        except ImportError:
            self.pass_over("yaml of Python")
        # PyYAML takes the key `on` of GitHub for a truth.
        return yaml.load(self.read(path), Loader=yaml.BaseLoader)

    def test_make(self) -> None:
        self.needs("make")
        ran = self.ran("make", "-s", "-f", "demo/suite/Makefile", "check")
        self.assertEqual((without_seconds(ran.stdout), ran.returncode), (DEMO_LINES, 2), ran.stderr)

    def test_ctest(self) -> None:
        self.needs("cmake", "ctest")
        made = self.ran("cmake", "-S", "demo/suite", "-B", "build", "-D", f"LAB_HOME={TOP}")
        self.assertEqual(made.returncode, 0, made.stderr)
        ran = self.ran("ctest", "--test-dir", "build", "-j", "2")
        results = sorted(re.findall(r"Test +#\d+: (\S+) \.+[ *]*(\w+)", ran.stdout))
        passed = [f"demo/suite/{name}" for name in ("booted", "hello", "rounds", "sum", "talk")]
        self.assertEqual(results, [*((it, "Passed") for it in passed), ("demo/suite/wrong_sum", "Failed")])

    def shards_by(self, lines: str, **variables: str) -> None:
        """Runs the lines of a job with these variables, of which some are different in each of three jobs."""
        statuses = []
        for number in range(3):
            self.environment.update({name: value.split()[number] for name, value in variables.items()})
            statuses.append(self.ran("bash", "-e", "-c", lines).returncode)
        self.assertEqual(statuses, [0, 0, 1])

    def test_gitlab(self) -> None:
        jobs = self.parsed("demo/suite/gitlab-ci.yml")
        self.assertEqual(jobs["suite"]["artifacts"]["reports"], {"junit": "suite-*.xml"})
        self.shards_by("\n".join(jobs["suite"]["script"]), CI_NODE_INDEX="1 2 3", CI_NODE_TOTAL="3 3 3")
        self.try_lines("\n".join(jobs["suite-whole"]["script"]))

    def test_github(self) -> None:
        jobs = self.parsed("demo/suite/github.yml")["jobs"]
        self.assertEqual(jobs["suite"]["strategy"]["matrix"], {"shard": ["1", "2", "3"]})
        lines = [job["steps"][-1 if name == "whole" else 1]["run"] for name, job in jobs.items()]
        self.shards_by(lines[0].replace("${{ matrix.shard }}", "$SHARD"), SHARD="1 2 3")
        self.try_lines(lines[1])

    def test_kubernetes(self) -> None:
        job = self.parsed("demo/suite/kubernetes.yml")["spec"]
        self.assertEqual((job["completionMode"], job["completions"]), ("Indexed", "3"))
        words = job["template"]["spec"]["containers"][0]["command"]
        self.assertEqual(words[:2], ["sh", "-c"])
        self.environment["RESULTS"] = "."
        self.shards_by(words[2], JOB_COMPLETION_INDEX="0 1 2")
        self.try_lines(f"{SUITE} --merge --junit suite.xml suite-*.xml")

    def test_parallel(self) -> None:
        self.needs("parallel")
        self.environment["HOME"] = str(self.room)
        self.try_lines("demo/suite/parallel.sh")
        costs = r"suite: shard (\d)/3: 2 tests, \d+\.\d\d s, its largest process \d+ KB"
        self.assertEqual(sorted(re.findall(costs, self.read("suite.txt"))), ["1", "2", "3"])
