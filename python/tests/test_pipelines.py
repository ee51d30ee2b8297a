"""Tries that the settings of GitHub and GitLab can be read, that what they start is there, and that what they are to
start is started; and that the templates of issues ask for what a report needs."""
import os
import re
import unittest
from typing import Any, List, Set

from labtools.common.program import TOP

TEST, GATE, GITLAB = ".github/workflows/test.yml", ".github/workflows/gate.yml", ".gitlab-ci.yml"
BUG, FEATURE = ".github/ISSUE_TEMPLATE/bug.yml", ".github/ISSUE_TEMPLATE/feature.yml"
REQUEST = ".github/pull_request_template.md"
# The label of machines that have the Rattle kit.
KIT = "rattle-kit"
# What a text names of this repository: a command, or a page.
NAMED = re.compile(r"(?<![\w/.-])(\./\w+|\.ci/\w+|tools/\w+|[A-Z]+\.md)\b")
NAMES = ["./lab", "tools/suite", "SECURITY.md"]
# Keys of .gitlab-ci.yml that are no jobs.
NO_JOBS = {"workflow", "default", "stages", "variables", "include"}


def commands_in(lines: str) -> List[str]:
    """Returns the commands of this repository that lines of a shell start: the words with a slash that begin them."""
    firsts = [line.split()[0] for line in lines.replace("\\\n", " ").splitlines() if line.strip()]
    return [it for it in firsts if "/" in it]


def missing(commands: List[str]) -> List[str]:
    """Returns those that are no programs of this repository."""
    return [it for it in commands if not ((TOP / it).is_file() and os.access(TOP / it, os.X_OK))]


class Settings(unittest.TestCase):
    def parsed(self, path: str) -> Any:
        """Returns what a file of YAML says."""
        try:
            import yaml
        except ImportError:
            self.skipTest("the settings of GitHub and GitLab, without PyYAML")
        # PyYAML takes the key `on` of GitHub for a truth.
        return yaml.load((TOP / path).read_text(encoding="utf-8"), Loader=yaml.BaseLoader)


class Pipelines(Settings):
    def github_commands(self, path: str) -> List[str]:
        steps = (step for job in self.parsed(path)["jobs"].values() for step in job["steps"])
        return [command for step in steps for command in commands_in(step.get("run", ""))]

    def gitlab_jobs(self) -> Any:
        return {name: job for name, job in self.parsed(GITLAB).items() if name not in NO_JOBS}

    def gitlab_commands(self, job: Any) -> List[str]:
        lines = [*job.get("before_script", []), *job["script"]]
        return [command for it in lines for command in commands_in(it)]

    def test_a_command_that_is_not_there_is_found(self) -> None:
        found = commands_in("apt-get update\n./test --list \\\n  x/y\n\ntools/nosuch\ndocs/TRUST.md\n")
        self.assertEqual(found, ["./test", "tools/nosuch", "docs/TRUST.md"])
        self.assertEqual(missing(found), ["tools/nosuch", "docs/TRUST.md"])

    def test_github_tries_pushes_and_pull_requests(self) -> None:
        self.assertEqual(set(self.parsed(TEST)["on"]), {"push", "pull_request"})
        self.assertEqual(self.github_commands(TEST), ["./test"])
        self.assertEqual(missing(self.github_commands(TEST)), [])

    def test_github_proves_on_a_schedule_on_machines_with_the_kit_and_no_stranger_starts_it(self) -> None:
        gate = self.parsed(GATE)
        self.assertEqual(set(gate["on"]), {"schedule", "workflow_dispatch"})
        self.assertEqual(self.github_commands(GATE), [".ci/run"])
        self.assertEqual(missing(self.github_commands(GATE)), [])
        for job in gate["jobs"].values():
            self.assertTrue({"self-hosted", KIT} <= set(job["runs-on"]))

    def test_gitlab_tries_all_but_schedules_and_proves_on_schedules_with_the_kit(self) -> None:
        jobs = self.gitlab_jobs()
        self.assertEqual(
            {name: self.gitlab_commands(it) for name, it in jobs.items()}, {"test": ["./test"], "gate": [".ci/run"]}
        )
        for job in jobs.values():
            self.assertEqual(missing(self.gitlab_commands(job)), [])
        self.assertEqual(jobs["gate"]["tags"], [KIT])
        schedule = '$CI_PIPELINE_SOURCE == "schedule"'
        self.assertEqual(jobs["gate"]["rules"], [{"if": schedule}])
        self.assertEqual(jobs["test"]["rules"], [{"if": schedule.replace("==", "!=")}])
        wanted = {f'$CI_PIPELINE_SOURCE == "{it}"' for it in ("push", "merge_request_event", "schedule")}
        told = {it["if"] for it in self.parsed(GITLAB)["workflow"]["rules"] if it.get("when") != "never"}
        self.assertEqual(told, wanted)


class Templates(Settings):
    def required_of(self, path: str) -> Set[str]:
        """Returns the names of the fields that a report has to fill in."""
        fields = [it for it in self.parsed(path)["body"] if it["type"] != "markdown"]
        names = [it["id"] for it in fields]
        self.assertEqual(len(names), len(set(names)))
        for field in fields:
            self.assertIn(field["type"], {"textarea", "input", "dropdown", "checkboxes"})
            self.assertTrue(field["attributes"]["label"])
        return {it["id"] for it in fields if it.get("validations", {}).get("required") == "true"}

    def test_a_report_of_a_bug_has_what_is_needed_to_see_it(self) -> None:
        self.assertEqual(self.required_of(BUG), {"version", "script", "firmware", "expected", "seen"})
        self.assertIn("`./lab --version`", str(self.parsed(BUG)))
        self.assertEqual(self.required_of(FEATURE), {"task"})
        for path in BUG, FEATURE:
            self.assertTrue({"name", "description", "body"} <= set(self.parsed(path)))

    def test_what_the_files_name_of_this_repository_is_there(self) -> None:
        self.assertEqual(NAMED.findall("`./lab run`, tools/suite, docs/A.md, SECURITY.md, x/tools/y"), NAMES)
        for path in TEST, GATE, GITLAB, BUG, FEATURE, REQUEST:
            for name in NAMED.findall((TOP / path).read_text(encoding="utf-8")):
                with self.subTest(file=path, name=name):
                    self.assertTrue((TOP / name).is_file())
