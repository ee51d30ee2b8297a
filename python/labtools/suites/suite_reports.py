"""Reports the results of a suite as JUnit XML and as TAP 14."""
import dataclasses
import json
import pathlib
import re
from typing import Iterator, List, Mapping, Sequence, TextIO
from xml.etree import ElementTree

from labtools.common.escapes import shown, shown_lines
from labtools.suites import suite_tests


@dataclasses.dataclass(frozen=True)
class Outcome:
    """A test with its finding, the last lines that it printed, and how long it took. The label tells tests of one
    script apart."""

    script: str
    finding: suite_tests.Finding
    last_lines: str
    seconds: float
    label: str = ""

    @property
    def name(self) -> str:
        return f"{self.script}{self.label}"

    @property
    def is_passed(self) -> bool:
        return self.finding.result == suite_tests.PASSED

    @property
    def is_error(self) -> bool:
        return self.finding.result == suite_tests.ERROR


def in_words(outcome: Outcome) -> str:
    """What to show of a test that has not passed."""
    parts = [outcome.finding.difference]
    if outcome.last_lines:
        parts.append(f"the last lines printed:\n{outcome.last_lines}")
    return shown_lines("\n".join(part for part in parts if part))


def document_of(cases: Sequence[ElementTree.Element], said: Mapping[str, str]) -> ElementTree.Element:
    """Makes a JUnit document: one suite of these cases, with these properties."""
    counts = {
        "tests": str(len(cases)),
        "failures": str(sum(it.find("failure") is not None for it in cases)),
        "errors": str(sum(it.find("error") is not None for it in cases)),
        "time": f"{sum(map(seconds_of, cases)):.3f}",
    }
    skipped = str(sum(it.find("skipped") is not None for it in cases))
    suites = ElementTree.Element("testsuites", counts)
    suite = ElementTree.SubElement(suites, "testsuite", {"name": "lab", **counts, "skipped": skipped})
    if said:
        properties = ElementTree.SubElement(suite, "properties")
        for name, value in said.items():
            ElementTree.SubElement(properties, "property", {"name": name, "value": value})
    suite.extend(cases)
    return suites


def seconds_of(case: ElementTree.Element) -> float:
    """The time of a case, or 0 if it has none."""
    try:
        return float(case.get("time", "0"))
    except ValueError:
        return 0.0


def outcome_of(case: ElementTree.Element) -> Outcome:
    """Reads a case as an outcome, as far as a line of the report needs it. Another program, such as pytest, may have
    written it."""
    name = f"{case.get('classname', '')}.{case.get('name', '')}"
    script = case.get("file", name)
    # The brackets at the end of a name are its label.
    label = re.search(r"\[.*\]$", case.get("name", "")) if "file" in case.attrib else None
    finding = suite_tests.Finding(suite_tests.PASSED)
    for tag, result in ("failure", suite_tests.FAILED), ("error", suite_tests.ERROR):
        found = case.find(tag)
        if found is not None:
            finding = suite_tests.Finding(result, tag, found.get("message", "").partition("\n")[0])
    return Outcome(script, finding, "", seconds_of(case), label[0] if label else "")


def case_of(outcome: Outcome) -> ElementTree.Element:
    """A test as a case of JUnit. Its class is its folder, by which servers group cases."""
    path = pathlib.PurePosixPath(outcome.script)
    folder = ".".join(part for part in path.parent.parts if part not in ("/", ".", ".."))
    name, seconds = path.stem + outcome.label, f"{outcome.seconds:.3f}"
    words = {"classname": folder or "lab", "name": name, "file": outcome.script, "time": seconds}
    case = ElementTree.Element("testcase", {key: shown(word) for key, word in words.items()})
    if not outcome.is_passed:
        finding = outcome.finding
        told = {"message": shown(finding.cause), "type": finding.kind}
        ElementTree.SubElement(case, "error" if outcome.is_error else "failure", told).text = in_words(outcome)
    if outcome.last_lines:
        ElementTree.SubElement(case, "system-out").text = shown_lines(outcome.last_lines)
    return case


def write_junit(path: pathlib.Path, outcomes: Sequence[Outcome], said: Mapping[str, str]) -> None:
    """Writes the outcomes as JUnit XML. A test that could not be tried is an error, and one that has failed a
    failure."""
    write_document(path, document_of(list(map(case_of, outcomes)), said))


def write_document(path: pathlib.Path, document: ElementTree.Element) -> None:
    ElementTree.ElementTree(document).write(str(path), encoding="utf-8", xml_declaration=True)


class Tap:
    """Prints tests as TAP 14, each as soon as it is known."""

    def __init__(self, output: TextIO, count: int) -> None:
        self.output = output
        self.number = 0
        print(f"TAP version 14\n1..{count}", file=output, flush=True)

    def tell(self, outcome: Outcome) -> None:
        self.number += 1
        told = "ok" if outcome.is_passed else "not ok"
        name = shown(outcome.name).replace("\\", "\\\\").replace("#", "\\#")
        lines = [f"{told} {self.number} - {name}", *("  " + it for it in diagnostics(outcome))]
        print("\n".join(lines), file=self.output, flush=True)

    def end(self, summary: str) -> None:
        print(f"# {summary}", file=self.output, flush=True)


def diagnostics(outcome: Outcome) -> List[str]:
    """What TAP says of a test beside its result: a document of YAML."""
    finding = outcome.finding
    lines = ["---", f"duration_ms: {1000 * outcome.seconds:.0f}"]
    if not outcome.is_passed:
        lines.append(f"severity: {'error' if outcome.is_error else 'fail'}")
        lines.append(f"message: {json.dumps(shown(finding.cause), ensure_ascii=False)}")
        lines += [*block("difference", finding.difference), *block("last_lines", outcome.last_lines)]
    return [*lines, "..."]


def block(key: str, text: str) -> Iterator[str]:
    """A text of several lines as a value of YAML, if there is any."""
    if text:
        yield f"{key}: |2"
        yield from (f"  {line}" for line in shown_lines(text).rstrip("\n").split("\n"))
