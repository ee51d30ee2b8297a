"""The version of lab: which files have it, and what each of them holds once there is a new one."""
import datetime
import email.utils
import os
import pathlib
import re
import textwrap
from typing import Dict, List, Tuple

# Three numbers without leading zeros, as semantic versioning has them.
FORM = re.compile(r"(0|[1-9][0-9]{0,8})(\.(0|[1-9][0-9]{0,8})){2}")
# The files that have the version and nothing else.
PLAIN = "VERSION", "python/VERSION"
# What documents say once with the version.
SAID = {"README.md": "This page describes version {}.", "docs/PROJECT.md": "lab_emulator-{}-py3-"}
CHANGES, DEBIAN = "CHANGELOG.md", "packaging/changelog"
# The part of the changes that have no version yet.
UNRELEASED = "## [Unreleased]\n"
# The first line and the last one of the newest entry of Debian's changelog.
ENTRY = re.compile(r"\A(\S+) \(\S+\) (.*)\n(?:.*\n)*? -- (.*>)  .*\n")
# Debian's changelog has lines of 80 columns at most.
COLUMNS = 79


class NoVersion(Exception):
    """Why a version is not taken, or a file that does not have what it should."""


def is_version(text: str) -> bool:
    return FORM.fullmatch(text) is not None


def numbers_of(version: str) -> Tuple[int, ...]:
    """Returns the numbers of a version X.Y.Z."""
    if not is_version(version):
        raise NoVersion(f"{version} is not a version of three numbers, such as 1.2.0")
    return tuple(int(number) for number in version.split("."))


def today() -> datetime.datetime:
    """Returns the time now, or the one that SOURCE_DATE_EPOCH gives."""
    given = os.environ.get("SOURCE_DATE_EPOCH")
    utc = datetime.timezone.utc
    return datetime.datetime.fromtimestamp(int(given), utc) if given else datetime.datetime.now(utc)


def split_changes(changes: str) -> Tuple[str, str, str]:
    """Returns the text before the changes that have no version yet, these changes, and the rest."""
    before, mark, after = changes.partition(f"\n{UNRELEASED}")
    if not mark:
        raise NoVersion(f"{CHANGES} has no heading {UNRELEASED.strip()}")
    new, heading, rest = f"\n{after}".partition("\n## ")
    return f"{before}{mark}", new.strip("\n"), f"{heading}{rest}"[1:]


def items_of(part: str) -> List[Tuple[str, str]]:
    """Returns the headings and the items of a part of the changes: each `#` or `-`, and its text in one line."""
    found: List[Tuple[str, str]] = []
    for line in part.splitlines():
        if line.startswith("### "):
            found.append(("#", line[4:].strip()))
        elif line.startswith("- "):
            found.append(("-", line[2:].strip()))
        elif line.strip() and found:
            kind, text = found.pop()
            found.append((kind, f"{text} {line.strip()}"))
    return found


def changes_of(changes: str, version: str, day: str) -> str:
    """Returns the changes, of which those without a version have this one."""
    before, new, rest = split_changes(changes)
    if not any(kind == "-" for kind, _ in items_of(new)):
        raise NoVersion(f"{CHANGES} has nothing below {UNRELEASED.strip()}: a version changes something")
    return f"{before}\n## [{version}] - {day}\n\n{new}\n\n{rest}".rstrip("\n") + "\n"


def debian_lines(part: str) -> str:
    """Returns a part of the changes as lines of Debian's changelog."""
    lines: List[str] = []
    for kind, text in items_of(part):
        plain = text.replace("`", "")
        if kind == "#":
            lines += [""] * bool(lines) + [f"  [ {plain} ]"]
        else:
            lines += textwrap.wrap(
                plain,
                COLUMNS,
                initial_indent="  * ",
                subsequent_indent="    ",
                break_long_words=False,
                break_on_hyphens=False,
            )
    return "\n".join(lines)


def debian_of(debian: str, part: str, version: str, moment: datetime.datetime) -> str:
    """Returns Debian's changelog with an entry more, which names who the entry before it names."""
    entry = ENTRY.match(debian)
    if not entry:
        raise NoVersion(f"{DEBIAN} does not begin with an entry in Debian's form")
    package, words, maintainer = entry.groups()
    date = email.utils.format_datetime(moment)
    return f"{package} ({version}) {words}\n\n{debian_lines(part)}\n\n -- {maintainer}  {date}\n\n{debian}"


def said_anew(path: str, text: str, old: str, new: str) -> str:
    """Returns the text of a document that says the version once."""
    said = SAID[path].format(old)
    if text.count(said) != 1:
        raise NoVersion(f"{path} has {text.count(said)} times, and not once: {said}")
    return text.replace(said, SAID[path].format(new))


def texts_with(top: pathlib.Path, version: str) -> Dict[str, str]:
    """Returns what each file that has the version is to hold, for a version that is higher than the one of now."""
    files = {path: (top / path).read_text(encoding="utf-8") for path in (*PLAIN, *SAID, CHANGES, DEBIAN)}
    old = files["VERSION"].strip()
    if numbers_of(version) <= numbers_of(old):
        raise NoVersion(f"{version} is not higher than {old}, which VERSION has")
    moment = today()
    _, part, _ = split_changes(files[CHANGES])
    return {
        **{path: f"{version}\n" for path in PLAIN},
        **{path: said_anew(path, files[path], old, version) for path in SAID},
        CHANGES: changes_of(files[CHANGES], version, moment.strftime("%Y-%m-%d")),
        DEBIAN: debian_of(files[DEBIAN], part, version, moment),
    }
