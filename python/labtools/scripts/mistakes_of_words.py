"""What can be seen in the words of a refused line alone: a command that is nearly another one, a path without `@`, a
name in place of a number, a time with a unit. The forms of commands are those of docs/SCRIPTS.md."""
import difflib
import itertools
import re
from fractions import Fraction
from typing import Callable, Dict, Iterable, List, Optional, Sequence, Tuple

from labtools.common.manual import rows_after
from labtools.common.program import TOP
from labtools.logs.log_lines import time_text
from labtools.scripts import reads, resc
from labtools.scripts.cures import fits
from labtools.scripts.reads import Scene

SCRIPTS = TOP / "docs/SCRIPTS.md"
COMMANDS = "| Command | Does |"
NEAR = 0.72
OTHER_QUOTES = "“”„‘’'«»"
NAME = re.compile(r"[A-Za-z_.$][\w.$]*")
BARE_HEXADECIMAL = re.compile(r"[0-9][0-9A-Fa-f]*[A-Fa-f][0-9A-Fa-f]*")


def near(word: str, others: Iterable[str]) -> Optional[str]:
    """The nearest of others that is not the word itself, if one is near; case is the least difference."""
    by_lower = {other.lower(): other for other in others if other != word}
    found = difflib.get_close_matches(word.lower(), list(by_lower), 1, NEAR)
    return by_lower[found[0]] if found else None


def listed(names: Iterable[str]) -> str:
    return ", ".join(f"`{name}`" for name in names)


# ---- no command (S1)


def openings(count: int) -> List[str]:
    """How commands begin by so many words, but for those that begin with the name of a processor."""
    rows = [row.opening for row in resc.ROWS if row.opening[0] != "*"] + [("macro",)]
    return [" ".join(opening) for opening in rows if len(opening) == count]


def without_blank(word: str) -> Optional[str]:
    """The command whose second word stands alone, as `LoadELF`, or behind a point, as `sysbus.LoadELF`."""
    own = word.lower().split(".")[-2:]
    pairs = [opening for opening in openings(2) if opening != "using sysbus"]
    return next((opening for opening in pairs if opening.lower().split()[-len(own) :] == own), None)


def near_command(words: Sequence[str]) -> Optional[Tuple[str, str]]:
    """The words that are nearly a command's, and the command."""
    first, second = words[0], "".join(words[1:2])
    of_processors = [row.opening[1] for row in resc.ROWS if row.opening[0] == "*"]
    pairs = (
        (first, without_blank(first)),
        (f"{first} {second}", near(f"{first} {second}", openings(2)) if second else None),
        (first, near(first, openings(1))),
        (second, near(second, of_processors)),
    )
    return next(((own, other) for own, other in pairs if other), None)


def unknown(scene: Scene) -> List[str]:
    if scene.words[0].startswith("\ufeff"):
        return ["the file begins with a byte order mark, U+FEFF: save it without one"]
    found = near_command(scene.words)
    if found is None:
        return []
    own, other = found[0].split(), found[1].split()
    if len(own) == len(other) == 2 and own[0] == other[0]:
        own, other = own[1:], other[1:]
    return [f"`{' '.join(own)}`: did you mean `{' '.join(other)}`?"]


# ---- other words (S2)


def form_of(words: Sequence[str]) -> Optional[str]:
    """The form of a command as docs/SCRIPTS.md has it."""
    rows = rows_after(SCRIPTS.read_text(encoding="utf-8"), COMMANDS) if SCRIPTS.exists() else []
    forms = [form for row in rows for form in re.findall("`([^`]+)`", row[0])]
    own = [form for form in forms if fits(fixed_of(form), words)]
    return max(own, key=lambda form: len(fixed_of(form))) if own else None


def fixed_of(form: str) -> List[str]:
    """The words of a form before the first that is to be replaced."""
    return list(itertools.takewhile(is_fixed, form.split()))


def is_fixed(word: str) -> bool:
    """Whether a word of a form is no place for another one; the name of a processor counts as such."""
    return word in ("CPU", "PC") or not (word[0] in "[@$" or word.isupper())


def path_fault(word: str, _: str = "") -> str:
    plain = word.strip('"')
    if plain.startswith(("$", "@http://", "@https://", "http://", "https://")):
        return ""
    if word == "@":
        return "a path follows its `@` without a blank"
    if '"' in word and plain.startswith("@"):
        return f"a path has no quotes: `{plain}`"
    return f"a path begins with `@`: `@{plain}`"


def number_fault(word: str, elf: str) -> str:
    plain = word.strip('"')
    if resc.number_of(plain) is not None:
        return f"a number has no quotes: `{plain}`"
    if resc.NUMBER.fullmatch(plain):
        return f"{plain} is above 0xffffffff"
    if BARE_HEXADECIMAL.fullmatch(plain):
        return f"a hexadecimal number begins with `0x`: `0x{plain}`"
    if NAME.fullmatch(plain):
        return f"a name is not an address: `riscv64-unknown-elf-nm {elf} | grep {plain}` prints it"
    return f"`{word}` is not a number: write decimal digits, or hexadecimal ones after `0x`, without a sign"


# What is wrong with a word that is not of its sort; the second word is the path of the board's ELF file.
FAULTS: Dict[resc.Sort, Callable[[str, str], str]] = {
    resc.a_path: path_fault,
    resc.a_number: number_fault,
    resc.a_speed: lambda word, _: f"{word} is not a number from 1 to 1000",
    resc.a_truth: lambda word, _: f"`{word}` is neither `true` nor `false`",
    resc.a_macro: lambda word, _: f"a macro is run by its name behind `$`: `runMacro ${word}`",
    resc.a_name: lambda word, _: f"`{word}` is not a name: names have only letters, digits, `_` and `-`",
}


def first_wrong(words: Sequence[str], cause: str) -> Optional[Tuple[resc.Sort, str]]:
    """The first word of a command that is not of its sort by this cause, and the sort."""
    row = resc.row_of(words)
    pairs = zip(row.sorts, words[len(row.opening) :]) if row else ()
    return next(((sort, word) for sort, word in pairs if is_refused(sort, word, cause)), None)


def is_refused(sort: resc.Sort, word: str, cause: str) -> bool:
    try:
        sort(word)
    except resc.Refused as fault:
        return str(fault) == cause
    return False


def fault_of_word(scene: Scene) -> str:
    """What is wrong with the first word of a command that is not of its sort."""
    wrong = first_wrong(scene.words, resc.ARGUMENTS)
    files = scene.board.files if scene.board else []
    elf = next((file.path for file in reversed(files) if file.kind == "elf"), "a.elf")
    return FAULTS[wrong[0]](wrong[1], elf) if wrong and wrong[0] in FAULTS else ""


def fault_of_quotes(words: Sequence[str]) -> str:
    """A text between other signs than the double quote, or one that has no end."""
    other = next((word[0] for word in words if word[0] in OTHER_QUOTES), None)
    if other:
        return f"{other} is not a quote: put a text between double quotes"
    return "a quote is not closed on its line" if " ".join(words).count('"') % 2 else ""


def swapped(words: Sequence[str], scene: Scene) -> str:
    """The words of `connector Connect` in the other order."""
    if list(words[:2]) != ["connector", "Connect"] or len(words) != 4 or words[2].strip('"') not in scene.hubs:
        return ""
    return f"the device comes first, then the hub: `connector Connect {words[3]} {words[2]}`"


def too_fast(words: Sequence[str], scene: Scene) -> str:
    """A speed that is too much for all processors of the board together."""
    count = len(scene.board.processors) if scene.board else 0
    speed = resc.number_of(words[2]) if len(words) == 3 and words[1] == "PerformanceInMips" else None
    if not speed or speed > reads.SPEED_LIMIT or speed * count <= reads.SPEED_LIMIT:
        return ""
    return f"{count} processors of {speed} do {count * speed} instructions in a microsecond, and the most is 1000"


def fault_of_value(words: Sequence[str]) -> str:
    """What is wrong with a line that sets a variable."""
    if len(words) != 3:
        return "one word follows the sign: a text with blanks in quotes, and nothing after it"
    return path_fault(words[2]) if words[2].startswith(("@", '"@')) else ""


def arguments(scene: Scene) -> List[str]:
    words = scene.words
    told = fault_of_quotes(words) or swapped(words, scene) or too_fast(words, scene)
    if told or words[1:2] in (["="], ["?="]):
        return texts(told or fault_of_value(words))
    row = resc.row_of(words)
    if row is None:
        return ['`macro NAME`, with its lines between `"""` and `"""`'] if words[0] == "macro" else []
    told = fault_of_word(scene)
    has_count = row.least <= len(words) - len(row.opening) <= len(row.sorts)
    form = None if told and has_count else form_of(words)
    return texts(told, f"the form is `{form}`" if form else "")


def texts(*told: str) -> List[str]:
    return [text for text in told if text]


# ---- variables (S3)


def variable(scene: Scene) -> List[str]:
    words = scene.words
    if resc.names_macro(words):
        return not_set("there is no macro", words[1][1:], scene.macros, scene.variables, "is a variable and no macro")
    unset = [name for name in map(resc.variable_of, words[1:]) if name and name not in scene.variables]
    if not unset:
        return []
    return not_set("no line before sets", unset[0], scene.variables, scene.macros, "is a macro: `runMacro` takes it")


def not_set(what: str, name: str, others: Sequence[str], kind: Sequence[str], is_other: str) -> List[str]:
    if name in kind:
        return [f"`${name}` {is_other}"]
    nearly = near(name, others)
    return [f"{what} `${name}`" + (f": did you mean `${nearly}`?" if nearly else "")]


# ---- times (S10)

MICROSECOND = Fraction(1, 10**6)
UNITS = {
    "ns": Fraction(1, 10**9),
    **dict.fromkeys(("us", "µs", "μs"), MICROSECOND),
    "ms": Fraction(1, 1000),
    **dict.fromkeys(("s", "sec"), Fraction(1)),
    **dict.fromkeys(("m", "min"), Fraction(60)),
    "h": Fraction(3600),
}
PLAIN = re.compile(r"[0-9]{1,10}(?:\.[0-9]{1,10})?")
WITH_UNIT = re.compile(rf"({PLAIN.pattern}) *([a-zµμ]+)", re.IGNORECASE)
WITH_EXPONENT = re.compile(rf"{PLAIN.pattern}[eE][+-]?[0-9]{{1,2}}")
# Texts that say no time: the first form that fits, and what is wrong with it.
NO_TIMES = (
    (r"[0-9]{1,10}\.[0-9]{7,10}", "the shortest time is a microsecond: {0} has more than six digits after its point"),
    (r"[0-9]+:[0-9]+(?:\.[0-9]+)?", "{0} lacks the hours, 0:{0}"),
    (r"[0-9]+:[0-9]+:[0-9]+(?:\.[0-9]+)?", "minutes and seconds are at most 59: {0}"),
    (r"[+-].*", "a time has no sign: {0}"),
)
LIMITS: Dict[resc.Sort, str] = {
    resc.a_quantum: "a quantum is 1 microsecond to 1 second",
    resc.a_delay: "the delay of a hub is at most 1 second",
}


def written(seconds: Fraction) -> str:
    """A time as a script has it, to the microsecond, at least one where it is any."""
    return f'"{time_text(max(round(seconds / MICROSECOND), 1 if seconds else 0))}"'


def in_other_form(text: str) -> str:
    """A time that can be told though it is written otherwise."""
    unit = WITH_UNIT.fullmatch(text)
    if unit and unit[2].lower() in UNITS:
        return f"a time has no unit: {text} is {written(Fraction(unit[1]) * UNITS[unit[2].lower()])}, in seconds"
    if WITH_EXPONENT.fullmatch(text):
        return f"a time has no exponent: {text} is {written(Fraction(text))}, in seconds"
    plain = re.sub(r"\A(?=\.)", "0", text.replace(",", "."))
    plain = plain[:-1] if plain.endswith(".") else plain
    if plain == text or not PLAIN.fullmatch(plain):
        return ""
    return f"a time has a point, and digits on both sides of it: {text} is {written(Fraction(plain))}"


def fault_of_time(text: str, sort: resc.Sort) -> str:
    no_times = (told.format(text) for form, told in NO_TIMES if re.fullmatch(form, text, re.DOTALL))
    told = in_other_form(text) or next(no_times, "")
    if told or not PLAIN.fullmatch(text):
        return told
    return f"{LIMITS.get(sort, 'a time is at most 10,000 seconds')}, and not {text}"


def time(scene: Scene) -> List[str]:
    wrong = first_wrong(scene.words, resc.TIME)
    return texts(fault_of_time(wrong[1].strip('"'), wrong[0])) if wrong else []
