"""Completion for bash of the scripts of tools/, by what they answer to --help. It knows no script by itself."""
from typing import Dict, Iterable, List

from labtools.common import heads

# What is offered where a word of these stands: files, folders, or scripts and the folders that lead to them.
FILES, FOLDERS, SCRIPTS, NOTHING = "files", "folders", "scripts", "nothing"
KINDS = dict.fromkeys(("FILE", "LOG", "SNAPSHOT", "PROGRAM", "BOARD=ELF"), FILES)
KINDS.update(FOLDER=FOLDERS, SCRIPT=SCRIPTS)


def kind_of(words: Iterable[str]) -> str:
    """Returns what is offered for one of these words: what serves all of them."""
    kinds = [KINDS.get(word, NOTHING) for word in words]
    return next((kind for kind in (FILES, SCRIPTS, FOLDERS) if kind in kinds), NOTHING)


def array(name: str, values: Dict[str, str]) -> str:
    return "".join(f"{name}[{key!r}]='{value}'\n" for key, value in values.items())


def completion(answers: Dict[str, str]) -> str:
    """Returns what follows packaging/completion.bash: the options and the operands of each script, by its answer."""
    options: Dict[str, str] = {}
    values: Dict[str, str] = {}
    operands: Dict[str, str] = {}
    for name, answer in answers.items():
        forms = heads.read(answer).forms
        taken: List[str] = [option for form in forms for option, _ in form.options()]
        options[name] = " ".join([*dict.fromkeys(taken), "--help"])
        values.update({f"{name} {it}": kind_of([word]) for form in forms for it, word in form.options() if word})
        operands[name] = kind_of(word for form in forms for word in form.operands())
    names = " ".join(f"lab-{name} tools/{name}" for name in answers)
    tables = {"_lab_options": options, "_lab_values": values, "_lab_operands": operands}
    return "".join(array(*it) for it in tables.items()) + f"complete -F _lab_script {names}\n"
