"""Tries tools/wrong, and that the gate asks for it, in a repository of three crates with a stand-in for the kit, which
keeps its calls. `rt must-fail` refuses each edit that does not say `harmless`. `rt check` says of each function what
the body in it asks for by a word, in lines as rattle-kit-13f prints them. The answers were written down by hand
beforehand."""
import os
import shutil
from typing import List

from labtools.common.program import TOP
from tests.commands import Commands

KIT = """#!/usr/bin/env python3
import os, pathlib, re, signal, sys

words = sys.argv[1:]
with open(os.environ["CALLS"], "a") as calls:
    print(*words, *sorted(pathlib.Path(".").glob("crates/*/out/*/*")), file=calls)
if words[0] == "must-fail":
    for edit in sorted(pathlib.Path(".").glob("crates/*/must-fail/*.edit")):
        is_harmless = "harmless" in edit.read_text()
        said = "NOT REFUSED: the crate is still proved with this edit"
        said = said if is_harmless else "refused, as it must be: src/lib.rt:1:1: error"
        print(f"rt: must-fail {edit.parts[1]}/{edit.name}: {said}")
if words[0] != "check":
    print("the text of a proof")
    print("3 passed, 0 failed")
    sys.exit()
symbol_of = {"low::one": "low::one", "low::three": "low::three", "Pair::two": "low::pair::Pair::two"}
texts = {it: it.read_text() for it in sorted(pathlib.Path("src").rglob("*.rt"))}
text, place_of = "".join(texts.values()), {}
for path, lines in texts.items():
    for number, line in enumerate(lines.split("\\n"), 1):
        place_of.update({it: f"{path}:{number}:5" for it in re.findall(r"\\bfn (\\w+)", line)})
status, asked = 0, words[2::2]
if "broken" in text:
    print("src/lib.rt:1:1: error: it is no Rust")
    sys.exit(1)
for name in asked:
    symbol, last = symbol_of[name], name.split("::")[-1]
    body = re.search(r"(?ms)^( *)(?:pub )?fn " + last + r"\\b.*?^\\1}$", text)[0]
    words = "proved"
    note = f"note: {place_of[last]}: it is not proved that it ensures this (`returns`)"
    if "wrong" in body:
        print(note.replace(":5:", ":50:", 1) if "elsewhere" in body else note)
        words = "no proof: expected answers in ./proofs/Answers.antt; `search` did not prove `returns`"
        words += "; it calls `low::one`, which is not proved" if "beside" in body else ""
    elif "through" in body:
        words = "no proof: it calls `low::one`, which is not proved"
    elif "answered" in body:
        print(f"./proofs/{last}/Answers.antt:6:5: error: `returns`: the two types differ")
        words = "not proved"
    elif "renamed" in body:
        print(f"./proofs/{last}/Answers.antt:6:5: error: `gone` is not in scope")
        if "goal" in body:
            print(note)
        words = "not proved"
    elif "lemma" in body:
        print("./proofs/Lemmas.antt:6:5: error: `rule` was not admitted")
        words = "not proved"
    elif "uncovered" in body:
        words = "no proof: the borrow checker does not cover it"
    elif "limit" in body:
        words, status = "could not tell", 3
    elif "killed" in body:
        sys.stdout.flush()
        os.kill(os.getpid(), signal.SIGKILL)
    if "unsaid" not in body:
        print(f"fn {symbol}: {words}")
    status = status or int(words != "proved")
if "other" in text:
    print("fn low::other: no proof: `search` did not prove `returns`")
if "endless" not in text:
    print(f"only={len(asked)} proved=0")
sys.exit(status)
"""
STALE = "these crates have changed since their wrong bodies were tried: run tools/wrong"

SOURCE = """/// Numbers.
const MOST: u8 = 1;

/// The first.
pub fn one() -> u8
    ensures { result ≡ 1 }
{
    1
}

/// The third.
#[cycle(three)]
fn three() -> u8 {
    3
}
"""
PAIR = """pub struct Pair;

impl Pair {
    /// The second.
    pub fn two(&self) -> u8
        requires below { MOST ≤ 1 }

        // What it is.
        ensures { result ≡ 2 }
    {
        one() + 1
    }
}

impl Number for Pair {
    fn number(&self) -> u8 {
        4
    }
}
"""
FIRST, SECOND, ALONE = "check --only low::one", "check --only Pair::two", "must-fail low"
CHECKED = f"{FIRST} --only Pair::two"
NOTE = "note: src/lib.rt:5:5: it is not proved that it ensures this (`returns`)"
OTHER = NOTE.replace("lib", "pair")
REFUSED = "rt: must-fail low/first.edit: refused, as it must be: src/lib.rt:1:1: error"


class Repository(Commands):
    """The three crates, the kit and the tools."""

    def setUp(self) -> None:
        super().setUp()
        self.calls = self.room / "calls"
        self.calls.touch()
        self.room /= "lab"
        for name in "tools", "python", ".ci":
            shutil.copytree(TOP / name, self.room / name, symlinks=True)
        self.write("crates.txt", "low:\nhigh: low\nlab_cli: low high\n")
        self.write("HANDLES", "Handles allowed: none.\n")
        for crate in "low", "high", "lab_cli":
            self.write(f"crates/{crate}/src/lib.rt", f"// {crate}\n")
        self.write("crates/low/wrong/one.edit", "file: src/lib.rt\nold: low\nnew: high\n")
        self.write("crates/high/wrong/two.edit", "file: src/lib.rt\nold: high\nnew: low\n")
        self.write("crates/high/must-fail/named.edit", "file: src/lib.rt\nold: high\nnew: no\n")
        self.write("kit/rt", KIT, 0o755)
        path = f"{self.room}/kit:{os.environ['PATH']}"
        self.environment.update({"PATH": path, "CALLS": str(self.calls)})

    def says(self, status: int, lines: List[str], *words: str) -> None:
        ended, said = self.call("tools/wrong", *words)
        self.assertEqual((ended, said.splitlines()), (status, lines), words)

    def called(self) -> List[str]:
        """Returns the calls of the kit since the last look."""
        calls = self.calls.read_text(encoding="utf-8").splitlines()
        self.calls.write_text("", encoding="utf-8")
        return calls


class Wrong(Repository):
    def try_all(self) -> None:
        self.wants(0, "", "tools/wrong", "--all")
        self.called()

    def test_edits_that_were_refused_are_kept_and_others_of_the_crate_are_not_tried(self) -> None:
        refused = "rt: must-fail low/one.edit: refused, as it must be: src/lib.rt:1:1: error"
        self.says(0, [refused, "1 wrong body refused in 1 crate"], "low")
        self.assertEqual(self.called(), ["must-fail low"])
        self.assertTrue((self.room / "crates/low/wrong/tried").is_file())
        self.says(1, [f"{STALE} high"], "--check")
        both = [refused.replace("low/one", "high/two"), refused, "2 wrong bodies refused in 2 crates"]
        self.says(0, both, "--all")
        self.says(0, ["2 wrong bodies tried over the present sources, and all refused"], "--check")
        self.assertEqual(self.called(), ["must-fail high low"])

    def test_the_built_libraries_below_are_taken_along(self) -> None:
        for name in "low/out/rlib/stamp", "low/out/incremental/kept", "lab_cli/out/rlib/stamp":
            self.write(f"crates/{name}", "")
        self.wants(0, "", "tools/wrong", "high")
        self.assertEqual(self.called(), ["must-fail high crates/low/out/rlib/stamp"])

    def test_a_change_of_a_crate_or_of_its_edits_is_seen(self) -> None:
        changes = {
            "crates/low/src/more.rt": "// more\n",
            "crates/low/src/lib.rt": "// lower\n",
            "crates/low/specs/deep/Lib.antt": "\n",
            "crates/low/proofs/Lib.antt": "\n",
            "crates/low/wrong/one.edit": "file: src/lib.rt\nold: low\nnew: lower\n",
            "crates/low/wrong/three.edit": "file: src/lib.rt\nold: low\nnew: lower\n",
            "crates.txt": "low: indexmap\nhigh: low\nlab_cli: low high\n",
        }
        for path, text in changes.items():
            with self.subTest(path=path):
                self.try_all()
                self.write(path, text)
                self.says(1, [f"{STALE} low"], "--check")
        self.try_all()
        (self.room / "crates/low/wrong/three.edit").unlink()
        self.says(1, [f"{STALE} low"], "--check")
        self.wants(0, "", "tools/wrong", "--stale")
        self.assertEqual(self.called(), ["must-fail low"])
        self.says(0, [], "--stale")
        self.assertEqual(self.called(), [])

    def test_what_a_crate_below_changes_is_no_change(self) -> None:
        self.try_all()
        self.write("crates/low/src/lib.rt", "// lower\n")
        self.says(1, [f"{STALE} low"], "--check")

    def test_an_edit_that_is_not_refused_is_told_and_nothing_is_kept_of_its_crate(self) -> None:
        self.write("crates/low/wrong/none.edit", "file: src/lib.rt\nold: low\nnew: harmless\n")
        self.wants(1, "crates/low/wrong/none.edit was not refused\n", "tools/wrong", "low", "high")
        self.says(1, [f"{STALE} low"], "--check")

    def test_the_gate_fails_before_it_proves_where_a_crate_has_changed(self) -> None:
        self.try_all()
        self.write("crates/high/src/lib.rt", "// higher\n")
        self.assertEqual(self.call(".ci/run"), (1, f"{STALE} high\n"))
        self.assertEqual(self.called(), [])
        self.try_all()
        self.assertIn("2 wrong bodies tried over the present sources, and all refused", self.call(".ci/run")[1])
        self.assertEqual(self.called(), ["ci"])

    def test_other_words_are_refused(self) -> None:
        usage = "tools/wrong NAME .. | --stale | --all | --check"
        self.says(2, [f"tools/wrong: wrong arguments; usage: {usage}"])
        self.says(2, [f"tools/wrong: wrong arguments; usage: {usage}"], "--all", "low")
        self.says(2, [f"tools/wrong: wrong arguments; usage: {usage}"], "--alle")
        self.says(2, [f"tools/wrong: crates/lab_cli/wrong has no edits; usage: {usage}"], "lab_cli")


class Batches(Repository):
    """Edits of which some are tried together."""

    def setUp(self) -> None:
        super().setUp()
        self.write("crates/low/src/lib.rt", SOURCE)
        self.write("crates/low/src/pair.rt", PAIR)
        (self.room / "crates/low/wrong/one.edit").unlink()

    def edit(self, name: str, old: str, new: str, file: str = "src/lib.rt") -> None:
        self.write(f"crates/low/wrong/{name}.edit", f"file: {file}\nold: {old}\nnew: {new}\n")

    def edit_both(self, first: str, second: str = "wrong") -> None:
        """Writes an edit of one function and one of another, each with what the kit is to say of it."""
        self.edit("first", "    1", f"    2 // {first}")
        self.edit("second", "one() + 1", f"one() + 2 // {second}", "src/pair.rt")

    def test_edits_of_different_functions_are_tried_by_one_check_of_them(self) -> None:
        for second in "wrong", "wrong beside":
            with self.subTest(second=second):
                self.edit_both("wrong", second)
                lines = [
                    f"low/first.edit: refused with others: {NOTE}",
                    f"low/second.edit: refused with others: {OTHER}",
                ]
                self.says(0, [*lines, "2 wrong bodies refused in 1 crate"], "low")
                # (once without the edits, and once with both)
                self.assertEqual(self.called(), [CHECKED, CHECKED])
                self.assertEqual(self.read("crates/low/src/lib.rt"), SOURCE)
                self.says(1, [f"{STALE} high"], "--check")

    def test_an_error_in_the_proof_of_its_function_refuses_an_edit(self) -> None:
        error = "./proofs/one/Answers.antt:6:5: error: `returns`: the two types differ"
        for said, why in ("answered", error), ("renamed goal", NOTE):
            with self.subTest(said=said):
                self.edit_both(said)
                self.wants(0, f"low/first.edit: refused with others: {why}\n", "tools/wrong", "low")
                self.assertEqual(self.called(), [CHECKED, CHECKED])

    def test_edits_of_one_function_are_tried_one_after_another(self) -> None:
        self.edit("first", "    1", "    2 // wrong")
        self.edit("second", "    1", "    3 // wrong")
        self.wants(0, "2 wrong bodies refused", "tools/wrong", "low")
        self.assertEqual(self.called(), [FIRST] * 3)

    def test_what_is_no_answer_is_tried_alone(self) -> None:
        halves = [CHECKED, CHECKED, FIRST, SECOND, ALONE]
        checks = {
            # what is said of one function alone
            "through": [CHECKED, CHECKED, FIRST, ALONE],
            "renamed": [CHECKED, CHECKED, ALONE],
            "wrong elsewhere": [CHECKED, CHECKED, ALONE],
            "uncovered": [CHECKED, CHECKED, ALONE],
            # what makes a check say nothing of either
            **{it: halves for it in ("lemma", "limit", "killed", "broken", "unsaid", "other", "endless")},
        }
        for said, calls in checks.items():
            with self.subTest(said=said):
                self.edit_both(said)
                lines = [
                    f"low/second.edit: refused with others: {OTHER}",
                    REFUSED,
                    "2 wrong bodies refused in 1 crate",
                ]
                self.says(0, lines, "low")
                self.assertEqual(self.called(), calls)

    def test_an_edit_whose_function_is_still_proved_is_left_to_the_kit(self) -> None:
        self.edit_both("harmless")
        self.wants(1, "crates/low/wrong/first.edit was not refused\n", "tools/wrong", "low")
        self.assertEqual(self.called(), [CHECKED, CHECKED, ALONE])
        self.says(1, [f"{STALE} high low"], "--check")

    def test_an_edit_of_a_function_that_is_not_proved_without_it_is_tried_alone(self) -> None:
        before = {"through": [CHECKED, SECOND, ALONE], "limit": [CHECKED, FIRST, SECOND, SECOND, ALONE]}
        self.edit_both("wrong")
        for said, calls in before.items():
            with self.subTest(said=said):
                self.write("crates/low/src/lib.rt", SOURCE.replace("    1", f"    1 // {said}"))
                self.wants(0, REFUSED, "tools/wrong", "low")
                self.assertEqual(self.called(), calls)

    def test_edits_of_anything_but_one_body_are_tried_alone(self) -> None:
        changes = {
            "a contract": ("result ≡ 1", "result ≡ 2"),
            "a contract and the body": ("    1", "    2\nold: result ≡ 1\nnew: result ≡ 2"),
            "two bodies": ("    1", "    2\nold:     3\nnew:     4"),
            "two files": ("    1", "    2\nfile: src/pair.rt\nold: one() + 1\nnew: one() + 2"),
            "a constant": ("u8 = 1", "u8 = 2"),
            "a signature": ("one() -> u8", "one() -> u16"),
            "functions with one proof": ("    3", "    4"),
            "another item in the body": ("    1", "    const ONE: u8 = 2; ONE"),
            "more than there is": ("one", "two"),
            "nothing": ("    1", "    1"),
            "a file that is not there": ("    1", "    2", "src/more.rt"),
            "a definition": ("one", "two", "specs/One.antt"),
            "a type": ("struct Pair", "enum Pair", "src/pair.rt"),
            "a method of a trait": ("        4", "        5", "src/pair.rt"),
        }
        self.write("crates/low/specs/One.antt", "one\n")
        for what, words in changes.items():
            with self.subTest(what=what):
                self.edit("first", *words)
                self.says(0, [REFUSED, "1 wrong body refused in 1 crate"], "low")
                self.assertEqual(self.called(), [ALONE])

    def test_an_edit_of_a_function_that_is_proved_by_hand_is_tried_alone(self) -> None:
        self.edit_both("wrong")
        self.write("crates/low/proofs/pair/Pair/two/Proof.antt", "")
        self.wants(0, REFUSED.replace("first", "second"), "tools/wrong", "low")
        self.assertEqual(self.called(), [FIRST, FIRST, ALONE])
        self.write("crates/low/proofs/one/Proof.antt", "")
        self.wants(0, REFUSED, "tools/wrong", "low")
        self.assertEqual(self.called(), [ALONE])
