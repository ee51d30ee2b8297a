"""Tries what tools/crates prints, on crates of a few lines. The layers and the tables were written down by hand."""
import contextlib
import io
from typing import List

from labdev import crates
from tests.commands import Room

LIST = """# NAME: the libraries that it uses.

low:
middle may_wait=2: byteorder low
other: low

# the program
lab_cli: low middle
middle_laws: middle
"""
SOURCES = {
    "low/src/lib.rt": "//! What is 0.5 of all. It is more.\n\npub mod low;\n",
    "middle/src/lib.rt": "//! A middle | a half\n//! of `low`.\n//!\n//! It has more to say.\npub mod middle;\n",
    "other/src/lib.rt": "//! Another one.\n",
    "lab_cli/src/main.rt": "//! The program.\nfn main() {}\n",
    "middle_laws/src/lib.rt": "//! Laws: each is a contract. They do nothing.\n",
}
HEADING = ["| Layer | Crate | What it is | Uses |", "|---|---|---|---|"]


# What is printed: the program's crates, a longest way down, what stands on crates or below them, and tables of the
# program's crates and of the others.
PRINTED = {
    "": [" 3  lab_cli", " 2  middle", " 1  low"],
    "--chain": ["lab_cli > middle > low"],
    "--above low": ["low", "middle", "other", "lab_cli", "middle_laws"],
    "--above middle": ["middle", "lab_cli", "middle_laws"],
    "--above other middle_laws": ["other", "middle_laws"],
    "--below lab_cli": ["low", "middle", "lab_cli"],
    "--below other middle_laws": ["low", "middle", "other", "middle_laws"],
    "--below low": ["low"],
    "--heads": [
        *HEADING,
        "| 3 | `lab_cli` | The program. | `low`, `middle` |",
        "| 2 | `middle` | A middle \\| a half of `low`. | `low` |",
        "| 1 | `low` | What is 0.5 of all. | none |",
    ],
    "--others": [
        *HEADING,
        "| 3 | `middle_laws` | Laws: each is a contract. | `middle` |",
        "| 2 | `other` | Another one. | `low` |",
    ],
}


class Crates(Room):
    def setUp(self) -> None:
        super().setUp()
        self.put(SOURCES)

    def printed(self, *words: str) -> List[str]:
        return crates.printed(list(words), crates.uses_of(LIST), self.room)

    def test_layers_a_chain_and_tables_are_printed(self) -> None:
        for words, lines in PRINTED.items():
            with self.subTest(words=words):
                self.assertEqual(self.printed(*words.split()), lines)

    def test_a_crate_that_does_not_say_what_it_is_ends_the_script(self) -> None:
        for source in "pub mod low;\n", "//!\n//! Late.\n", "//! No sentence\n":
            self.write("low/src/lib.rt", source)
            told = io.StringIO()
            with self.subTest(source=source), contextlib.redirect_stderr(told):
                with self.assertRaises(SystemExit) as ended:
                    self.printed("--heads")
                self.assertEqual(ended.exception.code, 1)
                self.assertIn("crates/low: neither src/lib.rt nor src/main.rt begins with a sentence", told.getvalue())
