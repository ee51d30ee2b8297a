"""Tries tools/recipes on pages of a few lines: that it takes what is so, tells what is not with the line of the
comment, and passes over what needs a program that is not installed. It needs no program: a stand-in does nothing."""
import os
import shutil
from typing import Tuple

from labtools.common.program import TOP
from tests.commands import Commands

RIGHT = """# A page

<!-- file a/one -->

    one
      two

<!-- run cat a/one -->

    one
      two

<!-- run cat a/one; exit 3 = 3 -->

    one
      two

<!-- do -->

    grep -q two a/one
    test -d demo -a -x lab -a -d tools

<!-- run printf '| One | Two |\\n|---|---|\\n' -->

| One | Two |
|---|---|

<!-- lines of VERSION -->

    VERSION
"""
# What a page says, and what is told of it, if that ends with 1.
WRONG = (
    ("<!-- run echo two -->\n\n    one\n", "1: `echo two` printed\ntwo\n\n"),
    ("\n\n<!-- run echo one = 1 -->\n\n    one\n", "3: `echo one` ended with 0 instead of 1 and printed\none\n\n"),
    (
        "<!-- run echo one; exit 4 -->\n\n    one\n",
        "1: `echo one; exit 4` ended with 4 instead of 0 and printed\none\n\n",
    ),
    ("<!-- run echo one -->\n\n| one |\n", "1: `echo one` printed\none\n\n"),
    ("<!-- run echo one -->\n\nNot at once.\n\n| one |\n", "1: no block follows the comment\n"),
    ("<!-- do -->\n\n    echo one\n    false\n    echo two\n", "1: the commands ended with 1 and printed\none\n\n"),
    ("<!-- lines of VERSION -->\n\n    none of these\n", "1: VERSION does not have these lines\n"),
    ("<!-- run true -->\nThe block is missing.\n", "1: no block follows the comment\n"),
)


class Recipes(Commands):
    def try_page(self, text: str) -> Tuple[int, str, str]:
        """Returns how a run over a page ends, what it prints, and the page's name there."""
        self.write("page.md", text)
        page = self.room / "page.md"
        return (*self.call(TOP / "tools/recipes", page, LAB=str(shutil.which("true"))), os.path.relpath(page, TOP))

    def test_what_is_so_is_taken(self) -> None:
        text = RIGHT.replace("    VERSION\n", f"    {(TOP / 'VERSION').read_text(encoding='utf-8')}")
        self.assertEqual(self.try_page(text)[:2], (0, ""))

    def test_what_is_not_so_is_told_with_its_line(self) -> None:
        for text, told in WRONG:
            with self.subTest(text=text):
                status, printed, name = self.try_page(text)
                self.assertEqual((status, printed), (1, f"{name}:{told}"))

    def test_what_needs_an_absent_program_is_passed_over(self) -> None:
        status, printed, name = self.try_page("<!-- run false with no-such-program -->\n\n    one\n")
        self.assertEqual((status, printed), (0, f"passed over: 1 block of {name}, without no-such-program\n"))
        self.assertEqual(self.try_page("<!-- run echo one with bash -->\n\n    one\n")[:2], (0, ""))
        self.assertEqual(self.try_page("<!-- run false with bash -->\n\n    one\n")[0], 1)
