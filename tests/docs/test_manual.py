"""What docs/MANUAL.md names for each section of the manual is there: definitions, functions, laws and cases."""
from __future__ import annotations

import re
import unittest
from collections.abc import Iterator
from functools import cache
from pathlib import Path

from docs.support import TOP, rows, words_of

CRATES = TOP / "crates"
CASES = CRATES / "sv8_cases/data"
# Names, and the file that they stand in; and the cases of a row.
NAMED = re.compile(r"((?:`[\w:]+`, )*`[\w:]+`) in `([\w/]+\.(?:antt|rt))`")
LISTED = re.compile(r"\bcases? ((?:`[\w-]+`, )*`[\w-]+`)")
QUOTED = re.compile(r"`([^`]+)`")
# The pages of appendix B.
PAGES = 34


@cache
def text_of(file: Path) -> str:
    """What stands in a file."""
    return file.read_text()


def is_defined(name: str, file: Path) -> bool:
    """Whether a file defines a name that begins with a small letter, or has the word where it begins with a capital."""
    word = name.rpartition("::")[2]
    if name[0].isupper() and "::" not in name:
        return word in words_of([file])
    before = "fn" if file.suffix == ".rt" else "pub(?: data| record)?"
    return re.search(rf"\b{before} {word}\b", text_of(file)) is not None


def named(cells: list[str]) -> Iterator[tuple[str, Path]]:
    """The names of a row, each with its file."""
    for names, file in NAMED.findall(" | ".join(cells)):
        for name in QUOTED.findall(names):
            yield name, CRATES / file


def cases(cells: list[str]) -> Iterator[str]:
    """The cases of a row."""
    for names in LISTED.findall(cells[-1]):
        yield from QUOTED.findall(names)


class Manual(unittest.TestCase):
    """The tables, row by row."""

    def setUp(self) -> None:
        self.rows = list(rows((TOP / "docs/MANUAL.md").read_text()))

    def test_each_row_names_a_definition(self) -> None:
        self.assertGreater(len(self.rows), 150)
        for cells in self.rows:
            with self.subTest(row=cells[0]):
                self.assertTrue(any(file.parent.name == "specs" for _, file in named(cells)))

    def test_each_name_is_defined_in_its_file(self) -> None:
        for cells in self.rows:
            for name, file in named(cells):
                with self.subTest(row=cells[0], name=name, file=file.name):
                    self.assertTrue(file.is_file() and is_defined(name, file))

    def test_definitions_are_no_code_and_code_is_no_definition(self) -> None:
        for cells in self.rows:
            if len(cells) == 4:
                with self.subTest(row=cells[0]):
                    self.assertEqual({file.suffix for _, file in named(cells[1:2])}, {".antt"})
                    self.assertEqual({file.suffix for _, file in named(cells[2:3])}, {".rt"})
                    laws = {file for _, file in named(cells[3:])}
                    self.assertTrue(all(it.name == "laws.rt" or it.parts[-3].endswith("_laws") for it in laws))

    def test_each_case_is_there_with_its_answer(self) -> None:
        for cells in self.rows:
            for case in cases(cells):
                with self.subTest(row=cells[0], case=case):
                    self.assertTrue((CASES / f"{case}.txt").is_file() and (CASES / f"{case}.answer").is_file())

    def test_nothing_is_named_otherwise(self) -> None:
        for cells in self.rows:
            rest = [LISTED.sub("", NAMED.sub("", cell)) for cell in cells[1 if len(cells) == 4 else 2 :]]
            with self.subTest(row=cells[0]):
                self.assertEqual(QUOTED.findall(" ".join(rest)), [])

    def test_each_page_of_appendix_b_has_a_row(self) -> None:
        heads = " ".join(cells[0] for cells in self.rows if len(cells) == 4)
        for page in range(1, PAGES + 1):
            self.assertRegex(heads, rf"\bB\.{page}\b")


if __name__ == "__main__":
    unittest.main()
