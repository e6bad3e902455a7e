"""What docs/PROVED.md says carries a promise is there, in the crate under whose heading it stands."""
from __future__ import annotations

import re
import unittest

from docs.support import TOP, rows, words_of

SECTION = re.compile(r"^### ((?:\w+, )*\w+): .*?$(.*?)(?=^##|\Z)", re.MULTILINE | re.DOTALL)
NAME = re.compile(r"`([A-Za-z_][\w:]*)`")


def words_of_crate(crate: str) -> set[str]:
    """Every word of a crate's code and definitions."""
    folder = TOP / "crates" / crate
    return words_of([*folder.glob("src/**/*.rt"), *folder.glob("specs/**/*.antt")])


def carriers(section: str) -> set[str]:
    """The names in the last column of a section's table, a method's without its type."""
    return {name.rpartition("::")[2] for row in rows(section) for name in NAME.findall(row[-1])}


class Proved(unittest.TestCase):
    def test_each_name_is_one_of_its_crate(self) -> None:
        sections = SECTION.findall((TOP / "docs/PROVED.md").read_text())
        self.assertGreater(len(sections), 15)
        for head, section in sections:
            names, words = carriers(section), set().union(*(words_of_crate(crate) for crate in head.split(", ")))
            with self.subTest(crates=head):
                strange = (name for name in names - words if not name.startswith("sv8_"))
                self.assertEqual(sorted(strange), [])

    def test_each_crate_has_a_place(self) -> None:
        text = (TOP / "docs/PROVED.md").read_text()
        for line in (TOP / "crates.txt").read_text().splitlines():
            if line and not line.startswith("#"):
                self.assertRegex(text, rf"\b{line.partition(':')[0].split()[0]}\b")


if __name__ == "__main__":
    unittest.main()
