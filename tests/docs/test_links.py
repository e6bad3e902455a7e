"""Each link of the documents leads somewhere, and each place in this repository that they name is there."""
from __future__ import annotations

import re
import unittest
from collections.abc import Iterator
from pathlib import Path

TOP = Path(__file__).resolve().parents[2]
DOCUMENTS = [TOP / "README.md", TOP / "CHANGELOG.md", *sorted((TOP / "docs").glob("*.md"))]
LINK = re.compile(r"\]\(([^)\s]+)\)")
PLACE = re.compile(r"`((?:docs|crates|lib|tests|tools|bench|examples|\.ci)/[\w./-]+)`")
FILE_OF_A_CRATE = re.compile(r"`((?:sv8_|sparc8)\w*/[\w./-]+)`")
PLACEHOLDER = re.compile(r"(?:^|/)(?:[A-Z]+|NAME[-.][\w.-]*)(?=/|$)")
HEAD = re.compile(r"^#+ (.*)$", re.MULTILINE)


def anchor(head: str) -> str:
    """The name by which a link finds a heading, as those who show Markdown make it."""
    return re.sub(r"[^\w\- ]", "", head.lower()).replace(" ", "-")


def links(document: Path) -> Iterator[str]:
    """What the links of a document name, but for places on other machines."""
    for link in LINK.findall(document.read_text()):
        if not re.match(r"[a-z]+:", link):
            yield link


class Links(unittest.TestCase):
    def test_each_link_leads_to_a_file(self) -> None:
        for document in DOCUMENTS:
            for link in links(document):
                with self.subTest(document=document.name, link=link):
                    self.assertTrue((document.parent / link.partition("#")[0]).exists())

    def test_each_link_into_a_document_leads_to_a_heading(self) -> None:
        for document in DOCUMENTS:
            for link in links(document):
                path, _, name = link.partition("#")
                if name:
                    target = document.parent / path if path else document
                    with self.subTest(document=document.name, link=link):
                        self.assertIn(name, [anchor(head) for head in HEAD.findall(target.read_text())])

    def test_each_place_that_is_named_is_there(self) -> None:
        for document in DOCUMENTS:
            if document.name != "CHANGELOG.md":
                for place in PLACE.findall(document.read_text()):
                    with self.subTest(document=document.name, place=place):
                        self.assertTrue(PLACEHOLDER.search(place) or (TOP / place).exists())

    def test_each_file_of_a_crate_that_is_named_is_there(self) -> None:
        for document in DOCUMENTS:
            if document.name != "CHANGELOG.md":
                for place in FILE_OF_A_CRATE.findall(document.read_text()):
                    with self.subTest(document=document.name, place=place):
                        self.assertTrue((TOP / "crates" / place).exists())

    def test_each_document_stands_in_the_index(self) -> None:
        index = (TOP / "docs/README.md").read_text()
        for document in sorted((TOP / "docs").glob("*.md")):
            if document.name != "README.md":
                self.assertIn(f"]({document.name})", index)


if __name__ == "__main__":
    unittest.main()
