"""Every block of every document is of a known kind, and is run or compared as its kind says."""
from __future__ import annotations

import unittest
from collections.abc import Callable
from functools import cache
from pathlib import Path

from docs.blocks import DOCUMENTS, KINDS, TOP, Block, Kind, blocks, strays
from docs.running import check_pasted, check_session, check_shell, check_source, place
from docs.stand_in import Wrong, check_options, help_text

# The documents whose blocks of a kind are tests of their own.
ELSEWHERE = {
    ("docs/MONITOR.md", Kind.SESSION): "monitor/test_guide.py",
    ("docs/IMPORT.md", Kind.SHELL): "importer/test_guide.py",
}
SESSIONS = TOP / "tests/gdb/sessions"
SOURCES = (".rt", ".antt", ".rs", ".edit", ".txt")
LEFT_OUT = ".."


def name_of(document: Path) -> str:
    """A document as the tests name it."""
    return str(document.relative_to(TOP))


@cache
def source_lines() -> frozenset[str]:
    """Every line of the sources, without its indentation."""
    files = (it for it in (TOP / "crates").rglob("*") if it.suffix in SOURCES and "out" not in it.parts)
    return frozenset(line.strip() for it in files for line in it.read_text(errors="replace").splitlines())


@cache
def gdb_sessions() -> tuple[str, ...]:
    """The sessions with GDB that are tested."""
    return tuple(it.read_text(encoding="utf-8") for it in sorted(SESSIONS.glob("*.txt")))


class Kinds(unittest.TestCase):
    """What needs no program."""

    def test_each_block_is_of_a_known_kind(self) -> None:
        for document in DOCUMENTS:
            for it in blocks(document):
                with place(self, it.name, it.line):
                    if it.kind is None:
                        self.fail(f"a block of no known kind ({it.fence or it.lines[0]!r}): {KINDS}")

    def test_each_block_has_lines(self) -> None:
        for document in DOCUMENTS:
            for it in blocks(document):
                with place(self, it.name, it.line):
                    self.assertTrue(it.lines)

    def test_no_command_stands_outside_a_block(self) -> None:
        for document in DOCUMENTS:
            for line in strays(document):
                with place(self, name_of(document), line):
                    self.fail("it is in no block: a blank line or a paragraph before it is missing, or indentation")

    def test_an_output_follows_what_prints_it(self) -> None:
        for document in DOCUMENTS:
            found = blocks(document)
            for before, it in zip([None, *found], found):
                if it.kind is Kind.OUTPUT:
                    with place(self, it.name, it.line):
                        if not before or before.kind is not Kind.SH:
                            self.fail("no `sh` block stands before this output")

    def test_each_line_of_an_excerpt_is_one_of_the_sources(self) -> None:
        for document in DOCUMENTS:
            for block in blocks(document, Kind.RUST, Kind.AGDA):
                for number, line in enumerate(block.lines, block.line):
                    if line.strip() not in ("", LEFT_OUT):
                        with place(self, block.name, number):
                            if line.strip() not in source_lines():
                                self.fail(f"no file below crates/ has this line: {line}")

    def test_each_session_of_gdb_is_a_tested_one(self) -> None:
        for document in DOCUMENTS:
            for it in blocks(document, Kind.GDB):
                with place(self, it.name, it.line):
                    if not any(it.text in text for text in gdb_sessions()):
                        self.fail("no file of tests/gdb/sessions has this session")

    def test_each_form_has_known_options(self) -> None:
        for document in DOCUMENTS:
            for block in blocks(document, Kind.TEXT):
                for number, line in enumerate(block.lines, block.line):
                    if line.lstrip().startswith("./sparc8") and "--import" not in line:
                        with place(self, block.name, number):
                            self.check_form(line)

    def check_form(self, line: str) -> None:
        """The options of a form are those of the command."""
        try:
            check_options(line.split(), help_text(), "./sparc8 --help prints")
        except Wrong as problem:
            self.fail(str(problem))


class Blocks(unittest.TestCase):
    """A test for each document and each kind of block that is run in it."""

    def test_what_is_tested_elsewhere_is_tested(self) -> None:
        for (name, kind), file in ELSEWHERE.items():
            with self.subTest(document=name, kind=kind):
                self.assertTrue(blocks(TOP / name, kind))
                self.assertIn(f"Kind.{kind.name}", (TOP / "tests" / file).read_text(encoding="utf-8"))


def check_sources(test: unittest.TestCase, found: list[Block]) -> None:
    """Each block of source lines stands for itself."""
    for it in found:
        check_source(test, it)


RUN = {
    "session": ((Kind.SESSION,), check_session),
    "shell": ((Kind.SHELL,), check_shell),
    "pasted": ((Kind.SH, Kind.OUTPUT), check_pasted),
    "source": ((Kind.SPARC,), check_sources),
}


def running(
    check: Callable[[unittest.TestCase, list[Block]], None], document: Path, kinds: tuple[Kind, ...]
) -> Callable[[Blocks], None]:
    """The test of a document's blocks of some kinds."""
    return lambda self: check(self, blocks(document, *kinds))


for _document in DOCUMENTS:
    for _what, (_kinds, _check) in RUN.items():
        if blocks(_document, *_kinds) and (name_of(_document), _kinds[0]) not in ELSEWHERE:
            _name = name_of(_document).replace("/", "_").removesuffix(".md")
            setattr(Blocks, f"test_{_what}_of_{_name}", running(_check, _document, _kinds))


if __name__ == "__main__":
    unittest.main()
