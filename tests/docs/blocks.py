"""The blocks of the documents: what each of them is, and what stands in it.

A block is fenced, or indented by four spaces after a blank line. Its first line or its fence says what it is (`Kind`).
"""
from __future__ import annotations

import re
from collections.abc import Iterable, Iterator, Sequence
from dataclasses import dataclass, field
from enum import Enum
from pathlib import Path

from rubliman.asking.script import lines_behind

TOP = Path(__file__).resolve().parents[2]
DOCUMENTS = (TOP / "README.md", TOP / "CHANGELOG.md", *sorted((TOP / "docs").glob("*.md")))
COMMAND, SHELL, PROMPT = "> ", "$ ", "(gdb) "
_INDENT = 4
_FENCE = re.compile(r"( *)(```+|~~~+) *([^` ]*) *")
_ITEM = re.compile(r" *(?:[-*+]|\d+[.)]) +(?=\S)")


class Kind(Enum):
    """What a block is. The value is the word of its fence, if it has one."""

    SESSION = "> "  # commands of the monitor, each with its answer
    SHELL = "$ "  # commands of the shell, each with what it prints
    GDB = "(gdb) "  # a session of GDB
    SH = "sh"  # pasted as it stands into a shell at the top of the repository
    OUTPUT = "output"  # what the `sh` block before it prints
    SPARC = "sparc"  # source lines of the assembler
    RUST = "rust"  # an excerpt of the sources
    AGDA = "agda"  # the same
    TEXT = "text"  # a form or a picture


_FENCED = {it.value: it for it in (Kind.SH, Kind.OUTPUT, Kind.SPARC, Kind.RUST, Kind.AGDA, Kind.TEXT)}
KINDS = (
    "a block begins with `> ` (a session) or `$ ` (shell commands), has lines of `(gdb) `, or is fenced as one of "
    + ", ".join(_FENCED)
)


@dataclass(frozen=True)
class Block:
    """A block of a document: the number of its first line, the word of its fence, and its lines without indentation."""

    document: Path
    line: int
    fence: str
    lines: tuple[str, ...]

    @property
    def name(self) -> str:
        """The document, as a reader knows it."""
        return str(self.document.relative_to(TOP))

    @property
    def kind(self) -> Kind | None:
        """What it is; none where the convention has no such block."""
        if self.fence:
            return _FENCED.get(self.fence)
        if any(it.startswith(PROMPT) for it in self.lines):
            return Kind.GDB
        first = self.lines[0] if self.lines else ""
        return next((it for it in (Kind.SESSION, Kind.SHELL) if first.startswith(it.value)), None)

    @property
    def text(self) -> str:
        """Its lines as one text."""
        return "".join(f"{it}\n" for it in self.lines)


@dataclass
class _Reader:
    """Takes a document apart, line by line."""

    document: Path
    lines: Sequence[str]
    at: int = 0
    # Where the text of each list item begins that is open at this line.
    items: list[int] = field(default_factory=list)
    # The lines that belong to no block, with their numbers.
    others: list[tuple[int, str]] = field(default_factory=list)

    def blocks(self) -> Iterator[Block]:
        """Its blocks, in order."""
        while self.at < len(self.lines):
            line = self.lines[self.at]
            fence = _FENCE.fullmatch(line)
            if fence:
                yield self._fenced(*fence.groups())
            elif line.strip() and self._is_indented(line):
                yield self._indented()
            else:
                self._pass(line)

    def _pass(self, line: str) -> None:
        """Passes a line of prose."""
        item = _ITEM.match(line)
        if item:
            self._leave(_indent(line))
            self.items.append(item.end())
        elif line.strip() and self._is_after_blank():
            self._leave(_indent(line))
        self.others.append((self.at + 1, line))
        self.at += 1

    def _leave(self, indent: int) -> None:
        """Leaves the list items that a line so far to the left does not belong to."""
        while self.items and self.items[-1] > indent:
            self.items.pop()

    def _is_after_blank(self) -> bool:
        """Whether the line before is blank or a heading, so that no paragraph goes on here."""
        before = self.lines[self.at - 1] if self.at else ""
        return not before.strip() or before.startswith("#")

    def _is_indented(self, line: str) -> bool:
        """Whether an indented block begins here: within a list item it stands further to the right."""
        if not self._is_after_blank():
            return False
        self._leave(_indent(line))
        return _indent(line) >= self._width()

    def _width(self) -> int:
        """How far an indented block stands to the right here."""
        return _INDENT + (self.items[-1] if self.items else 0)

    def _fenced(self, indent: str, fence: str, word: str) -> Block:
        """The block of the fence at this line, which is passed with its end."""
        begin = self.at + 1
        ends = (at for at in range(begin, len(self.lines)) if self.lines[at].strip() == fence)
        end = next(ends, len(self.lines))
        self.at = end + 1
        found = (it[min(len(indent), _indent(it)) :] for it in self.lines[begin:end])
        # A fence without a word is named as what its lines are.
        return Block(self.document, begin + 1, word, tuple(found))

    def _indented(self) -> Block:
        """The indented block at this line, which is passed."""
        begin, width = self.at, self._width()
        while self.at < len(self.lines) and (not self.lines[self.at].strip() or _indent(self.lines[self.at]) >= width):
            self.at += 1
        while not self.lines[self.at - 1].strip():
            self.at -= 1
        found = (it[width:] for it in self.lines[begin : self.at])
        return Block(self.document, begin + 1, "", tuple(found))


def _indent(line: str) -> int:
    """How many spaces a line begins with."""
    return len(line) - len(line.lstrip(" "))


def blocks(document: Path, *kinds: Kind) -> list[Block]:
    """The blocks of a document, in order: those of these kinds, or all where none is named."""
    found = _Reader(document, document.read_text(encoding="utf-8").splitlines()).blocks()
    return [it for it in found if not kinds or it.kind in kinds]


def strays(document: Path) -> list[int]:
    """The numbers of the lines that look as if they were of a block that is run, and are of none."""
    reader = _Reader(document, document.read_text(encoding="utf-8").splitlines())
    for _ in reader.blocks():
        pass
    marks = (COMMAND, SHELL, PROMPT)
    return [number for number, it in reader.others if _indent(it) >= 2 and it.lstrip().startswith(marks)]


@dataclass
class Exchange:
    """A command of a session with the source lines that it takes, and the lines of its answer but for `ok`."""

    name: str
    line: int
    said: list[str]
    due: list[str] = field(default_factory=list)

    @property
    def is_whole(self) -> bool:
        """Whether all source lines that it takes are there."""
        return len(self.said) == 1 + lines_behind(self.said[0])


def exchanges(found: Iterable[Block]) -> Iterator[Exchange]:
    """The commands of sessions, in order, each with its answer."""
    last: Exchange | None = None
    for block in found:
        for number, line in enumerate(block.lines, block.line):
            # An editor may have dropped the space of an empty source line.
            is_said = line.startswith(COMMAND) or line == COMMAND.rstrip()
            if last and is_said and not last.is_whole and not last.due:
                last.said.append(line[len(COMMAND) :])
            elif is_said:
                if last:
                    yield last
                last = Exchange(block.name, number, [line[len(COMMAND) :]])
            elif last:
                last.due.append(line)
    if last:
        yield last


@dataclass
class Example:
    """A command of the shell, and the lines that it prints."""

    name: str
    line: int
    command: str
    due: list[str] = field(default_factory=list)


def examples(found: Iterable[Block]) -> Iterator[Example]:
    """The commands of the shell in blocks, in order, each with what it prints."""
    last: Example | None = None
    for block in found:
        for number, line in enumerate(block.lines, block.line):
            if line.startswith(SHELL):
                if last:
                    yield last
                last = Example(block.name, number, line[len(SHELL) :])
            elif last and not last.due and (line.startswith(COMMAND) or line == COMMAND.rstrip()):
                last.command += "\n" + line[len(COMMAND) :]
            elif last:
                last.due.append(line)
    if last:
        yield last


def pattern(due: Iterable[str]) -> re.Pattern[str]:
    """What an output has to match: `..` is any text of a line, and alone any lines."""
    parts = (r"(?:.*\n)*" if it == ".." else ".*".join(map(re.escape, it.split(".."))) + r"\n" for it in due)
    return re.compile(rf"\A{''.join(parts)}\Z")
