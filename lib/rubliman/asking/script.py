"""A script of the workbench, taken apart as the program takes it apart."""
from __future__ import annotations

import re
from collections.abc import Iterator
from dataclasses import dataclass

# What asks and changes nothing.
QUESTIONS = frozenset("list regs mem out steps windows where names events before part differ".split())
_NUMBER = r"[0-9]{1,10}"
_EDIT = re.compile(rf"edit[ \t]+({_NUMBER})[ \t]+({_NUMBER})[ \t]+({_NUMBER})")


@dataclass(frozen=True)
class Command:
    """A command: the number of its line, its own line, the lines that it takes behind it, and how many it wants."""

    number: int
    line: str
    given: list[str]
    wanted: int

    @property
    def words(self) -> list[str]:
        """The words of its line; none where the line is blank, which has no answer."""
        return self.line.split()

    @property
    def is_whole(self) -> bool:
        """Whether all lines that it takes are there."""
        return len(self.given) == self.wanted

    def text(self) -> str:
        """The command with its lines."""
        return "\n".join([self.line, *self.given])


def lines_behind(command: str) -> int:
    """How many lines of the source the monitor takes behind a command: those of an edit, else none."""
    edit = _EDIT.fullmatch(command.strip(" \t"))
    numbers = [int(it) for it in edit.groups()] if edit else [0]
    return numbers[-1] if max(numbers) < 1 << 32 else 0


def commands(text: str) -> Iterator[Command]:
    """The commands of a script, blank lines among them."""
    lines = [it.removesuffix("\r") for it in text.split("\n")]
    at = 0
    while at < len(lines):
        wanted = lines_behind(lines[at])
        yield Command(at + 1, lines[at], lines[at + 1 : at + 1 + wanted], wanted)
        at += 1 + wanted
