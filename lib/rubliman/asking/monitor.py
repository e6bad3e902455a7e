"""What the proved monitor tells, which is remembered."""
from __future__ import annotations

from collections.abc import Sequence
from pathlib import Path

from .program import Program

LAST_STEP = 1_000_000
MOST_LINES = 65_536
# Commands after which an answer may be another one.
CHANGES = frozenset("edit poke unpoke pokeb unpokeb input uninput irq unirq keep".split())
# What is remembered: so many answers of at most so many lines.
_MOST_KNOWN, _MOST_KNOWN_LINES = 1024, 64


class Refused(Exception):
    """The monitor refuses a command, in its own words."""


class Monitor:
    """A run of the monitor. What it has told is asked again only behind a change."""

    def __init__(self, program: Path | str, windows: str) -> None:
        self._program = Program(program, windows)
        self._known: dict[str, list[str]] = {}
        # How many changes were made so far.
        self.changes = 0

    def ask(self, command: str) -> list[str]:
        """The lines of an answer. An edit has its lines behind it. Raises `Refused`."""
        lines = self._known.get(command) or self.answers([command])[0]
        if lines[-1] != "ok":
            raise Refused(lines[-1])
        return lines[:-1]

    def ask_each(self, commands: Sequence[str]) -> list[list[str]]:
        """The same of several commands; where one is refused, those behind it may have been carried out."""
        found = self.answers(commands)
        for lines in found:
            if lines[-1] != "ok":
                raise Refused(lines[-1])
        return [lines[:-1] for lines in found]

    def answers(self, commands: Sequence[str]) -> list[list[str]]:
        """The answers with their last lines, which are `ok` or a refusal."""
        found = [self._known.get(it, []) for it in commands]
        asked = [at for at, lines in enumerate(found) if not lines]
        told = self._program.exchange([commands[at].encode("latin-1") for at in asked])
        for at, lines in zip(asked, told):
            found[at] = [it[:-1].decode("latin-1") for it in lines]
            self._remember(commands[at], found[at])
        return found

    def close(self) -> None:
        """Ends the monitor."""
        self._program.close()

    def _remember(self, command: str, lines: list[str]) -> None:
        """Remembers an answer, or forgets all behind a change."""
        is_change = command.split(None, 1)[0] in CHANGES
        self.changes += is_change
        if len(self._known) >= _MOST_KNOWN or is_change:
            self._known.clear()
        elif len(lines) <= _MOST_KNOWN_LINES:
            self._known[command] = lines
