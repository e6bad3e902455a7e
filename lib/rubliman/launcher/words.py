"""Reads the program's words as the program does, where it is not there to be asked.

The texts are the program's own, recorded in `program_texts.json`. Each was given for marked words, which are replaced
by those at hand. Those of the monitor are the workbench's under another name, but for its help.
"""
from __future__ import annotations

import json
import os
import re
from collections.abc import Mapping, Sequence
from dataclasses import dataclass, field, replace
from pathlib import Path

from .likeness import most_like
from .sources import WORKBENCH

TEXTS = Path(__file__).with_name("program_texts.json")
WINDOWS, SCRIPT, HELP = "windows", "script", "help"
HELP_OF_MONITOR = "help of the monitor"
COUNTS = ("2", "4", "8", "16", "32")


@dataclass(frozen=True)
class Settings:
    """What the words choose: the number of windows, and the path of the script, if one is named."""

    windows: str
    script: str | None


@dataclass(frozen=True)
class Recorded:
    """What the program said to some words, and its status."""

    words: tuple[str, ...]
    status: int
    out: str
    err: str


class Refused(Exception):
    """The words are refused, or ask for the help."""

    def __init__(self, name: str, replaced: Mapping[str, str] | None = None) -> None:
        super().__init__(name)
        self.name, self.replaced, self.is_help = name, replaced or {}, name == "help"

    def said(self, program: str = WORKBENCH) -> Recorded:
        """What the program prints, and its status."""
        found = recorded(program)[self.name]
        return replace(found, err=_with(found.err, self.replaced))


def _with(text: str, replaced: Mapping[str, str]) -> str:
    """A recorded text with the words at hand, each within its quotes, in place of the marked ones."""
    quoted = {f"'{mark}'": f"'{word}'" for mark, word in replaced.items()}
    return re.sub("|".join(map(re.escape, quoted)), lambda it: quoted[it[0]], text) if quoted else text


def recorded(program: str = WORKBENCH) -> dict[str, Recorded]:
    """The recorded texts of a program, by name."""
    found = {
        name: Recorded(tuple(it["words"]), it["status"], it["out"], it["err"])
        for name, it in json.loads(TEXTS.read_text(encoding="utf-8")).items()
    }
    help_of_monitor = found.pop(HELP_OF_MONITOR)
    if program == WORKBENCH:
        return found
    named = {name: replace(it, err=re.sub(rf"\b{WORKBENCH}\b", program, it.err)) for name, it in found.items()}
    return {**named, "help": help_of_monitor}


def read(words: Sequence[str]) -> Settings:
    """What the words choose. Raises `Refused` where the program ends without a run."""
    reader = _Reader()
    for word in _texts(words):
        reader.take(word)
    reader.settle()
    return Settings(reader.values.get(WINDOWS, "8"), reader.values.get(SCRIPT))


def _texts(words: Sequence[str]) -> list[str]:
    """The words as text, whatever the locale. Raises `Refused` where one is none."""
    try:
        return [os.fsencode(word).decode("utf-8") for word in words]
    except UnicodeDecodeError:
        raise Refused("no text") from None


@dataclass
class _Reader:
    """What was read so far. An option's value is judged when the next argument begins, as by the program."""

    values: dict[str, str] = field(default_factory=dict)
    # What an error's usage line names.
    used: set[str] = field(default_factory=set)
    pending: tuple[str, str | None] | None = None
    waits: bool = False
    only_values: bool = False
    has_script: bool = False

    def take(self, word: str) -> None:
        """Takes the next word."""
        if self.only_values:
            self._positional(word)
        elif word == "--":
            self.only_values = True
        elif word.startswith("--"):
            self._long(*_split(word[2:]))
        elif word.startswith("-") and word != "-":
            self._short(word[1:])
        elif self.waits:
            self.pending, self.waits = (WINDOWS, word), False
        else:
            self._positional(word)

    def settle(self) -> None:
        """Judges what is pending."""
        pending, self.pending = self.pending, None
        if pending is None:
            return
        name, value = pending
        if name == WINDOWS:
            self._judge_windows(value)
        self.used.add(name)
        self.values[name] = value or ""

    def _judge_windows(self, value: str | None) -> None:
        """Judges the value of `--windows`. A wrong one counts as used all the same."""
        if value is None:
            raise Refused("missing value")
        if WINDOWS in self.used:
            self.used.remove(WINDOWS)
            raise Refused("repeated")
        if value in COUNTS:
            return
        self.used.add(WINDOWS)
        if not value:
            raise Refused("missing value")
        similar = most_like(value, COUNTS)
        if similar is None:
            raise Refused("invalid value", {"WORD": value})
        raise Refused("similar value", {"81": value, "8": similar})

    def _settle_anyhow(self) -> None:
        """Settles what is pending for the sake of an error's usage line."""
        try:
            self.settle()
        except Refused:
            pass

    def _long(self, name: str, value: str | None) -> None:
        """A word that begins with `--`."""
        self.waits = False
        if name == WINDOWS:
            self.settle()
            self.pending, self.waits = (WINDOWS, value), value is None
            if value is not None:
                self.settle()
        elif name == HELP and value is None:
            self.settle()
            raise Refused("help")
        elif name == HELP:
            raise Refused(self._with_usage("value of help"), {"WORD": value or ""})
        else:
            self._unknown(name)

    def _unknown(self, name: str) -> None:
        """Tells of an option that is not known, and of one that is like it."""
        self._settle_anyhow()
        similar = most_like(name, (WINDOWS, HELP))
        if similar is None:
            raise Refused(self._with_usage("unknown"), {"--WORD": f"--{name}", "-- --WORD": f"-- --{name}"})
        if similar == WINDOWS:
            self.used.add(WINDOWS)
            raise Refused(self._with_usage("like windows"), {"--window": f"--{name}"})
        raise Refused(self._with_usage("like help"), {"--helm": f"--{name}"})

    def _with_usage(self, name: str) -> str:
        """The name of the text whose usage line has what was used so far."""
        return " ".join([name, *sorted(self.used)])

    def _short(self, flags: str) -> None:
        """A word that begins with one `-`: its first letter decides."""
        self.waits = False
        flag = flags[0]
        if flag == "h":
            self.settle()
            raise Refused("help")
        self._settle_anyhow()
        raise Refused("unknown flag", {"-W": f"-{flag}", "-- -W": f"-- -{flag}"})

    def _positional(self, word: str) -> None:
        """The script, of which there is one."""
        if self.has_script:
            raise Refused("too many words", {"WORD": word})
        self.settle()
        self.has_script, self.pending, self.waits = True, (SCRIPT, word), False


def _split(text: str) -> tuple[str, str | None]:
    """A name, and the value behind the first `=`, if there is one."""
    name, equals, value = text.partition("=")
    return name, value if equals else None
