"""How the toolchain is asked to prove one crate: by its name, or in a tree of its own."""
from __future__ import annotations

import os
import shutil
from collections.abc import Iterable
from pathlib import Path
from typing import Protocol

from .sources import Crate

# What the toolchain reads of a crate, and what it is run on.
_PARTS = ("src", "specs", "proofs", "stdin", "stdout", "args", "status", "data")


class Way(Protocol):
    """One of the two ways."""

    # Whether a command waits for a library that another one is proving.
    waits: bool

    def begin(self, crate: str, jobs: int) -> tuple[list[str], Path]:
        """The command that proves a crate whose libraries are proved, or under way, and the folder where it runs."""

    def is_proved(self, crate: str, said: bytes) -> bool:
        """Whether the command, which is under way, has said that the crate is proved."""

    def knows(self, said: bytes) -> bool:
        """Whether the toolchain knows the command, by what it said when it failed."""

    def end(self, crate: str) -> list[str]:
        """Takes what the command has made, once it ended well. Gives what is to be told besides what it said."""


class ByName:
    """By `rt ci NAME`, which takes what earlier runs kept and keeps what it proves. Early toolchains do not know it.

    Two commands that need the same proof do not both make it: the second waits for the first, and takes what that kept.
    Programs are built where they are wanted by `rt ci` of all: one with a name works on a copy of its own.
    """

    waits = True

    def __init__(self, rt: str, copy: Path, programs: Iterable[str] = ()) -> None:
        self._rt, self._copy, self._programs = rt, copy, tuple(programs)

    def begin(self, crate: str, jobs: int) -> tuple[list[str], Path]:
        """The toolchain chooses the jobs itself, where it is not to be one."""
        if crate in self._programs:
            return [self._rt, "ci"], self._copy
        return [*(["env", "RT_JOBS=1"] if jobs == 1 else []), self._rt, "ci", crate], self._copy

    def is_proved(self, crate: str, said: bytes) -> bool:
        """Its tests may still be under way, and no other crate waits for those."""
        return f"rt: {crate} proved\n".encode() in said

    def knows(self, said: bytes) -> bool:
        """A toolchain that does not know the name prints how it is used."""
        return not said.startswith(b"usage:")

    def end(self, crate: str) -> list[str]:
        """Nothing is to be done."""
        return []


class InTrees:
    """By `rt lib` and `rt run`, each crate in a folder with it and the libraries below it alone.

    Two runs of `rt` never work in one crate at a time, and a crate's libraries count, so side by side they need folders
    of their own. Sources and proved libraries are hard links, so a tree costs next to nothing.
    """

    waits = False

    def __init__(self, rt: str, copy: Path, room: Path, crates: Iterable[Crate], programs: Iterable[str]) -> None:
        self._rt, self._copy, self._room, self._programs = rt, copy, room, tuple(programs)
        self._crates = {it.name: it for it in crates}

    def begin(self, crate: str, jobs: int) -> tuple[list[str], Path]:
        """Makes the tree."""
        tree, below = self._room / crate, self._below(crate)
        (tree / ".git").mkdir(parents=True)
        lines = [it.line for name, it in self._crates.items() if name == crate or name in below]
        (tree / "crates.txt").write_text("\n".join(lines) + "\n", encoding="utf-8")
        if (self._copy / "HANDLES").is_file():
            _link(self._copy / "HANDLES", tree / "HANDLES")
        for name in {crate, *below}:
            for part in (*_PARTS, *(["out/rlib"] if name in below else [])):
                _link(self._copy / "crates" / name / part, tree / "crates" / name / part)
        command = "run" if crate in self._programs else "lib"
        return [self._rt, command, "--jobs", str(jobs)], tree / "crates" / crate

    def _below(self, crate: str) -> set[str]:
        """The libraries that a crate stands on, and those that these stand on."""
        own = {it for it in self._crates[crate].uses if it in self._crates}
        return own.union(*(self._below(it) for it in own))

    def is_proved(self, crate: str, said: bytes) -> bool:
        """Only its end shows it."""
        return False

    def knows(self, said: bytes) -> bool:
        """Each toolchain knows these commands."""
        return True

    def end(self, crate: str) -> list[str]:
        """Moves the library or the program to the copy, and removes the tree."""
        made, to = self._room / crate / "crates" / crate / "out", self._copy / "crates" / crate / "out"
        to.mkdir(parents=True, exist_ok=True)
        part = crate if crate in self._programs else "rlib"
        (made / part).rename(to / part)
        shutil.rmtree(self._room / crate)
        return [f"rt: {crate} proved"]


def _link(file: Path, to: Path) -> None:
    """Has a file, or each file of a folder, stand elsewhere too."""
    if file.is_dir():
        shutil.copytree(file, to, copy_function=os.link)
    elif file.is_file():
        to.parent.mkdir(parents=True, exist_ok=True)
        os.link(file, to)
