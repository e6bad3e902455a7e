"""The files that the proved programs are made of, the crates that they stand on, and one number for them all."""
from __future__ import annotations

import hashlib
from collections.abc import Iterable
from dataclasses import dataclass
from pathlib import Path

from .problem import Problem

# The programs that are proved, kept and installed. Each is a crate of that name.
WORKBENCH, MONITOR = PROGRAMS = ("sparc8", "sparc8_monitor")
_PARTS = ("src", "specs", "proofs")


@dataclass(frozen=True)
class Crate:
    """A line of `crates.txt`: the crate, and the libraries that it names, the toolchain's too."""

    name: str
    uses: tuple[str, ...]
    line: str


@dataclass(frozen=True)
class Sources:
    """The crates of the programs, lowest first, with what their files hold, by path."""

    crates: tuple[Crate, ...]
    files: dict[str, bytes]

    def fingerprint(self) -> str:
        """One number for the names and contents of the files, and for the crates' lines."""
        total = hashlib.sha256("\n".join(it.line for it in self.crates).encode())
        for path, content in sorted(self.files.items()):
            total.update(f"\n{len(content)} {path}\n".encode())
            total.update(content)
        return total.hexdigest()

    def lines(self, crate: str) -> int:
        """The lines of a crate, of code and of proofs."""
        return sum(content.count(b"\n") for path, content in self.files.items() if path.startswith(f"crates/{crate}/"))


def crates_of(text: str, programs: Iterable[str] = PROGRAMS) -> tuple[Crate, ...]:
    """The crates of `crates.txt` that the programs stand on, and themselves, each behind those that it uses."""
    listed = {}
    for line in text.splitlines():
        head, colon, uses = line.partition("#")[0].partition(":")
        if colon and head.split():
            listed[head.split()[0]] = Crate(head.split()[0], tuple(uses.split()), line)
    found: dict[str, Crate] = {}

    def add(crate: Crate) -> None:
        for it in crate.uses:
            if it in listed and it not in found:
                add(listed[it])
        found[crate.name] = crate

    for name in programs:
        if name not in listed:
            raise Problem(f"crates.txt has no line for {name}")
        add(listed[name])
    return tuple(found.values())


def read_sources(top: Path, programs: Iterable[str] = PROGRAMS) -> Sources:
    """The sources of the programs as they stand. Crates that they do not stand on have no part in it."""
    try:
        crates = crates_of((top / "crates.txt").read_text(encoding="utf-8"), programs)
        files = {}
        for crate in crates:
            for part in _PARTS:
                for path in (top / "crates" / crate.name / part).rglob("*"):
                    if path.is_file():
                        files[str(path.relative_to(top))] = path.read_bytes()
    except OSError as problem:
        raise Problem(f"the sources cannot be read: {problem}") from problem
    return Sources(crates, files)
