"""Runs a program of the gate and refuses one growth of memory in it."""
from __future__ import annotations

import os
import subprocess
import tempfile
from dataclasses import dataclass
from functools import cache
from pathlib import Path

TOP = Path(__file__).resolve().parents[2]
DATA = TOP / "crates/sv8_cases/data"
REFUSED = b"refused 1 OutOfMemory\n"


@cache
def built(name: str) -> Path:
    """A program of the gate: the one that stands in its folder, or else one that is proved and built now."""
    program = TOP / "crates" / name / "out" / name
    if not program.exists():
        nothing = subprocess.DEVNULL
        subprocess.run(["rt", "run"], cwd=TOP / "crates" / name, stdin=nothing, stdout=nothing, check=False)
    return program


@cache
def shim() -> Path:
    """The library that refuses a growth, built for this run."""
    library = Path(tempfile.mkdtemp()) / "refuse_growth.so"
    source = Path(__file__).with_name("refuse_growth.c")
    subprocess.run(["cc", "-O1", "-shared", "-fPIC", "-o", library, source, "-ldl"], check=True)
    return library


@dataclass(frozen=True)
class Ran:
    """What a run wrote, and its status; `refused` where it came to the growth that was to be refused."""

    status: int
    output: bytes
    errors: bytes
    refused: bool


def run(words: list[str | Path], script: bytes = b"", refuse: int | None = None) -> Ran:
    """Runs a program, in which the growth of that number is refused, counted from 1."""
    environment = dict(os.environ)
    with tempfile.TemporaryDirectory() as folder:
        told = Path(folder) / "told"
        if refuse is not None:
            environment |= {"LD_PRELOAD": str(shim()), "REFUSE": str(refuse), "TOLD": str(told)}
        done = subprocess.run(words, input=script, env=environment, capture_output=True, timeout=120, check=False)
        return Ran(done.returncode, done.stdout, done.stderr, told.exists())


def commands(script: bytes) -> list[bytes]:
    """The commands of a script; an edit goes with its lines."""
    lines, found, at = script.splitlines(keepends=True), [], 0
    while at < len(lines):
        words = lines[at].split()
        taken = int(words[3]) if words[:1] == [b"edit"] and len(words) == 4 else 0
        found.append(b"".join(lines[at : at + 1 + taken]))
        at += 1 + taken
    return found
