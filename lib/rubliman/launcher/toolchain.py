"""The toolchain's command, `rt`: whether it is there, and which it is."""
from __future__ import annotations

import contextlib
import json
import os
import shutil
import subprocess
from collections.abc import Iterable
from pathlib import Path

from . import places
from .problem import Problem

MISSING = 3


def find() -> str | None:
    """The path of `rt`, if it is there."""
    return shutil.which("rt")


def wanted(what: str) -> str:
    """The path of `rt`. Raises `Problem` where it is not there, which says what it is wanted for."""
    found = find()
    if found is None:
        raise Problem(
            f'the toolchain\'s command rt is not on the PATH, and {what}: see README.md, "What it needs"', MISSING
        )
    return found


def identity(rt: str) -> str:
    """The toolchain's line about itself, another for each version. Each `rt` is asked once."""
    found = os.stat(rt)
    stamp = [os.path.realpath(rt), found.st_mtime_ns, found.st_size, found.st_ino]
    file = places.cache() / "toolchain.json"
    with contextlib.suppress(OSError, ValueError, TypeError, KeyError):
        read = json.loads(file.read_text(encoding="utf-8"))
        if read["stamp"] == stamp:
            return str(read["identity"])
    line = _asked(rt)
    with contextlib.suppress(OSError):
        places.write(file, json.dumps({"stamp": stamp, "identity": line}))
    return line


def _asked(rt: str) -> str:
    """What `rt version` says."""
    ran = subprocess.run(
        [rt, "version"], stdin=subprocess.DEVNULL, stdout=subprocess.PIPE, stderr=subprocess.DEVNULL, check=False
    )
    said = ran.stdout.decode(errors="replace").strip()
    if ran.returncode or not said:
        raise Problem(f"{rt} version ended with status {ran.returncode} and names no toolchain", MISSING)
    return said.splitlines()[0]


def checked_elsewhere(rt: str) -> set[str]:
    """The crates that a check has proved in some checkout on this machine, by the toolchain's notes of its kept work.

    It is a hint: `rt run` begins with that work where it serves, and no verdict rests on it.
    """
    found = set()
    for note in Path(os.path.realpath(rt)).parent.joinpath("../../rattle-kept/work").glob("*.*"):
        with contextlib.suppress(OSError, ValueError, TypeError, KeyError):
            said = json.loads(note.read_text(encoding="utf-8"))
            if said["stamp"] and Path(said["folder"], "out", "incremental").is_dir():
                found.add(note.name.partition(".")[0])
    return found


def keeps_some(rt: str, crates: Iterable[str]) -> bool:
    """Whether a gate on this machine has kept a proof of one of these crates, of whatever state. It is a hint, too."""
    store = Path(os.path.realpath(rt)).parent.joinpath("../../rattle-kept")
    return any(True for crate in crates for _ in store.glob(f"proof-{crate}-*"))


def environment() -> dict[str, str]:
    """The environment for `rt`, less what would change the verdict or the backend."""
    return {name: value for name, value in os.environ.items() if name not in ("RT_BACKEND", "RT_ALLOW_C", "PYTHONPATH")}
