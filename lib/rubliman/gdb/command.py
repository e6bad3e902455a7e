"""`./sparc8 --gdb [--windows N] [SCRIPT] [-- GDB's words]`: starts GDB on the machine of a script."""
from __future__ import annotations

import os
import shlex
import shutil
import signal
import sys
from collections.abc import Sequence
from pathlib import Path
from typing import NoReturn

SESSION = Path(__file__).with_name("session.gdb")
_PACKAGE = Path(__file__).resolve().parents[2]
_GDBS = ("gdb-multiarch", "sparc-elf-gdb", "sparc64-linux-gnu-gdb")


class NoGdb(Exception):
    """GDB is not there."""


def find() -> str:
    """The GDB that is there. Raises `NoGdb`."""
    found = next(filter(None, map(shutil.which, _GDBS)), None)
    if found is None:
        raise NoGdb
    return found


def words_of_gdb(program: Path | str, windows: str, script: str | None, words: Sequence[str]) -> list[str]:
    """The words that start GDB on the machine of a script. `words` are its own."""
    stub = ["env", f"PYTHONPATH={_PACKAGE}", sys.executable, "-B", "-m", "rubliman.gdb"]
    stub += ["--program", str(program), "--windows", windows, *(["--", script] if script else [])]
    return [find(), "-q", "-x", str(SESSION), "-ex", f"target extended-remote | {shlex.join(stub)}", *words]


def become(program: Path, windows: str, script: str | None, words: Sequence[str]) -> NoReturn:
    """Has GDB take over this process. Raises `NoGdb`."""
    command = words_of_gdb(program, windows, script, words)
    # Python ignores these, and GDB would inherit that.
    for it in (signal.SIGPIPE, signal.SIGXFSZ):
        signal.signal(it, signal.SIG_DFL)
    os.execv(command[0], command)
