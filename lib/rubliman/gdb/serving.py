"""Serves a session with GDB over standard input and output."""
from __future__ import annotations

import signal
import sys
import tempfile
from contextlib import closing
from pathlib import Path

from ..asking.monitor import Monitor, Refused
from ..asking.program import Gone
from ..asking.script import QUESTIONS, commands
from .packets import Connection
from .stub import Stub


def serve(program: Path | str, windows: str, script: str | None) -> int:
    """Serves one session, and gives the status. Nothing is left behind."""
    # GDB ends it so where it does not end by itself.
    signal.signal(signal.SIGTERM, lambda number, frame: sys.exit(128 + number))
    try:
        with closing(Monitor(program, windows)) as monitor:
            if script is not None:
                enter(monitor, script)
            with tempfile.TemporaryDirectory(prefix="sparc8-gdb-") as folder:
                Stub(Connection(0, 1), monitor, Path(folder)).serve()
    except (Gone, OSError) as problem:
        sys.stderr.write(f"{problem}\n")
        return 1
    return 0


def enter(monitor: Monitor, script: str) -> None:
    """Gives a script's edits to the monitor, up to `quit`. What is refused is told, with the line."""
    for command in commands(Path(script).read_bytes().decode("latin-1")):
        if command.words == ["quit"]:
            return
        # What a script asks is of no use here.
        if not command.words or command.words[0] in QUESTIONS:
            continue
        try:
            if not command.is_whole:
                raise Refused("refused 18 BadCommand")
            monitor.ask(command.text())
        except Refused as refused:
            sys.stderr.write(f"{script}:{command.number}: {refused}\n")
