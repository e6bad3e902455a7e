"""Sessions with GDB, compared as text.

A file of `sessions` has the line that starts GDB, and behind each command what GDB shows. Run as a program, this writes
the named files anew, from their commands. What it writes is to be judged by the monitor's answers and by the manual.
"""
from __future__ import annotations

import re
import sys
import tempfile
import unittest
from collections.abc import Callable
from pathlib import Path

from docs.blocks import Kind, blocks
from gdb.support import C_PROGRAM, GUIDE, PROMPT, build, session

SESSIONS = Path(__file__).with_name("sessions")
IN_GUIDE = ("boot", "tables", "timer")


def shown(file: Path) -> str:
    """What the session of a file looks like now."""
    line, *rest = file.read_text(encoding="utf-8").splitlines()
    commands = [it.removeprefix(PROMPT) for it in rest if it.startswith(PROMPT)]
    if file.stem != C_PROGRAM:
        return f"{line}\n{session(line, commands)}"
    with tempfile.TemporaryDirectory(prefix="gdb-test-") as folder:
        build(Path(folder))
        # Addresses and steps are the compiler's choice.
        found = session(line, commands, Path(folder))
        return f"{line}\n" + re.sub(r"\b(0x|step |PC )[0-9a-fA-F]+", r"\1..", found)


class Sessions(unittest.TestCase):
    """One test for each file."""

    maxDiff = None

    def test_the_guide_has_the_same_ones(self) -> None:
        found = [it.text for it in blocks(GUIDE, Kind.GDB)]
        for name in IN_GUIDE:
            with self.subTest(session=name):
                self.assertIn((SESSIONS / f"{name}.txt").read_text(encoding="utf-8"), found)


def compared(file: Path) -> Callable[[Sessions], None]:
    """The test of a file."""
    return lambda self: self.assertEqual(shown(file), file.read_text(encoding="utf-8"))


for it in sorted(SESSIONS.glob("*.txt")):
    setattr(Sessions, f"test_{it.stem}", compared(it))


if __name__ == "__main__":
    for name in sys.argv[1:]:
        (SESSIONS / f"{name}.txt").write_text(shown(SESSIONS / f"{name}.txt"), encoding="utf-8")
