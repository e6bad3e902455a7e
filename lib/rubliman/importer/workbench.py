"""Speaks with the proved program."""
from __future__ import annotations

import re
import subprocess
import tempfile
from collections.abc import Sequence
from dataclasses import dataclass
from types import TracebackType
from typing import NamedTuple

from .limits import MOST_STEPS
from .problem import Problem

_REFUSED = re.compile(r"refused (\d+) (\w+)(?: line (\d+))?$")


@dataclass
class Refusal(Exception):
    """A command that the program refused: the number and the name of why, and the line of the source at fault."""

    number: int
    name: str
    line: int | None


class Placed(NamedTuple):
    """A line of the listing: the address before it, and what it places there."""

    address: int
    data: bytes


@dataclass(frozen=True)
class State:
    """The machine at a step."""

    step: int
    is_running: bool
    pc: int
    first_out: int


class Workbench:
    """A run of the program, as a context. It is given a source once, and then asked."""

    def __init__(self, program: str, windows: int | None = None) -> None:
        self._command = [program, *(["--windows", str(windows)] if windows else [])]
        self._process: subprocess.Popen[str] | None = None

    def __enter__(self) -> Workbench:
        self._complaints = tempfile.TemporaryFile("w+", encoding="latin-1")
        try:
            self._process = subprocess.Popen(
                self._command,
                stdin=subprocess.PIPE,
                stdout=subprocess.PIPE,
                stderr=self._complaints,
                encoding="latin-1",
                bufsize=1 << 16,
            )
        except OSError as problem:
            self._complaints.close()
            raise Problem(
                f"the program {self._command[0]} cannot be run ({problem.strerror}): name another by SPARC8="
            ) from problem
        return self

    def __exit__(
        self, kind: type[BaseException] | None, value: BaseException | None, trace: TracebackType | None
    ) -> None:
        assert self._process is not None
        self._process.kill()
        self._process.communicate()
        self._complaints.close()

    def enter(self, lines: Sequence[str]) -> None:
        """Makes these lines the source, which was empty."""
        self.edit(1, 0, lines)

    def edit(self, first: int, last: int, lines: Sequence[str]) -> None:
        """Replaces lines `first` to `last` of the source by these."""
        self.ask("\n".join([f"edit {first} {last} {len(lines)}", *lines]))

    def listing(self) -> list[Placed]:
        """What each line of the source places."""
        placed = []
        for line in self.ask("list"):
            _, address, *groups = line.partition("|")[0].split()
            placed.append(Placed(int(address, 16), bytes.fromhex("".join(groups))))
        return placed

    def output(self, step: int = MOST_STEPS) -> bytes:
        """What was put out at the console below a step."""
        return bytes.fromhex("".join(self.ask(f"out {step}")))

    def state(self, step: int) -> State:
        """The machine at a step."""
        head, counters, _, _, outs, *_ = self.ask(f"regs {step}")
        return State(step, head.endswith(" run"), int(counters.split()[1], 16), int(outs.split()[1], 16))

    def ask(self, command: str) -> list[str]:
        """The lines of the answer to a command. A command of an edit has its lines behind it."""
        assert self._process is not None and self._process.stdin is not None and self._process.stdout is not None
        try:
            self._process.stdin.write(f"{command}\n")
            self._process.stdin.flush()
        except BrokenPipeError:
            pass
        answer = []
        for line in self._process.stdout:
            line = line.rstrip("\n")
            refused = _REFUSED.match(line)
            if refused:
                number, name, at = refused.groups()
                raise Refusal(int(number), name, int(at) if at else None)
            if line == "ok":
                return answer
            answer.append(line)
        self._complaints.seek(0)
        said = self._complaints.read().strip().splitlines()
        complaint = f": {said[-1]}" if said else ""
        raise Problem(
            f"the program {self._command[0]} ended without an answer{complaint}: see whether it runs by itself"
        )
