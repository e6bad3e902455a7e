"""Judges the conditions of breakpoints, at many steps together."""
from __future__ import annotations

from collections.abc import Sequence
from dataclasses import dataclass

from ..asking.monitor import Monitor
from .conditions import NotKnown, holds
from .machine import Machine, Made
from .memory import Memory, Unreadable
from .registers import values

# How often a condition may ask for memory by what it found there.
_MOST_ROUNDS = 16
_Range = tuple[int, int, int]


class _Wanted(Exception):
    """Memory that has not been asked for yet: step, address and size."""

    def __init__(self, wanted: _Range) -> None:
        super().__init__(wanted)
        self.range = wanted


@dataclass(frozen=True)
class _Case:
    """A step at which conditions are judged, with its registers, and what is known of memory."""

    made: Made
    conditions: Sequence[bytes]
    registers: list[int | None]
    known: dict[_Range, bytes | None]

    def holds(self) -> bool:
        """Whether one of the conditions holds. What cannot be judged here is GDB's to judge, so it holds."""
        try:
            return any(holds(it, self._register, self._memory) for it in self.conditions)
        except NotKnown:
            return True

    def _register(self, number: int) -> int:
        found = self.registers[number] if number < len(self.registers) else None
        if found is None:
            raise NotKnown
        return found

    def _memory(self, address: int, size: int) -> bytes:
        wanted = (self.made.step, address, size)
        if wanted not in self.known:
            raise _Wanted(wanted)
        found = self.known[wanted]
        if found is None:
            raise NotKnown
        return found


def holding(monitor: Monitor, memory: Memory, doubtful: Sequence[tuple[Made, Sequence[bytes]]]) -> list[int]:
    """The steps, of those with conditions, at which one holds."""
    told = monitor.ask_each([f"regs {it.step}" for it, _ in doubtful])
    known: dict[_Range, bytes | None] = {}
    open_cases = [_Case(it, its, values(Machine.of(lines)), known) for (it, its), lines in zip(doubtful, told)]
    found = set()
    for _ in range(_MOST_ROUNDS):
        waiting: dict[_Range, _Case] = {}
        for it in open_cases:
            try:
                found.update([it.made.step] * it.holds())
            except _Wanted as wanted:
                waiting[wanted.range] = it
        open_cases = list(waiting.values())
        if not open_cases:
            break
        known.update(_asked(memory, waiting))
    found.update(it.made.step for it in open_cases)
    return [it.step for it, _ in doubtful if it.step in found]


def _asked(memory: Memory, waiting: dict[_Range, _Case]) -> dict[_Range, bytes | None]:
    """What is waited for. At most steps nothing is poked, and then all is asked together."""
    plain = [it for it, case in waiting.items() if "event" not in case.made.items]
    found = dict(zip(plain, memory.unpoked(plain)))
    for wanted in waiting.keys() - found.keys():
        try:
            data = memory.read(*wanted)
        except Unreadable:
            data = b""
        found[wanted] = data if len(data) == wanted[2] else None
    return found
