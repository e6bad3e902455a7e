"""Watchpoints: where their addresses lead at a step, and which steps meet them."""
from __future__ import annotations

from dataclasses import dataclass, field

from ..asking.monitor import Monitor, Refused
from .memory import Memory, Unreadable
from .points import Kind, Point, Points

_CONDITIONS = {Kind.WRITE: ("change",), Kind.READ: ("load",), Kind.ACCESS: ("load", "store")}
_REASONS = {Kind.WRITE: "watch", Kind.READ: "rwatch", Kind.ACCESS: "awatch"}
_Pieces = tuple[tuple[int, int], ...]


@dataclass(frozen=True)
class Watched:
    """A watchpoint with the physical pieces of its range; none where it cannot be read."""

    point: Point
    pieces: _Pieces

    def conditions(self) -> list[str]:
        """The monitor's conditions for it."""
        return [f"{name} {place:x} {size}" for place, size in self.pieces for name in _CONDITIONS[self.point.kind]]

    def reason(self) -> str:
        """As a packet has it."""
        return f"{_REASONS[self.point.kind]}:{self.point.address:x};"


@dataclass
class Watcher:
    """All watchpoints."""

    monitor: Monitor
    memory: Memory
    points: Points
    # Whether a piece lies in RAM.
    _in_ram: dict[tuple[int, int], bool] = field(default_factory=dict)

    def at(self, step: int) -> list[Watched]:
        """The watchpoints, with where their addresses lead at a step."""
        return [Watched(it, self._pieces(step, it)) for it in self.points.watches()]

    def _seen(self, step: int, point: Point) -> bytes | None:
        """What GDB sees in a watched range; None where it cannot be read."""
        try:
            return self.memory.read(step, point.address, point.size)
        except Unreadable:
            return None

    def differs(self, point: Point, step: int) -> bool:
        """Whether GDB sees something else in a watched range behind a step."""
        return self._seen(step, point) != self._seen(step + 1, point)

    def changed(self, step: int) -> Watched | None:
        """A watchpoint for which GDB sees something else behind a step, since its addresses lead elsewhere there."""
        if not self.points.watches():
            return None
        pairs = zip(self.at(step), self.at(step + 1))
        moved = (now for now, then in pairs if now != then and now.point.kind is Kind.WRITE)
        return next((it for it in moved if self.differs(it.point, step)), None)

    def reach(self, good: int, bad: int, watched: list[Watched]) -> tuple[int, int]:
        """Two steps, one next to the other on the way from `good` to `bad`: at the first the addresses lead where they
        do in `watched`, at the second they do not. Both are `bad` where they do all the way."""
        if not watched or self.at(bad) == watched:
            return bad, bad
        while abs(bad - good) > 1:
            middle = (good + bad) // 2
            good, bad = (middle, bad) if self.at(middle) == watched else (good, middle)
        return good, bad

    def _pieces(self, step: int, point: Point) -> _Pieces:
        """The physical pieces of a watched range, if all of them lie in RAM."""
        try:
            found = tuple(self.memory.pieces(step, point.address, point.size))
        except Unreadable:
            return ()
        return found if all(map(self._is_in_ram, found)) else ()

    def _is_in_ram(self, piece: tuple[int, int]) -> bool:
        """Whether the monitor takes a piece in a condition."""
        if piece not in self._in_ram:
            try:
                self.monitor.ask(f"steps 0 0 0 load {piece[0]:x} {piece[1]}")
                self._in_ram[piece] = True
            except Refused:
                self._in_ram[piece] = False
        return self._in_ram[piece]
