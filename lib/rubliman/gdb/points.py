"""What GDB wants the machine to stop at: breakpoints, with their conditions, and watchpoints."""
from __future__ import annotations

import re
from dataclasses import dataclass
from enum import Enum

from .packets import Bad

_PACKET = re.compile(r"[Zz]([0-4]),([0-9a-fA-F]{1,8}),([0-9a-fA-F]{1,8})((?:;X[0-9a-fA-F]+,[0-9a-fA-F]*)*)")
_CONDITION = re.compile(r"X([0-9a-fA-F]+),([0-9a-fA-F]*)")
_MOST_POINTS = 4096
_MOST_BYTES = 4096


class Kind(Enum):
    """The kinds of points, by their number in a packet."""

    SOFTWARE = 0
    HARDWARE = 1
    WRITE = 2
    READ = 3
    ACCESS = 4

    def is_break(self) -> bool:
        """Whether it is a breakpoint."""
        return self in (Kind.SOFTWARE, Kind.HARDWARE)


@dataclass(frozen=True)
class Point:
    """A breakpoint at an address, or a watchpoint of so many bytes."""

    kind: Kind
    address: int
    size: int


class Points:
    """All that are set."""

    def __init__(self) -> None:
        # Each with its conditions, of which one has to hold; with none it always does.
        self._set: dict[Point, tuple[bytes, ...]] = {}

    def take(self, packet: str) -> None:
        """Sets or clears a point. One that stands already gets the new conditions. Raises `Bad`."""
        point, conditions = _read(packet)
        if packet[0] == "z":
            self._set.pop(point, None)
        elif len(self._set) < _MOST_POINTS or point in self._set:
            self._set[point] = conditions
        else:
            raise Bad

    def clear(self) -> None:
        """Clears all."""
        self._set.clear()

    def breaks(self) -> dict[int, list[bytes]]:
        """The conditions of breakpoints by their addresses: none where the machine always stops."""
        found: dict[int, list[bytes]] = {}
        always = set()
        for point, conditions in self._set.items():
            if point.kind.is_break():
                found.setdefault(point.address, []).extend(conditions)
                always.update([point.address] * (not conditions))
        return {address: [] if address in always else conditions for address, conditions in sorted(found.items())}

    def watches(self) -> list[Point]:
        """The watchpoints."""
        return [it for it in self._set if not it.kind.is_break()]


def _read(packet: str) -> tuple[Point, tuple[bytes, ...]]:
    """The point of a packet, and its conditions, each behind the number of its bytes."""
    match = _PACKET.fullmatch(packet)
    if match is None:
        raise Bad
    point = Point(Kind(int(match[1])), int(match[2], 16), int(match[3], 16))
    if not point.kind.is_break() and not 1 <= point.size <= _MOST_BYTES:
        raise Bad
    conditions = _CONDITION.findall(match[4])
    if any(2 * int(size, 16) != len(code) for size, code in conditions):
        raise Bad
    return point, tuple(bytes.fromhex(code) for _, code in conditions)
