"""The source as the monitor lists it, with its names."""
from __future__ import annotations

from bisect import bisect_left, bisect_right
from dataclasses import dataclass
from functools import cached_property

from ..asking.monitor import Monitor


@dataclass(frozen=True)
class Line:
    """A line of the listing."""

    number: int
    address: int
    data: bytes
    text: str


@dataclass(frozen=True)
class Function:
    """A stretch of code under a label's name."""

    name: str
    begin: int
    end: int


@dataclass(frozen=True)
class Listing:
    """The source as it stands: its lines, labels by address, and names with their values."""

    lines: list[Line]
    labels: list[tuple[str, int]]
    values: list[tuple[str, int]]

    @staticmethod
    def of(monitor: Monitor) -> Listing:
        """What the monitor tells of it."""
        lines = []
        for told in monitor.ask("list"):
            head, _, text = told.partition(" |")
            number, address, *groups = head.split()
            lines.append(Line(int(number), int(address, 16), bytes.fromhex("".join(groups)), text))
        labels, values = [], []
        for told in monitor.ask("names"):
            value, kind, name = told.split(" ", 2)
            (labels if kind == "label" else values).append((name, int(value, 16)))
        return Listing(lines, labels, values)

    def text(self) -> str:
        """The source."""
        return "".join(f"{it.text}\n" for it in self.lines)

    def end(self) -> int:
        """The address behind all that it places."""
        return max((it.address + len(it.data) for it in self.lines), default=0)

    def image(self) -> bytes:
        """The bytes from address 0 on."""
        found = bytearray(self.end())
        for it in self.lines:
            found[it.address : it.address + len(it.data)] = it.data
        return bytes(found)

    @cached_property
    def functions(self) -> list[Function]:
        """Labels that calls lead to, each up to the next one, to a label that other code branches to, or to the end of
        its stretch. Only of these GDB takes it that a frame begins with them; labels within them are places."""
        named = {address: name for name, address in reversed(self.labels)}
        calls, branches = self._transfers()
        called = sorted({to for to, _ in calls} & named.keys())
        entered = sorted((to, at) for to, at in branches if to in named)
        found = []
        for begin, end in self._stretches:
            starts = called[bisect_left(called, begin) : bisect_left(called, end)]
            for start, stop in zip(starts, [*starts[1:], end]):
                within = entered[bisect_left(entered, (start + 1, 0)) : bisect_left(entered, (stop, 0))]
                stop = min((to for to, at in within if not start <= at < stop), default=stop)
                found.append(Function(named[start], start, stop))
        return found

    def symbols(self) -> list[tuple[str, int, int]]:
        """The labels with their addresses and sizes, and one for each stretch that does not begin with one. Each goes
        on up to the next one, or to where its stretch ends."""
        named = {address for _, address in self.labels}
        labels = [*self.labels, *((f"at_{it:X}", it) for it, _ in self._stretches if it not in named)]
        ends = sorted({*named, *(it for stretch in self._stretches for it in stretch)})
        return [(name, begin, ends[min(bisect_right(ends, begin), len(ends) - 1)] - begin) for name, begin in labels]

    @cached_property
    def _stretches(self) -> list[tuple[int, int]]:
        """Where bytes follow each other without a gap."""
        found: list[tuple[int, int]] = []
        for it in sorted((it for it in self.lines if it.data), key=lambda it: it.address):
            begin = found.pop()[0] if found and found[-1][1] == it.address else it.address
            found.append((begin, it.address + len(it.data)))
        return found

    def _transfers(self) -> tuple[list[tuple[int, int]], list[tuple[int, int]]]:
        """Where calls lead to and where they stand, and the same of branches (sections B.24 and B.21 of the manual)."""
        calls, branches = [], []
        for it in self.lines:
            for at in range(it.address, it.address + len(it.data) - 3, 4):
                word = int.from_bytes(it.data[at - it.address :][:4], "big")
                if word >> 30 == 1:
                    calls.append(((at + 4 * word) & 0xFFFFFFFF, at))
                elif word >> 30 == 0 and word >> 22 & 7 == 2:
                    offset = (word & 0x3FFFFF) - (word << 1 & 0x400000)
                    branches.append((at + 4 * offset, at))
        return calls, branches
