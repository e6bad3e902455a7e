"""Memory at a step, as GDB sees it: by the program's addresses, and with what is poked at that very step.

The pokes of a step come before its instruction. GDB reads back what it has poked, so they are shown.
"""
from __future__ import annotations

import re
from collections.abc import Iterator, Sequence

from ..asking.monitor import Monitor, Refused

_PAGE = 4096
# RAM is read by blocks, since GDB reads one word after the other. So many are remembered.
_BLOCK = 64
_MOST_BLOCKS = 256
_POKE = re.compile(r"pokeb? [0-9]+ ([0-9A-F]+) ([0-9A-F]+)")


class Unreadable(Exception):
    """Nothing that can be read without an effect stands at an address."""


class Memory:
    """Memory at each step."""

    def __init__(self, monitor: Monitor) -> None:
        self._monitor = monitor
        # Addresses are those of RAM, and not the program's.
        self.is_physical = False
        # By the number of changes so far, the step, the address, and whether it is one of RAM.
        self._blocks: dict[tuple[int, int, int, bool], bytes] = {}

    def pieces(self, step: int, address: int, count: int) -> Iterator[tuple[int, int]]:
        """The physical pieces of a range, cut where pages end: address and count. Raises `Unreadable` at the first
        one that leads nowhere."""
        while count > 0:
            size = min(count, _PAGE - address % _PAGE)
            place = self._places([(step, address)])[0]
            if place is None:
                raise Unreadable
            yield place, size
            address, count = (address + size) & 0xFFFFFFFF, count - size

    def read(self, step: int, address: int, count: int) -> bytes:
        """Bytes from an address on, fewer where not all can be read. Raises `Unreadable` where not even one can."""
        offset = address % _BLOCK
        if offset + count > _BLOCK:
            return self._read(step, address, count)
        return self._block(step, address - offset)[offset : offset + count] if count else b""

    def _block(self, step: int, address: int) -> bytes:
        """The bytes of a block, which lies in one page."""
        key = self._monitor.changes, step, address, self.is_physical
        if key not in self._blocks:
            if len(self._blocks) >= _MOST_BLOCKS:
                self._blocks.clear()
            self._blocks[key] = self._read(step, address, _BLOCK)
        return self._blocks[key]

    def _read(self, step: int, address: int, count: int) -> bytes:
        """The same, asked of the monitor."""
        # What is wanted of a few bytes is asked together, as if addresses led to themselves, which they mostly do.
        asked = [_pokes_at(step), _page(step, address), *[_words(step, address, count, _BLOCK)] * (count <= _BLOCK)]
        self._monitor.answers(asked)
        poked = self._pokes(step)
        found = bytearray()
        try:
            for place, size in self.pieces(step, address, count):
                data = bytearray(_of_words(self._monitor.ask(_words(step, place, size, _BLOCK)), place, size, _BLOCK))
                for at in range(place, place + size) if poked else ():
                    data[at - place] = poked.get(at, data[at - place])
                found += data
        except (Unreadable, Refused):
            if not found:
                raise Unreadable from None
        return bytes(found)

    def unpoked(self, wanted: Sequence[tuple[int, int, int]]) -> list[bytes | None]:
        """What stands at several steps, addresses and counts, asked together, without the pokes of these steps; None
        where not all of it can be read, and for what lies in two pages."""
        places = self._places([(step, address) for step, address, _ in wanted])
        asked = {
            it: (place, it[2])
            for it, place in zip(wanted, places)
            if place is not None and it[2] <= _PAGE - it[1] % _PAGE
        }
        answers = self._monitor.answers([_words(it[0], *asked[it], 4) for it in asked])
        told = {it: _of_words(lines[:-1], *asked[it], 4) for it, lines in zip(asked, answers) if lines[-1] == "ok"}
        return [told.get(it) for it in wanted]

    def write(self, step: int, address: int, data: bytes) -> None:
        """Pokes bytes at a step: words where they can be, else bytes. Raises `Refused` and `Unreadable`."""
        at, commands = 0, list[str]()
        for place, size in self.pieces(step, address, len(data)):
            commands += _pokes_of(step, place, data[at : at + size])
            at += size
        self._monitor.ask_each(commands)

    def _places(self, wanted: Sequence[tuple[int, int]]) -> list[int | None]:
        """Where addresses lead to by the tables at steps; None for nowhere."""
        if self.is_physical:
            return [address for _, address in wanted]
        pages = self._monitor.ask_each([_page(*it) for it in wanted])
        return [
            int(lines[0].split()[0], 16) + address % _PAGE if lines else None
            for (_, address), lines in zip(wanted, pages)
        ]

    def _pokes(self, step: int) -> dict[int, int]:
        """The bytes that are poked at a step, by their physical addresses."""
        found = {}
        for match in filter(None, map(_POKE.fullmatch, self._monitor.ask(_pokes_at(step)))):
            for offset, byte in enumerate(bytes.fromhex(match[2])):
                found[int(match[1], 16) + offset] = byte
        return found


def _pokes_at(step: int) -> str:
    """The question for what is poked at a step, among other events."""
    return f"events {step} {step}"


def _page(step: int, address: int) -> str:
    """The question for where the page of an address leads."""
    return f"where {step} {address & -_PAGE:x}"


def _words(step: int, place: int, count: int, block: int) -> str:
    """The question for the blocks in which some bytes lie. Where they lie beyond 32 bits, it is refused."""
    first, last = place & -block, (place + count + block - 1) & -block
    return f"mem {step} {first:x} {(last - first) // 4}"


def _of_words(lines: Sequence[str], place: int, count: int, block: int) -> bytes:
    """The bytes, of the words that were told."""
    return bytes.fromhex("".join(line[-8:] for line in lines))[place & (block - 1) :][:count]


def _pokes_of(step: int, place: int, data: bytes) -> Iterator[str]:
    """The commands that poke bytes from a physical address on."""
    at = 0
    while at < len(data):
        if (place + at) % 4 == 0 and at + 4 <= len(data):
            yield f"poke {step} {place + at:x} {data[at : at + 4].hex()}"
            at += 4
        else:
            yield f"pokeb {step} {place + at:x} {data[at]:02x}"
            at += 1
