"""The stack as it would be if the register windows were saved: their save areas, by what `windows` shows.

A window's save area is the 16 words from its stack pointer on: locals, then ins. The windows are those from the current
one on, up to the one that WIM marks (section 4.3 of the manual, and the SPARC ABI for the areas).
"""
from __future__ import annotations

from ..asking.monitor import Monitor
from .machine import Machine

_CWP = 31


def save_areas(monitor: Monitor, machine: Machine) -> dict[int, bytes]:
    """What stands in the save areas, by their addresses."""
    rows = [[int(it, 16) for it in line.split()[2:]] for line in monitor.ask(f"windows {machine.step}")]
    count, current = len(rows), machine.psr & _CWP
    found: dict[int, bytes] = {}
    for distance in range(count):
        window = (current + distance) % count
        if distance and machine.wim >> window & 1:
            break
        outs, local = rows[window][:8], rows[window][8:]
        ins = rows[(window + 1) % count][:8]
        stack = outs[6]
        if stack:
            found.setdefault(stack, b"".join(it.to_bytes(4, "big") for it in [*local, *ins]))
    return found


def laid_over(data: bytes, address: int, areas: dict[int, bytes]) -> bytes:
    """Bytes from an address on, with the save areas in them."""
    found = bytearray(data)
    for begin, area in areas.items():
        for offset, byte in enumerate(area):
            if 0 <= begin + offset - address < len(found):
                found[begin + offset - address] = byte
    return bytes(found)
