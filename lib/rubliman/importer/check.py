"""Has the proved program assemble a text, and compares its image with that of the file."""
from __future__ import annotations

from .origin import Origins
from .problem import Problem
from .program import Program
from .text import Text
from .workbench import Placed, Refusal, Workbench

_STUB = 8


def enter_text(workbench: Workbench, text: Text, origins: Origins) -> None:
    """Gives the text to the program as its source."""
    try:
        workbench.enter(text.texts())
    except Refusal as refusal:
        raise Problem(told(refusal, text, origins)) from refusal


def told(refusal: Refusal, text: Text, origins: Origins) -> str:
    """What is said of a refusal: its name, the line's text, and where that came from."""
    if refusal.line is None:
        return f"the workbench refuses the text: {refusal.number} {refusal.name}"
    line = text.lines[refusal.line - 1]
    origin = None if line.address is None else origins.at(line.address)
    place = f"line {refusal.line}{f' (from {origin})' if origin else ''}"
    return f"the workbench refuses {place} by {refusal.number} {refusal.name}: {line.text.strip()}"


def compare(program: Program, text: Text, listing: list[Placed], origins: Origins) -> None:
    """Sees that what the program placed is what the file has, byte by byte."""
    placed = bytearray()
    for line in listing:
        placed += bytes(max(0, line.address + len(line.data) - len(placed)))
        placed[line.address : line.address + len(line.data)] = line.data
    wanted = bytearray(program.image())
    size = max(len(placed), len(wanted))
    placed, wanted = placed.ljust(size, b"\0"), wanted.ljust(size, b"\0")
    if program.needs_start:
        wanted[:_STUB] = placed[:_STUB]
    if placed == wanted:
        return
    at = next(it for it in range(size) if placed[it] != wanted[it])
    number = next((it for it, line in enumerate(listing) if line.address <= at < line.address + len(line.data)), None)
    where = "" if number is None else f", by line {number + 1}: {text.lines[number].text.strip()}"
    origin = origins.at(at)
    raise Problem(
        f"the workbench's image differs first at {at:08X}{f' (from {origin})' if origin else ''}, "
        f"{placed[at]:02X} for {wanted[at]:02X}{where}"
    )
