"""Names for addresses: the symbols of the program, and labels for what has none."""
from __future__ import annotations

import re
from bisect import bisect_right
from collections import defaultdict

from .program import Program, Relocation, Section, Symbol

_LONGEST = 100
_STRANGE = re.compile(r"[^A-Za-z0-9_.$]")


def _plain(name: str) -> str:
    """A name as the assembler reads names."""
    plain = _STRANGE.sub("_", name)
    return f"_{plain}" if plain[0].isdigit() else plain


class Names:
    """The labels of a text by address, and how an address is written by them."""

    def __init__(self, program: Program) -> None:
        self._program = program
        self._used: set[str] = set()
        self._first: dict[int, str] = {}
        self._of_symbol: dict[tuple[str, int], str] = {}
        self._labels: dict[int, list[str]] = defaultdict(list)
        for symbol in sorted(program.symbols, key=lambda it: (it.address, it.kind.value, it.name)):
            self._add(symbol)
        self._objects = sorted(
            (it for it in program.symbols if it.size and self._section(it.address) and not self._in_code(it.address)),
            key=lambda it: it.address,
        )
        self._starts = [it.address for it in self._objects]

    def labels(self, address: int) -> list[str]:
        """The labels that stand at an address."""
        return self._labels.get(address, [])

    def addresses(self) -> list[int]:
        """The addresses that have labels, in rising order."""
        return sorted(self._labels)

    def has(self, address: int) -> bool:
        """Whether a label stands at an address."""
        return address in self._first

    def at(self, address: int) -> str:
        """An address as it is written: its label, or a number. Below 0 lies what a branch may lead to."""
        found = self._first.get(address)
        return found if found is not None else f"{'-' if address < 0 else ''}{abs(address):#x}"

    def ensure(self, address: int) -> None:
        """Gives a label to an address of the program, if it has none."""
        if address not in self._first and self._section(address) is not None:
            self._put(address, self._free(f"L{address:X}"))

    def of(self, relocation: Relocation) -> str | None:
        """How the address of a relocation is written, or None where no name stands for it.

        It is its symbol, and what is added in data. In code a label at the very place is better: lines may be put in
        between.
        """
        base, target = self._of_symbol.get((relocation.symbol or "", relocation.base)), relocation.target
        if base is not None and (not relocation.addend or not self._in_code(target)):
            return base + (f"{relocation.addend:+d}" if relocation.addend else "")
        if target not in self._first:
            whole = self._object(target)
            if whole is not None:
                return f"{self._first[whole.address]}+{target - whole.address}"
            self.ensure(target)
        return self._first.get(target)

    def _add(self, symbol: Symbol) -> None:
        if self._section(symbol.address) is None and not any(it.end == symbol.address for it in self._program.sections):
            return
        plain = _plain(symbol.name)
        if len(plain) > _LONGEST or plain in self._used:
            plain = self._free(f"{plain[:_LONGEST - 20]}.{symbol.address:X}")
        self._put(symbol.address, plain)
        self._of_symbol.setdefault((symbol.name, symbol.address), plain)

    def _put(self, address: int, name: str) -> None:
        self._used.add(name)
        self._labels[address].append(name)
        self._first.setdefault(address, name)

    def _free(self, name: str) -> str:
        while name in self._used:
            name += "_"
        return name

    def _section(self, address: int) -> Section | None:
        return next((it for it in self._program.sections if it.address <= address < it.end), None)

    def _in_code(self, address: int) -> bool:
        section = self._section(address)
        return section is not None and section.is_code

    def _object(self, address: int) -> Symbol | None:
        """The object in data that the address lies in."""
        place = bisect_right(self._starts, address)
        found = self._objects[place - 1] if place else None
        return found if found is not None and address < found.address + found.size else None
