"""A program as it is loaded, whatever file it came from."""
from __future__ import annotations

from dataclasses import dataclass, field
from enum import Enum, IntEnum

from .limits import RAM_SIZE
from .problem import Problem


class SymbolKind(Enum):
    """What a symbol names. The order is that in which a name is preferred for an address."""

    FUNCTION = 0
    OBJECT = 1
    OTHER = 2


class RelocationKind(IntEnum):
    """The kinds of relocations that can stand as names in a text, by their numbers in the ABI for SPARC."""

    WORD = 3
    CALL = 7
    BRANCH = 8
    HIGH_22 = 9
    WHOLE_22 = 10
    WHOLE_13 = 11
    LOW_10 = 12
    LOOSE_WORD = 23


@dataclass(frozen=True)
class Section:
    """Bytes that follow each other in memory. `size` is greater than that of the data where the rest is 0."""

    name: str
    address: int
    data: bytes
    size: int
    is_code: bool
    alignment: int = 1

    @property
    def data_end(self) -> int:
        """The address behind the data."""
        return self.address + len(self.data)

    @property
    def end(self) -> int:
        """The address behind the section."""
        return self.address + self.size


@dataclass(frozen=True)
class Symbol:
    """A name of an address. A size of 0 says that none is known."""

    name: str
    address: int
    size: int = 0
    kind: SymbolKind = SymbolKind.OTHER


@dataclass(frozen=True)
class Relocation:
    """What the linker was told to put at a place: the address of a symbol, and `addend` more. A section has no name."""

    place: int
    kind: int
    base: int
    addend: int
    symbol: str | None = None

    @property
    def target(self) -> int:
        """The address that was put there."""
        return (self.base + self.addend) & 0xFFFF_FFFF


@dataclass
class Program:
    """A program with what is known of it. `relocations` is by place; `notes` are to be told to the user."""

    sections: list[Section]
    entry: int
    symbols: list[Symbol] = field(default_factory=list)
    relocations: dict[int, Relocation] = field(default_factory=dict)
    keeps_relocations: bool = False
    """Whether each address is known by its relocation."""
    notes: list[str] = field(default_factory=list)

    def __post_init__(self) -> None:
        """Puts the sections into their order, and sees that they fit."""
        self.sections = sorted((it for it in self.sections if it.size), key=lambda it: it.address)
        if not self.sections:
            raise Problem("nothing is loaded by it: link it with its code in sections that are loaded")
        for section in self.sections:
            if section.end > RAM_SIZE:
                raise Problem(
                    f"what is loaded at {section.address:08X} to {section.end - 1:08X} lies outside RAM (00000000 to "
                    f"{RAM_SIZE - 1:08X}): link it below, with a linker script or -Ttext=0"
                )
        for low, high in zip(self.sections, self.sections[1:]):
            if low.end > high.address:
                raise Problem(
                    f"{low.name or 'a part'} and {high.name or 'a part'} overlap at {high.address:08X}: link them apart"
                )

    @property
    def needs_start(self) -> bool:
        """Whether a branch to the entry has to be put at 0, where the machine starts."""
        return self.entry != 0 and self.sections[0].address >= 8

    def holds(self, address: int) -> bool:
        """Whether a section has the address."""
        return any(it.address <= address < it.end for it in self.sections)

    def image(self) -> bytes:
        """Memory as the file fills it, from 0 up to the last byte that is not implied."""
        image = bytearray()
        for section in self.sections:
            image += bytes(max(0, section.data_end - len(image)))
            image[section.address : section.data_end] = section.data
        return bytes(image)
