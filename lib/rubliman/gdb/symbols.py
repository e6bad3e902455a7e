"""A symbol file for GDB: the source's labels and names, and which of its lines placed what.

It is an ELF file for a 32-bit SPARC with lines and functions in DWARF, version 2. The lines are those of the source as
`list` numbers them, in a file that is written beside it.
"""
from __future__ import annotations

import struct
from dataclasses import dataclass

from .listing import Listing

# ---- DWARF

_UNIT, _SUBPROGRAM = 1, 2
_TAG_UNIT, _TAG_SUBPROGRAM = 0x11, 0x2E
_NAME, _STATEMENTS, _LOW, _HIGH, _LANGUAGE, _FOLDER = 0x03, 0x10, 0x11, 0x12, 0x13, 0x1B
_ADDRESS, _TWO, _FOUR, _STRING = 0x01, 0x05, 0x06, 0x08
# The language of assemblers, of the vendors of GNU's.
_ASSEMBLER = 0x8001
_END_OF_SEQUENCE = b"\0\x01\x01"


def _signed(value: int) -> bytes:
    """A number of any length with its sign."""
    found = bytearray()
    while True:
        low, value = value & 0x7F, value >> 7
        if value == (-1 if low & 0x40 else 0):
            return bytes([*found, low])
        found.append(low | 0x80)


def _string(text: str) -> bytes:
    return text.encode("latin-1") + b"\0"


def _counted(body: bytes) -> bytes:
    """A part behind its length."""
    return struct.pack(">I", len(body)) + body


def _line_program(listing: Listing, name: str) -> bytes:
    """The section of lines: each that places bytes is a row, and each stretch without a gap a sequence."""
    tables = b"\x04\x01\xfb\x0e\x0a" + bytes([0, 1, 1, 1, 1, 0, 0, 0, 1]) + b"\0" + _string(name) + b"\0\0\0" + b"\0"
    program, end, last = bytearray(), 0, 1
    for it in sorted((it for it in listing.lines if it.data), key=lambda it: it.address):
        if program and it.address != end:
            program += _address(end) + _END_OF_SEQUENCE
            last = 1
        program += _address(it.address) + b"\x03" + _signed(it.number - last) + b"\x01"
        end, last = it.address + len(it.data), it.number
    program += _address(end) + _END_OF_SEQUENCE
    return _counted(struct.pack(">HI", 2, len(tables)) + tables + bytes(program))


def _address(value: int) -> bytes:
    """Sets the address of the rows that follow."""
    return b"\0\x05\x02" + struct.pack(">I", value)


def _information(listing: Listing, folder: str, name: str) -> bytes:
    """The section of what there is: the unit, and its functions."""
    unit = bytes([_UNIT]) + struct.pack(">III", 0, 0, listing.end())
    unit += _string(name) + _string(folder) + struct.pack(">H", _ASSEMBLER)
    functions = b"".join(
        bytes([_SUBPROGRAM]) + _string(it.name) + struct.pack(">II", it.begin, it.end) for it in listing.functions
    )
    return _counted(struct.pack(">HIB", 2, 0, 4) + unit + functions + b"\0")


def _abbreviations() -> bytes:
    """How both are written."""
    unit = [
        (_STATEMENTS, _FOUR),
        (_LOW, _ADDRESS),
        (_HIGH, _ADDRESS),
        (_NAME, _STRING),
        (_FOLDER, _STRING),
        (_LANGUAGE, _TWO),
    ]
    function = [(_NAME, _STRING), (_LOW, _ADDRESS), (_HIGH, _ADDRESS)]
    units = _abbreviation(_UNIT, _TAG_UNIT, True, unit)
    return units + _abbreviation(_SUBPROGRAM, _TAG_SUBPROGRAM, False, function) + b"\0"


def _abbreviation(number: int, tag: int, has_children: bool, attributes: list[tuple[int, int]]) -> bytes:
    return bytes([number, tag, has_children, *[it for pair in attributes for it in pair], 0, 0])


# ---- ELF

_PROGBITS, _SYMTAB, _STRTAB = 1, 2, 3
_IN_TEXT, _ABSOLUTE = 1, 0xFFF1
_GLOBAL, _FUNCTION = 0x10, 2
_SPARC, _EXECUTABLE, _BIG_ENDIAN, _CLASS_32 = 2, 2, 2, 1
_HEADER, _SEGMENT, _SECTION = 52, 32, 40


@dataclass(frozen=True)
class _Section:
    """A section: its name, type and flags, what it holds, and its link, its information and the size of its entries."""

    name: str
    kind: int
    flags: int
    data: bytes
    link: int = 0
    info: int = 0
    entry: int = 0


def _symbol_table(listing: Listing) -> tuple[bytes, bytes]:
    """The symbols and their names."""
    functions = {it.begin for it in listing.functions}
    symbols = [
        (name, begin, size, _GLOBAL | _FUNCTION * (begin in functions), _IN_TEXT)
        for name, begin, size in listing.symbols()
    ]
    symbols += [(name, value, 0, _GLOBAL, _ABSOLUTE) for name, value in listing.values]
    table, strings = bytearray(16), bytearray(1)
    for name, value, size, kind, section in symbols:
        table += struct.pack(">IIIBBH", len(strings), value, size, kind, 0, section)
        strings += _string(name)
    return bytes(table), bytes(strings)


def elf(listing: Listing, folder: str, name: str) -> bytes:
    """The file, for a source that stands under a name in a folder."""
    table, strings = _symbol_table(listing)
    sections = [
        _Section(".text", _PROGBITS, 6, listing.image()),
        _Section(".debug_line", _PROGBITS, 0, _line_program(listing, name)),
        _Section(".debug_info", _PROGBITS, 0, _information(listing, folder, name)),
        _Section(".debug_abbrev", _PROGBITS, 0, _abbreviations()),
        _Section(".symtab", _SYMTAB, 0, table, link=6, info=1, entry=16),
        _Section(".strtab", _STRTAB, 0, strings),
    ]
    names = b"\0" + b"".join(_string(it.name) for it in [*sections, _Section(".shstrtab", 0, 0, b"")])
    sections.append(_Section(".shstrtab", _STRTAB, 0, names))
    body, headers = bytearray(), bytearray(_SECTION)
    begin = _HEADER + _SEGMENT
    for it in sections:
        place, align = names.index(b"\0" + _string(it.name)) + 1, 4 if it.data else 1
        fields = (place, it.kind, it.flags, 0, begin + len(body), len(it.data), it.link, it.info, align, it.entry)
        headers += struct.pack(">10I", *fields)
        body += it.data + bytes(-len(it.data) % 4)
    head = b"\x7fELF" + bytes([_CLASS_32, _BIG_ENDIAN, 1]) + bytes(9)
    counts = (_HEADER, _SEGMENT, 1, _SECTION, len(sections) + 1, len(sections))
    head += struct.pack(">HHIIIIIHHHHHH", _EXECUTABLE, _SPARC, 1, 0, _HEADER, begin + len(body), 0, *counts)
    segment = struct.pack(">8I", _PROGBITS, begin, 0, 0, listing.end(), listing.end(), 5, 4)
    return head + segment + bytes(body) + bytes(headers)
