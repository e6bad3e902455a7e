"""Reads a linked ELF file, by pyelftools; tables of many entries are unpacked at once, for speed."""
from __future__ import annotations

import io
import struct
from collections.abc import Iterator

from elftools.common.exceptions import ELFError
from elftools.construct.core import ConstructError
from elftools.elf.constants import P_FLAGS, SH_FLAGS
from elftools.elf.elffile import ELFFile

from .problem import Problem
from .program import Program, Relocation, Section, Symbol, SymbolKind

MAGIC = b"\x7fELF"

_UNDEFINED, _FIRST_RESERVED = 0, 0xFF00
_SECTION_SYMBOL, _FILE_SYMBOL = 3, 4
_KINDS = {2: SymbolKind.FUNCTION, 1: SymbolKind.OBJECT}
_NO_RELOCATION = 0
# What pyelftools raises at a damaged file.
_DAMAGE = (
    ELFError,
    ConstructError,
    struct.error,
    IndexError,
    ValueError,
    KeyError,
    AttributeError,
    TypeError,
    OverflowError,
)


def read_elf(data: bytes) -> tuple[Program, ELFFile]:
    """The program of a linked 32-bit SPARC file, and the file itself, for the lines of its origin."""
    try:
        elf = ELFFile(io.BytesIO(data))
        _refuse_others(elf)
        notes = _notes(elf)
        sections = [part for segment in _loaded(elf) for part in _parts(elf, segment, notes)]
        relocations = {it.place: it for it in _relocations(elf)}
        keeps_relocations = any(_tables(elf, "SHT_RELA"))
        program = Program(sections, elf["e_entry"], list(_symbols(elf)), relocations, keeps_relocations, notes)
    except _DAMAGE as problem:
        said = " ".join(str(problem).split())
        raise Problem(f"a damaged ELF file ({said or type(problem).__name__}): link it anew") from problem
    return program, elf


def _refuse_others(elf: ELFFile) -> None:
    """Says of a file of another kind what to do in its place."""
    if elf.elfclass != 32 or elf.little_endian:
        order = "little" if elf.little_endian else "big"
        raise Problem(
            f"a {elf.elfclass}-bit {order}-endian file: the machine is 32-bit and big-endian, "
            "so build it by gcc -m32 and ld -m elf32_sparc"
        )
    if elf["e_machine"] not in ("EM_SPARC", "EM_SPARC32PLUS"):
        raise Problem(f"a file for {elf['e_machine']}: build it for SPARC V8 (gcc -m32 -mcpu=v8)")
    kind = elf["e_type"]
    if kind == "ET_REL":
        raise Problem("an object file that is not linked: link it at 0, with ld -m elf32_sparc -static -q -T SCRIPT")
    if any(it["p_type"] == "PT_INTERP" for it in elf.iter_segments()):
        raise Problem("linked to shared libraries: link it with -static")
    if kind == "ET_DYN" or any(it["p_type"] == "PT_DYNAMIC" for it in elf.iter_segments()):
        raise Problem("position independent: link it with -static and without -pie")
    if kind != "ET_EXEC":
        raise Problem(f"no executable ({kind}): link it with ld -m elf32_sparc -static")


def _notes(elf: ELFFile) -> list[str]:
    return ["built for V8+: instructions of V9 trap as illegal ones"] if elf["e_machine"] == "EM_SPARC32PLUS" else []


def _loaded(elf: ELFFile) -> Iterator:
    """The segments that are loaded. Names are those of addresses at which code runs: its bytes must be there too."""
    for segment in elf.iter_segments():
        if segment["p_type"] == "PT_LOAD" and segment["p_memsz"]:
            if segment["p_paddr"] != segment["p_vaddr"]:
                raise Problem(
                    f"what runs at {segment['p_vaddr']:08X} is loaded at {segment['p_paddr']:08X}: "
                    "import it as a raw image (objcopy -O binary, then --base)"
                )
            yield segment


def _has_bytes(section) -> bool:
    """Whether a section takes part of the memory; that of a thread is none of it."""
    flags = section["sh_flags"]
    return bool(flags & SH_FLAGS.SHF_ALLOC and section["sh_size"] and not flags & SH_FLAGS.SHF_TLS)


def _end(section) -> int:
    return section["sh_addr"] + section["sh_size"]


def _parts(elf: ELFFile, segment, notes: list[str]) -> Iterator[Section]:
    """The sections of a segment, and what lies between them where it is not 0."""
    start, end = segment["p_vaddr"], segment["p_vaddr"] + segment["p_memsz"]
    inside = [it for it in elf.iter_sections() if _has_bytes(it) and start <= it["sh_addr"] and _end(it) <= end]
    content, here = segment.data(), start
    if len(content) != segment["p_filesz"]:
        raise ValueError("what is loaded is cut off")
    for section in sorted(inside, key=lambda it: it["sh_addr"]):
        at, size = section["sh_addr"], section["sh_size"]
        gap = content[here - start : at - start] if here < at else b""
        if any(gap):
            if segment["p_offset"] == 0 and here == start:
                notes.append(f"the headers of the file, which ld puts at {start:08X}, are left out")
            else:
                yield Section("", here, gap, len(gap), False)
        data = b"" if section["sh_type"] == "SHT_NOBITS" else section.data()
        if section["sh_type"] != "SHT_NOBITS" and len(data) != size:
            raise ValueError(f"{section.name} is cut off")
        is_code = bool(section["sh_flags"] & SH_FLAGS.SHF_EXECINSTR)
        yield Section(section.name, at, data, size, is_code, max(1, section["sh_addralign"]))
        here = at + size
    rest = content[here - start :] if here - start < len(content) else b""
    if not inside or any(rest):
        yield Section("", here, rest, end - here, bool(segment["p_flags"] & P_FLAGS.PF_X), 4)


def _text(strings: bytes, at: int) -> str:
    return strings[at : strings.index(0, at)].decode("latin-1")


def _tables(elf: ELFFile, kind: str) -> Iterator:
    return (it for it in elf.iter_sections() if it["sh_type"] == kind)


def _symbols(elf: ELFFile) -> Iterator[Symbol]:
    """The symbols that name a place of a section."""
    for table in _tables(elf, "SHT_SYMTAB"):
        strings = elf.get_section(table["sh_link"]).data()
        for name, value, size, info, _, section in struct.iter_unpack(">IIIBBH", table.data()):
            kind = info & 15
            is_defined = _UNDEFINED < section < _FIRST_RESERVED
            if kind not in (_SECTION_SYMBOL, _FILE_SYMBOL) and is_defined and _text(strings, name):
                yield Symbol(_text(strings, name), value, size, _KINDS.get(kind, SymbolKind.OTHER))


def _relocations(elf: ELFFile) -> Iterator[Relocation]:
    """What `ld -q` kept of the places that are loaded. A number is no address: what refers to one is left out."""
    for table in _tables(elf, "SHT_RELA"):
        if not elf.get_section(table["sh_info"])["sh_flags"] & SH_FLAGS.SHF_ALLOC:
            continue
        symbols = elf.get_section(table["sh_link"])
        strings = elf.get_section(symbols["sh_link"]).data()
        entries = list(struct.iter_unpack(">IIIBBH", symbols.data()))
        for place, info, addend in struct.iter_unpack(">IIi", table.data()):
            name, value, _, _, _, section = entries[info >> 8]
            if info & 255 != _NO_RELOCATION and _UNDEFINED < section < _FIRST_RESERVED:
                yield Relocation(place, info & 255, value, addend, _text(strings, name) if name else None)
