"""Where the code came from: files and lines by DWARF, which pyelftools reads."""
from __future__ import annotations

from bisect import bisect_right
from collections import defaultdict
from collections.abc import Iterator, Sequence
from dataclasses import dataclass
from functools import cache
from pathlib import Path

from elftools.common.exceptions import DWARFError, ELFError
from elftools.construct.core import ConstructError
from elftools.elf.elffile import ELFFile

from .program import Program

# What pyelftools raises at line information that is damaged, or of a kind that it does not know.
_DAMAGE = (
    DWARFError,
    ELFError,
    ConstructError,
    KeyError,
    IndexError,
    AttributeError,
    TypeError,
    ValueError,
    NotImplementedError,
)


@dataclass(frozen=True)
class Origin:
    """A line of a file of the user's."""

    path: str
    line: int

    def __str__(self) -> str:
        return f"{Path(self.path).name}:{self.line}"


Row = tuple[int, Origin | None]
"""An address, and the origin from there on; None where none is known."""


class Origins:
    """The lines of origin by address."""

    def __init__(self, rows: Sequence[Row] = (), folders: Sequence[Path] = ()) -> None:
        """`folders` are searched for the files first."""
        self._rows = sorted(rows, key=lambda it: (it[0], it[1] is not None))
        self._addresses = [it[0] for it in self._rows]
        self._folders = folders
        self._lines = cache(self._read)

    def at(self, address: int) -> Origin | None:
        """The origin of the code at an address."""
        place = bisect_right(self._addresses, address)
        return self._rows[place - 1][1] if place else None

    def text(self, origin: Origin) -> str:
        """The line itself, in printing characters and single spaces; empty where the file is not found."""
        lines = self._lines(origin.path)
        found = " ".join(lines[origin.line - 1].split()) if origin.line <= len(lines) else ""
        if found.isascii() and found.isprintable():
            return found
        return "".join(it if " " <= it <= "~" else "?" for it in found)

    def remarks(self) -> dict[int, list[str]]:
        """Remarks for the source text, by the address before which each stands."""
        found, last = defaultdict(list), None
        for address, origin in self._rows:
            if origin is not None and origin != last:
                found[address].append(f"! {origin} {self.text(origin)}".rstrip())
            last = origin
        return dict(found)

    def _read(self, path: str) -> list[str]:
        name = Path(path).name
        for file in [*(it / name for it in self._folders), Path(path)]:
            if file.is_file():
                return file.read_text(encoding="latin-1").splitlines()
        return []


def read_origins(elf: ELFFile, program: Program, folders: Sequence[Path]) -> tuple[Origins, str | None]:
    """The origins of a file, and what is to be told where its line information cannot be read."""
    if elf.get_section_by_name(".debug_line") is None:
        return Origins(), None
    try:
        return Origins([row for rows in _placed(list(_sequences(elf)), program) for row in rows], folders), None
    except _DAMAGE as problem:
        why = " ".join(str(problem).split()) or type(problem).__name__
        return Origins(), f"its line information cannot be read ({why}): build it with -gdwarf-4 for lines of origin"


def _placed(sequences: Sequence[Sequence[Row]], program: Program) -> Iterator[Sequence[Row]]:
    """The sequences of code that is in the program. The linker puts those of code that it left out at 0: of those there
    the longest is kept."""
    at_zero = max((it for it in sequences if it[0][0] == 0), key=lambda it: it[-1][0], default=None)
    return (it for it in sequences if program.holds(it[0][0]) and (it[0][0] or it is at_zero))


def _sequences(elf: ELFFile) -> Iterator[Sequence[Row]]:
    """The rows of each piece of code, in rising order of addresses. The last tells its end."""
    information = elf.get_dwarf_info(relocate_dwarf_sections=False)
    for unit in information.iter_CUs():
        lines = information.line_program_for_CU(unit)
        if lines is not None:
            directory = unit.get_top_DIE().attributes.get("DW_AT_comp_dir")
            names = _files(lines.header, directory.value.decode("latin-1") if directory else "")
            yield from _sequences_of(lines, names)


def _sequences_of(lines, names: Sequence[str]) -> Iterator[Sequence[Row]]:
    first, rows = 0 if lines.header.version >= 5 else 1, []
    for entry in lines.get_entries():
        state = entry.state
        if state is not None:
            known = not state.end_sequence and state.line and 0 <= state.file - first < len(names)
            rows.append((state.address, Origin(names[state.file - first], state.line) if known else None))
            if state.end_sequence:
                yield rows
                rows = []


def _files(header, directory: str) -> list[str]:
    """The paths of the files of a line program. Their directories begin at 0 since version 5, and at 1 before."""
    directories = [it.decode("latin-1") for it in header.include_directory]
    if header.version < 5:
        directories.insert(0, directory)

    def folder(index: int) -> str:
        return directories[index] if index < len(directories) else ""

    return [str(Path(directory, folder(it.dir_index), it.name.decode("latin-1"))) for it in header.file_entry]
