"""A file imported whole: the program, the text, and the lines of origin."""
from __future__ import annotations

import tempfile
from collections.abc import Iterator, Sequence
from dataclasses import dataclass
from pathlib import Path

from . import check
from .cross import SOURCES, Builder, CrossTools
from .elf import MAGIC, read_elf
from .forms import Manner
from .limits import MOST_LINES
from .origin import Origins, read_origins
from .problem import Problem, counted
from .program import Program
from .raw import read_raw
from .text import Text, write_text
from .workbench import Workbench


@dataclass(frozen=True)
class Settings:
    """How a file is imported."""

    base: int = 0
    """Where a raw image lies."""
    only: frozenset[str] = frozenset()
    """The functions that are written as instructions; all where it is empty."""
    sources: tuple[Path, ...] = ()
    """Folders that are searched for the files of origin."""
    builder: Builder | None = None
    """What builds sources; None: the cross tools that are found."""


@dataclass
class Imported:
    """What an import gives. `name` is that of the file, and `notes` are to be told to the user."""

    name: str
    program: Program
    text: Text
    origins: Origins
    notes: list[str]

    def script(self, commands: Sequence[str]) -> list[str]:
        """The lines of a script that enters the text and asks these commands."""
        lines = self.text.texts()
        return [f"edit 1 0 {len(lines)}", *lines, *commands, "quit"]

    def enter(self, workbench: Workbench) -> None:
        """Gives the text to a workbench."""
        check.enter_text(workbench, self.text, self.origins)

    def check(self, workbench: Workbench) -> str:
        """Has the workbench list the text that it was given, compares the whole image, and says so."""
        check.compare(self.program, self.text, workbench.listing(), self.origins)
        lines, size = counted(len(self.text.lines), "line"), counted(len(self.program.image()), "byte")
        return f"{lines}, {size}: the workbench's image is that of the file"

    def place(self, address: int) -> str:
        """An address as a user knows it: the symbol, what is added to it, and the line of origin."""
        below = max(
            (it for it in self.program.symbols if it.address <= address),
            key=lambda it: (it.address, -it.kind.value),
            default=None,
        )
        known = below is not None and self.program.holds(address)
        symbol = f"{below.name}{f'+{address - below.address:#x}' if address > below.address else ''}" if known else "?"
        origin = self.origins.at(address)
        line = f" {origin.path}:{origin.line} {self.origins.text(origin)}".rstrip() if origin else ""
        return f"{address:08X} {symbol}{line}"


def import_file(paths: Sequence[Path], settings: Settings = Settings()) -> Imported:
    """Imports a linked ELF file, a raw image, or sources, which may be several. What can't be had is a `Problem`."""
    paths = [Path(it) for it in paths]
    sources = [it for it in paths if it.suffix in SOURCES]
    if not sources:
        if len(paths) > 1:
            raise Problem(
                f"{paths[1]} is one file too many: only sources ({', '.join(SOURCES)}) may be several, "
                "and are linked together"
            )
        return _import_data(paths[0].name, _read(paths[0]), settings)
    if len(sources) < len(paths):
        other = next(it for it in paths if it not in sources)
        raise Problem(f"{other} is no source: import it alone, or name sources alone ({', '.join(SOURCES)})")
    with tempfile.TemporaryDirectory(prefix="rubliman-") as folder:
        builder = settings.builder or Builder(CrossTools.find())
        return _import_data(sources[0].name, _read(builder.build(sources, Path(folder))), settings)


def _read(path: Path) -> bytes:
    try:
        return path.read_bytes()
    except OSError as problem:
        raise Problem(f"{path} cannot be read ({problem.strerror}): name a file") from problem


def _import_data(name: str, data: bytes, settings: Settings) -> Imported:
    if data[:4] == MAGIC:
        program, elf = read_elf(data)
        origins, trouble = read_origins(elf, program, settings.sources)
    else:
        program, origins, trouble = read_raw(data, settings.base), Origins(), None
    notes = [*program.notes, *([trouble] if trouble else [])]
    text = _fitting(program, origins, settings, notes)
    return Imported(name, program, text, origins, [*notes, *_notes(program, text)])


@dataclass(frozen=True)
class _Attempt:
    """A way to write the text, with lines of origin or without; and what is told where an earlier one was too long."""

    manner: Manner
    has_remarks: bool
    said: str = ""


def _attempts(only: frozenset[str], has_remarks: bool) -> Iterator[_Attempt]:
    """The ways to try in turn, from the best text to the shortest."""
    first = Manner(dense=bool(only), chosen=only)
    yield _Attempt(first, has_remarks)
    if has_remarks:
        yield _Attempt(first, False, "lines of origin are left out")
    if not only:
        yield _Attempt(Manner(dense=True), False, "code is written as data; choose functions by --only")
    yield _Attempt(Manner(dense=True, chosen=only, named=False), False, "code is written as data without names")


def _fitting(program: Program, origins: Origins, settings: Settings, notes: list[str]) -> Text:
    """The first text that has no more lines than the workbench takes."""
    unknown = sorted(settings.only - {it.name for it in program.symbols})
    if unknown:
        raise Problem(
            f"it has no function {unknown[0]}, which --only chooses: the compiler may have put it into another, "
            "so see the names in the text"
        )
    remarks, lines = origins.remarks(), 0
    for attempt in _attempts(settings.only, bool(remarks)):
        if lines:
            notes.append(f"{lines:,} lines, and {MOST_LINES:,} are the most: {attempt.said}")
        text = write_text(program, remarks if attempt.has_remarks else {}, attempt.manner)
        lines = len(text.lines)
        if lines <= MOST_LINES:
            return text
    raise Problem(
        f"{lines:,} lines even with its code as data, and {MOST_LINES:,} are the most: import a smaller program"
    )


def _notes(program: Program, text: Text) -> Iterator[str]:
    """What the user has to know of the text."""
    if program.needs_start:
        yield f"the machine starts at 0, and the entry is {program.entry:08X}: a branch to it is put at 0"
    elif program.entry:
        yield (
            f"its entry is {program.entry:08X}, but the machine starts at 0, where other code lies: "
            "that is taken for the reset code"
        )
    if not text.can_move:
        way = "" if program.keeps_relocations else " (link with -q for names)"
        yield f"addresses stand as numbers: lines may be replaced, but put none in{way}"
    elif text.numbers:
        yield (
            f"addresses that stand as numbers: {len(text.numbers):,}, the first at {text.numbers[0]:08X}; "
            "lines may be replaced, but put none in before what they name"
        )
    for name in text.fixed:
        yield f"{name} stands at a fixed address (.org): lines that are put in before it need room there"
    for why, count in sorted(text.formless.items()):
        yield f"words of code that stand as .word: {count:,} ({why})"
