"""The proved programs that were kept, each beside a record of what it was proved from.

They stand in the user's cache folder, by sources and toolchain, so every checkout of the same sources finds them.
"""
from __future__ import annotations

import contextlib
import hashlib
import json
import os
import shutil
import tempfile
from collections.abc import Iterable, Mapping
from dataclasses import asdict, dataclass, replace
from pathlib import Path

from . import places

MOST = 8
RECORD = "record.json"


@dataclass(frozen=True)
class Record:
    """What programs were proved from: the sources' number, the toolchain's line, when, by what, and their sums."""

    sources: str
    toolchain: str
    proved_at: str
    proved_by: str
    version: str
    programs: dict[str, str]


@dataclass(frozen=True)
class Kept:
    """Programs that stand in a folder with their record."""

    folder: Path
    record: Record

    def program(self, name: str = "sparc8") -> Path:
        """The path of a program."""
        return self.folder / name

    def has(self, programs: Iterable[str]) -> bool:
        """Whether these programs are among those that were kept."""
        return all(it in self.record.programs for it in programs)


def sum_of(path: Path) -> str:
    """The sum of a file."""
    with path.open("rb") as file:
        return hashlib.file_digest(file, "sha256").hexdigest()


def read(folder: Path) -> Kept | None:
    """What stands in a folder, or None where it is not whole: a program has to have the sum that its record tells."""
    try:
        record = Record(**json.loads((folder / RECORD).read_text(encoding="utf-8")))
        is_whole = bool(record.programs) and all(
            sum_of(folder / name) == total for name, total in record.programs.items()
        )
    except (OSError, ValueError, TypeError, AttributeError):
        return None
    return Kept(folder, record) if is_whole else None


def _folder() -> Path:
    """Where they stand."""
    return places.cache() / "proved"


def _name(sources: str, toolchain: str) -> str:
    """The folder's name for these sources and this toolchain."""
    return f"{sources[:32]}-{hashlib.sha256(toolchain.encode()).hexdigest()[:16]}"


def find(sources: str, toolchain: str | None) -> Kept | None:
    """What was proved of these sources by this toolchain, or by any where none is named: then the newest."""
    pattern = _name(sources, toolchain) if toolchain is not None else f"{sources[:32]}-*"
    found = [it for it in map(read, _folder().glob(pattern)) if it is not None and it.record.sources == sources]
    return max(found, key=lambda it: it.record.proved_at) if found else None


def keep(programs: Mapping[str, Path], record: Record) -> Kept:
    """Keeps programs with those that were kept of the same sources, and lets the oldest of others go."""
    folder = _folder()
    folder.mkdir(parents=True, exist_ok=True)
    before = find(record.sources, record.toolchain)
    if before is not None:
        programs = {it: before.program(it) for it in before.record.programs} | dict(programs)
        record = replace(record, programs=before.record.programs | record.programs)
    with tempfile.TemporaryDirectory(prefix="new-", dir=folder) as room:
        made = Path(room) / "made"
        write(programs, record, made)
        to = folder / _name(record.sources, record.toolchain)
        try:
            with contextlib.suppress(FileNotFoundError):
                os.rename(to, Path(room) / "old")
            os.rename(made, to)
        except OSError:
            # Another run has kept the same at this moment.
            if read(to) is None:
                raise
    _shrink(folder)
    return Kept(to, record)


def write(programs: Mapping[str, Path], record: Record, to: Path) -> None:
    """Writes programs and their record into a new folder."""
    to.mkdir(parents=True)
    for name, path in programs.items():
        shutil.copyfile(path, to / name)
        (to / name).chmod(0o755)
    (to / RECORD).write_text(json.dumps(asdict(record), indent=2) + "\n", encoding="utf-8")


def _shrink(folder: Path) -> None:
    """Lets the oldest go, so that no more than `MOST` stay."""
    found = sorted(
        (it for it in folder.iterdir() if (it / RECORD).is_file()), key=lambda it: it.stat().st_mtime, reverse=True
    )
    for it in found[MOST:]:
        shutil.rmtree(it, ignore_errors=True)
