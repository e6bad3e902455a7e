"""What stands here: which sources, by which toolchain, and whether they are proved."""
from __future__ import annotations

from collections.abc import Sequence
from dataclasses import dataclass

from . import kept, places, proving, toolchain
from .kept import Kept
from .problem import Problem
from .proving import Asked
from .sources import PROGRAMS, Sources, read_sources


@dataclass(frozen=True)
class Standing:
    """The sources (none where this was installed), the toolchain's line, if it is there, and what is kept of it."""

    sources: Sources | None
    fingerprint: str
    toolchain: str | None
    kept: Kept | None

    def told(self) -> str:
        """It in words, a line each."""
        lines = [f"version    {proving.version()}"]
        if self.sources is not None:
            files = len(self.sources.files)
            lines.append(
                f"sources    {self.fingerprint[:16]}, {files} files of {len(self.sources.crates)} crates, "
                f"in {places.TOP}"
            )
            lines.append(f"toolchain  {self.toolchain or 'none: rt is not on the PATH, or does not tell its version'}")
        else:
            lines.append(f"sources    {self.fingerprint[:16]}, installed in {places.TOP}")
        if self.kept is None:
            lines.append("proved     no: ./sparc8 proves and builds the program at its next run")
        else:
            record = self.kept.record
            lines.append(f"proved     yes, by {record.proved_by} of {record.toolchain}, at {record.proved_at}")
            lines += [f"program    {self.kept.program(name)}" for name in record.programs]
            lines += [f"program    {it} is not proved yet" for it in PROGRAMS if it not in record.programs]
        return "\n".join(lines) + "\n"


def now() -> Standing:
    """What stands here now. It takes no more than the sources' reading."""
    if not places.is_repository():
        found = kept.read(places.INSTALLED_PROGRAM)
        if found is None:
            raise Problem(f"the program in {places.INSTALLED_PROGRAM} is not whole: install it anew")
        return Standing(None, found.record.sources, found.record.toolchain, found)
    sources = read_sources(places.TOP)
    fingerprint = sources.fingerprint()
    identity = _toolchain()
    return Standing(sources, fingerprint, identity, kept.find(fingerprint, identity))


def _toolchain() -> str | None:
    """The toolchain's line, or None where there is none that tells it."""
    rt = toolchain.find()
    try:
        return toolchain.identity(rt) if rt else None
    except Problem:
        return None


def prove(programs: Sequence[str] = PROGRAMS) -> Kept:
    """Proves these programs as they stand here, and keeps them. Raises `Problem` where the toolchain is not there."""
    rt = toolchain.wanted("the program has yet to be proved and built")
    fingerprint = read_sources(places.TOP).fingerprint()
    asked = Asked(tuple(programs), read_sources(places.TOP, programs), fingerprint, rt, toolchain.identity(rt))
    return proving.prove(asked)
