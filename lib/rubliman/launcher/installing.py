"""Installs the proved programs and what stands around them below a folder, so that they run without the repository."""
from __future__ import annotations

import os
import shutil
from pathlib import Path

from . import kept, places
from .kept import Kept
from .problem import Problem, say
from .sources import PROGRAMS

MANUAL = places.TOP / "docs" / "man"
# The pages of the user's guide. They link to each other.
GUIDE = (
    "TUTORIAL.md",
    "COMMANDS.md",
    "ASSEMBLER.md",
    "MONITOR.md",
    "PAGE.md",
    "GDB.md",
    "IMPORT.md",
    "LIMITS.md",
)
_LEFT_OUT = shutil.ignore_patterns("__pycache__", "*.pyc")


def install(proved: Kept, prefix: Path) -> None:
    """Puts the commands in bin, what they need in lib/rubliman, manual pages in share/man, the guide in share/doc."""
    prefix = prefix.absolute()
    if prefix.resolve() == places.TOP:
        raise Problem("the repository itself is no place to install to: name another folder", 2)
    try:
        _install_package(proved, prefix / "lib" / "rubliman")
        _install_commands(prefix / "bin")
        _install_pages(prefix / "share")
    except OSError as problem:
        raise Problem(f"it cannot be installed below {prefix}: {problem}") from problem
    commands = ", ".join(f"bin/{name}" for name in PROGRAMS)
    say(f"installed below {prefix}: {commands}, lib/rubliman, share/man and share/doc/rubliman")


def _install_package(proved: Kept, to: Path) -> None:
    """All of lib/rubliman, and the programs in it. What was installed before goes."""
    new, old = to.with_name("rubliman.new"), to.with_name("rubliman.old")
    for it in (new, old):
        shutil.rmtree(it, ignore_errors=True)
    to.parent.mkdir(parents=True, exist_ok=True)
    shutil.copytree(places.PACKAGE, new, ignore=_LEFT_OUT)
    kept.write(
        {name: proved.program(name) for name in proved.record.programs},
        proved.record,
        new / places.INSTALLED_PROGRAM.name,
    )
    if to.exists():
        os.rename(to, old)
    os.rename(new, to)
    shutil.rmtree(old, ignore_errors=True)


def _install_commands(to: Path) -> None:
    """The commands that users give."""
    to.mkdir(parents=True, exist_ok=True)
    for name in PROGRAMS:
        _put(places.TOP / name, to / name, 0o755)


def _install_pages(share: Path) -> None:
    """The manual pages, each in its section's folder, and the user's guide."""
    for page in sorted(MANUAL.glob("*.[1-9]")):
        _put(page, share / "man" / f"man{page.suffix[1:]}" / page.name, 0o644)
    for name in GUIDE:
        _put(places.TOP / "docs" / name, share / "doc" / "rubliman" / name, 0o644)


def _put(file: Path, to: Path, mode: int) -> None:
    """Copies a file over, without writing into one that may be running."""
    to.parent.mkdir(parents=True, exist_ok=True)
    new = to.with_name(f"{to.name}.new")
    shutil.copyfile(file, new)
    new.chmod(mode)
    os.replace(new, to)
