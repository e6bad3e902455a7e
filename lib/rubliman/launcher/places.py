"""Where things are: the repository or what was installed, and the user's cache folder."""
from __future__ import annotations

import os
import tempfile
from pathlib import Path

PACKAGE = Path(__file__).resolve().parents[1]
TOP = PACKAGE.parents[1]
INSTALLED_PROGRAM = PACKAGE / "program"


def is_repository() -> bool:
    """Whether this is a checkout with the program's sources, and not what `--install` made."""
    return (TOP / "crates.txt").is_file()


def command() -> Path:
    """The command that the user gives: `./sparc8` of the checkout, or the installed `bin/sparc8`."""
    return TOP / "sparc8" if is_repository() else TOP / "bin" / "sparc8"


def cache() -> Path:
    """The user's folder for proved programs, proofs and measured times. All of it may be removed at any time."""
    named = os.environ.get("RUBLIMAN_CACHE")
    if named:
        return Path(named).absolute()
    base = os.environ.get("XDG_CACHE_HOME")
    return (Path(base) if base else Path.home() / ".cache").absolute() / "rubliman"


def write(file: Path, text: str) -> None:
    """Writes a small file whole, so that nobody reads half of it."""
    file.parent.mkdir(parents=True, exist_ok=True)
    with tempfile.NamedTemporaryFile("w", dir=file.parent, prefix="new-", delete=False, encoding="utf-8") as made:
        made.write(text)
    os.replace(made.name, file)
