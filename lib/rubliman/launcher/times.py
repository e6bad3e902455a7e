"""Times that were measured on this machine, kept in the user's cache folder."""
from __future__ import annotations

import contextlib
import json
from pathlib import Path

from . import places


def _file() -> Path:
    """Where they are kept."""
    return places.cache() / "times.json"


def measured() -> dict[str, float]:
    """What was measured, by name; empty where nothing was."""
    try:
        found = json.loads(_file().read_text(encoding="utf-8"))
        return {str(name): float(value) for name, value in found.items()}
    except (OSError, ValueError, AttributeError, TypeError):
        return {}


def note(name: str, value: float) -> None:
    """Keeps a time. Where it cannot be written, it is not kept."""
    with contextlib.suppress(OSError):
        places.write(_file(), json.dumps(measured() | {name: round(value, 2)}))
