"""The files that are served: those that stand in `site`, by names that are known from the start."""
from __future__ import annotations

from dataclasses import dataclass
from pathlib import Path

SITE = Path(__file__).with_name("site")
_TYPES = {
    ".html": "text/html; charset=utf-8",
    ".css": "text/css; charset=utf-8",
    ".js": "text/javascript; charset=utf-8",
    ".svg": "image/svg+xml",
    ".txt": "text/plain; charset=utf-8",
}


@dataclass(frozen=True)
class File:
    """What is served under a name."""

    content: bytes
    type: str


def files(site: Path = SITE) -> dict[str, File]:
    """The files by their paths; the page itself stands under `/`. No path of a request is looked up on the disk."""
    found = {
        f"/{it.relative_to(site).as_posix()}": File(it.read_bytes(), _TYPES[it.suffix])
        for it in sorted(site.rglob("*"))
        if it.suffix in _TYPES
    }
    found["/"] = found.pop("/index.html")
    return found
