"""What a page asks, taken apart. A request is commands of the monitor, and its answer theirs."""
from __future__ import annotations

from http import HTTPStatus

from ..asking.script import lines_behind
from .guards import Denied

# All lines of the longest source, and more events than there can be.
MOST_BYTES = 1 << 25
MOST_COMMANDS = 200_000
# The program keeps 4,096 bytes of a line. What is longer would be taken apart another way here.
MOST_LINE = 4_000


def commands_of(body: bytes) -> list[bytes]:
    """The commands, an edit with its lines, blank lines left out. Raises `Denied` where they cannot be counted."""
    lines = body.split(b"\n")
    if not lines[-1]:
        lines.pop()
    found, at = [], 0
    while at < len(lines):
        line = lines[at].removesuffix(b"\r")
        if len(line) > MOST_LINE:
            raise Denied(HTTPStatus.BAD_REQUEST, "a command is too long")
        behind = at + 1 + lines_behind(line.decode("latin-1"))
        if behind > len(lines):
            raise Denied(HTTPStatus.BAD_REQUEST, "an edit lacks lines")
        if line.strip(b" \t") == b"quit":
            raise Denied(HTTPStatus.BAD_REQUEST, "quit is not the page's")
        if line.strip(b" \t"):
            found.append(b"\n".join([line, *lines[at + 1 : behind]]))
        at = behind
    if len(found) > MOST_COMMANDS:
        raise Denied(HTTPStatus.BAD_REQUEST, "too many commands")
    return found
