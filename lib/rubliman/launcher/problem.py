"""What stops the launcher."""
from __future__ import annotations

import sys


class Problem(Exception):
    """Why what was asked cannot be done, in words for the user, and the status to end with."""

    def __init__(self, text: str, status: int = 1) -> None:
        super().__init__(text)
        self.status = status


class Interrupted(Exception):
    """A signal asked to end: the status to end with."""

    def __init__(self, number: int) -> None:
        super().__init__(number)
        self.status = 128 + number


def say(text: str, program: str = "sparc8") -> None:
    """Tells something on standard error, under the program's name."""
    sys.stderr.write(f"{program}: {text}\n")
    sys.stderr.flush()
