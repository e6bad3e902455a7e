"""One run of the proved monitor for each open page, and bounds on what a page may ask."""
from __future__ import annotations

import secrets
import threading
import time
from collections.abc import Sequence
from http import HTTPStatus
from pathlib import Path

from ..asking.program import Gone, Program, TooLong
from .guards import Denied

MOST_PAGES = 16
MOST_ANSWER_BYTES = 1 << 25
MOST_SECONDS = 120
# How long a run waits for its page to say that it is there.
PATIENCE_SECONDS = 15
WINDOWS = ("2", "4", "8", "16", "32")


class Session:
    """The run of one page. Its requests are answered one after the other."""

    def __init__(self, program: Path | str, windows: str) -> None:
        self.name = secrets.token_urlsafe()
        self.program = Program(program, windows)
        self.begun = time.monotonic()
        self.is_seen = False
        self._lock = threading.Lock()
        self._since: float | None = None

    def answer(self, commands: Sequence[bytes]) -> bytes:
        """The answers of commands. Raises `Denied` where the run is gone, and ends it where they are too long."""
        with self._lock:
            self._since = time.monotonic()
            try:
                return b"".join(line for it in self.program.exchange(commands, MOST_ANSWER_BYTES) for line in it)
            except TooLong:
                raise Denied(HTTPStatus.REQUEST_ENTITY_TOO_LARGE, "the answer is too long") from None
            except Gone:
                late = time.monotonic() - self._since > MOST_SECONDS
                why = f"it took more than {MOST_SECONDS} seconds" if late else "the program has ended"
                raise Denied(HTTPStatus.GONE, why) from None
            finally:
                self._since = None

    def end_if_late(self) -> None:
        """Ends the run where a request takes too long."""
        since = self._since
        if since is not None and time.monotonic() - since > MOST_SECONDS:
            self.program.end()

    def is_forgotten(self) -> bool:
        """Whether no page has said that the run is its own, and none will."""
        return not self.is_seen and time.monotonic() - self.begun > PATIENCE_SECONDS


class Sessions:
    """The runs of all open pages."""

    def __init__(self, program: Path | str) -> None:
        self._program = program
        self._open: dict[str, Session] = {}
        self._lock = threading.Lock()

    def open(self, windows: str) -> Session:
        """A new run. Raises `Denied` where there are too many."""
        if windows not in WINDOWS:
            raise Denied(HTTPStatus.BAD_REQUEST, "no such number of windows")
        self._forget()
        with self._lock:
            if len(self._open) >= MOST_PAGES:
                raise Denied(HTTPStatus.SERVICE_UNAVAILABLE, f"{MOST_PAGES} pages are open, which is the most")
            made = Session(self._program, windows)
            self._open[made.name] = made
            return made

    def named(self, name: str) -> Session:
        """The run of that name. Raises `Denied`."""
        found = self._open.get(name)
        if found is None:
            raise Denied(HTTPStatus.GONE, "the program has ended")
        return found

    def close(self, session: Session) -> None:
        """Ends a run."""
        with self._lock:
            self._open.pop(session.name, None)
        session.program.end()

    def close_all(self) -> None:
        """Ends all of them."""
        for it in list(self._open.values()):
            self.close(it)

    def _forget(self) -> None:
        """Ends the runs whose pages never came."""
        for it in list(self._open.values()):
            if it.is_forgotten():
                self.close(it)
