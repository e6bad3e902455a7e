"""The symbol file, which GDB reads as if it lay on the target, and the source that it names."""
from __future__ import annotations

from pathlib import Path

from ..asking.monitor import Monitor
from .listing import Listing
from .packets import PACKET_SIZE, Bad, numbers
from .symbols import elf

SYMBOLS = "/workbench.elf"
_SOURCE = "source.s"
_MOST_OPEN = 8
_NO_FILE, _BAD_HANDLE, _BAD_REQUEST = b"F-1,2", b"F-1,9", b"F-1,16"
# The last time that a file can have, but for those of edits: GDB reads the file again where its time is another one.
_TIME = 0x7FFF0000


class Files:
    """Answers GDB's requests for files."""

    def __init__(self, monitor: Monitor, folder: Path) -> None:
        self._monitor, self._folder = monitor, folder
        self._open: dict[int, bytes] = {}
        self._edits = 0
        self.change()

    def change(self) -> None:
        """The source is another one now. It is written for GDB to show its lines."""
        self._listing, self._symbols = Listing.of(self._monitor), b""
        (self._folder / _SOURCE).write_text(self._listing.text(), encoding="latin-1")
        self._edits += 1

    def answer(self, text: str) -> bytes:
        """What a request is answered; nothing where it is not known."""
        what, _, rest = text.partition(":")
        if what == "setfs":
            return b"F0"
        try:
            if what == "open":
                return self._opened(rest)
            return self._of_open(what, rest) if what in ("pread", "fstat", "close") else b""
        except (Bad, ValueError):
            return _BAD_REQUEST

    def _of_open(self, what: str, rest: str) -> bytes:
        """What a request for an open file is answered."""
        handle, *place = numbers(rest, 3 if what == "pread" else 1)
        if handle not in self._open:
            return _BAD_HANDLE
        if what == "close":
            del self._open[handle]
            return b"F0"
        data = self._open[handle]
        if what == "fstat":
            return _attached(_status(len(data), _TIME + self._edits))
        count, offset = place
        return _attached(data[offset : offset + min(count, PACKET_SIZE // 4)])

    def _opened(self, rest: str) -> bytes:
        """Opens the symbol file, which is made at the first time. No other file is there."""
        name = bytes.fromhex(rest.split(",")[0]).decode("latin-1")
        if name != SYMBOLS or len(self._open) >= _MOST_OPEN:
            return _NO_FILE
        handle = max(self._open, default=2) + 1
        self._symbols = self._symbols or elf(self._listing, str(self._folder), _SOURCE)
        self._open[handle] = self._symbols
        return b"F%x" % handle


def _attached(data: bytes) -> bytes:
    """Data behind their length."""
    return b"F%x;%s" % (len(data), data)


def _status(size: int, time: int) -> bytes:
    """What `fstat` tells of a file that may be read: its mode, size, and time of change."""
    mode = (0o100444).to_bytes(4, "big")
    return bytes(8) + mode + bytes(16) + size.to_bytes(8, "big") + bytes(20) + time.to_bytes(4, "big") + bytes(4)
