"""Packets of GDB's remote serial protocol over a pipe: checksums, acknowledgements, escapes, and the byte of Ctrl-C."""
from __future__ import annotations

import os
import re
import select

# The most characters of a packet, which GDB is told. A longer one is read all the same, up to the bound.
PACKET_SIZE = 0x4000
_BOUND = 1 << 20
_INTERRUPT = b"\x03"
_FLIP = 0x20
_WRITTEN_ESCAPED = re.compile(rb"[#$}*]")
_READ_ESCAPED = re.compile(rb"\}(.?)", re.DOTALL)


class Ended(Exception):
    """The other end of the pipe is closed."""


class Bad(Exception):
    """What a packet says cannot be read."""


def numbers(text: str, count: int) -> list[int]:
    """So many hexadecimal numbers below 2^32, between commas. Raises `Bad`."""
    if not re.fullmatch(",".join(["[0-9a-fA-F]{1,8}"] * count), text):
        raise Bad
    return [int(it, 16) for it in text.split(",")]


class Connection:
    """Both directions of a pipe to GDB."""

    def __init__(self, source: int, sink: int) -> None:
        self._source, self._sink = source, sink
        self._arrived = bytearray()
        self._last = b""
        # Until GDB asks for a connection without them.
        self.acknowledges = True

    def packet(self) -> bytes:
        """The next packet whose checksum is right, without its escapes. Raises `Ended`."""
        while True:
            self._pass_over()
            whole = self._whole()
            if whole is None:
                self._receive()
                continue
            body, given = whole
            is_right = given.lower() == b"%02x" % _checksum(body)
            if self.acknowledges:
                self._write(b"+" if is_right else b"-")
            if is_right:
                return _READ_ESCAPED.sub(lambda it: _flipped(it[1]), body)

    def send(self, body: bytes) -> None:
        """Sends a packet. Raises `Ended`."""
        escaped = _WRITTEN_ESCAPED.sub(lambda it: b"}" + _flipped(it[0]), body)
        self._last = b"$%s#%02x" % (escaped, _checksum(escaped))
        self._write(self._last)

    def is_interrupted(self) -> bool:
        """Whether a Ctrl-C has come since the last packet. It waits for nothing. Raises `Ended`."""
        if select.select([self._source], [], [], 0)[0]:
            self._receive()
        at = self._before_packet().find(_INTERRUPT)
        if at >= 0:
            del self._arrived[at]
        return at >= 0

    def _receive(self) -> None:
        """Takes what has come, and waits for it where nothing has."""
        try:
            more = os.read(self._source, 1 << 16)
        except OSError as problem:
            raise Ended from problem
        if not more:
            raise Ended
        if len(self._arrived) > _BOUND:
            self._arrived.clear()
        self._arrived += more

    def _before_packet(self) -> bytearray:
        """What has come in front of the next packet."""
        return self._arrived.partition(b"$")[0]

    def _pass_over(self) -> None:
        """Drops what stands in front of the next packet. A Ctrl-C there finds nothing running. Where GDB has not
        understood the last packet, it is sent again."""
        passed = self._before_packet()
        del self._arrived[: len(passed)]
        if self.acknowledges and b"-" in passed:
            self._write(self._last)

    def _whole(self) -> tuple[bytes, bytes] | None:
        """The next packet and its checksum, taken from what has come; None where it is not whole."""
        end = self._arrived.find(b"#")
        if end < 0 or len(self._arrived) < end + 3:
            return None
        taken = bytes(self._arrived[: end + 3])
        del self._arrived[: end + 3]
        # Behind a packet that breaks off stands the next one.
        return taken[taken.rfind(b"$", 0, end) + 1 : end], taken[end + 1 :]

    def _write(self, data: bytes) -> None:
        """Writes all of it."""
        while data:
            try:
                data = data[os.write(self._sink, data) :]
            except OSError as problem:
                raise Ended from problem


def _checksum(body: bytes) -> int:
    return sum(body) & 0xFF


def _flipped(byte: bytes) -> bytes:
    """An escaped byte, or what stands for it; nothing where there is none."""
    return bytes(it ^ _FLIP for it in byte)
