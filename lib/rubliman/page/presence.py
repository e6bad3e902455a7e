"""Tells when a page is gone. A page keeps a WebSocket open for as long as it is there, and says nothing on it.

A WebSocket and not an event stream, of which a browser holds six for all pages of a server together (RFC 6455).
"""
from __future__ import annotations

import base64
import hashlib
import os
import select
import socket

from .sessions import Session

_MAGIC = b"258EAFA5-E914-47DA-95CA-C5AB0DC85B11"
_CLOSE = b"\x88\x00"
_OPCODE, _CLOSE_CODE = 0x0F, 0x8


def accepted(key: str) -> str:
    """What a server answers to the key of a handshake (section 4.2.2)."""
    return base64.b64encode(hashlib.sha1(key.encode("latin-1") + _MAGIC).digest()).decode()


def watch(connection: socket.socket, session: Session) -> None:
    """Returns when the page is gone, or its run is. Ends the run where a request takes too long."""
    ended = os.pidfd_open(session.program.process.pid)
    try:
        while True:
            ready, _, _ = select.select([connection, ended], [], [], 1.0)
            if ended in ready:
                connection.sendall(_CLOSE)
                return
            if connection in ready and _is_end(connection.recv(4096)):
                return
            session.end_if_late()
    except OSError:
        return
    finally:
        os.close(ended)


def _is_end(data: bytes) -> bool:
    """Whether the page closes the connection, or has closed it."""
    return not data or data[0] & _OPCODE == _CLOSE_CODE
