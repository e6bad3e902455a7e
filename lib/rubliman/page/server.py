"""Answers the requests of pages, on 127.0.0.1 alone."""
from __future__ import annotations

import json
import secrets
from collections.abc import Callable
from dataclasses import dataclass
from http import HTTPStatus
from http.server import BaseHTTPRequestHandler, ThreadingHTTPServer
from pathlib import Path

from . import guards
from .files import File, files
from .guards import Denied
from .presence import accepted, watch
from .requests import MOST_BYTES, commands_of
from .sessions import Session, Sessions

HOST = "127.0.0.1"


@dataclass(frozen=True)
class Given:
    """What the page opens with: the number of windows, and a file's name and text where one was named."""

    windows: str
    name: str | None
    text: str


class Server(ThreadingHTTPServer):
    """Serves pages over a program until it is shut down."""

    daemon_threads = True
    request_queue_size = 64

    def __init__(self, program: Path | str, given: Given, port: int = 0) -> None:
        super().__init__((HOST, port), Handler)
        self.given, self.token = given, secrets.token_urlsafe(32)
        self.files: dict[str, File] = files()
        self.sessions = Sessions(program)

    def address(self) -> str:
        """What the user opens. The token stands behind `#`, so that no browser sends it anywhere by itself."""
        return f"http://{HOST}:{self.server_port}/#{self.token}"

    def server_close(self) -> None:
        """Ends the runs of all pages too."""
        super().server_close()
        self.sessions.close_all()


class Handler(BaseHTTPRequestHandler):
    """Answers the requests of one connection."""

    server: Server
    protocol_version = "HTTP/1.1"
    server_version, sys_version = "rubliman", ""
    # A connection that says nothing for so many seconds is closed.
    timeout = 300
    disable_nagle_algorithm = True
    # Head and body leave in one piece.
    wbufsize = 1 << 16

    def do_GET(self) -> None:
        """A file of the page, what it was given, or its WebSocket."""
        self._answered(self._got)

    def do_POST(self) -> None:
        """A run for a page, or what a page asks of it."""
        self._answered(self._posted)

    def log_message(self, *_: object) -> None:
        """Nothing is logged."""

    def _answered(self, does: Callable[[str, str], None]) -> None:
        """Does this, or tells why not. Nothing is read of a request that is denied, so its connection ends."""
        try:
            guards.check_place(self.headers, self.server.server_port)
            does(*guards.path_and_query(self.path))
        except Denied as denied:
            self.close_connection = True
            self._say(denied.status, File(f"{denied}\n".encode(), "text/plain; charset=utf-8"))
        except ConnectionError:
            self.close_connection = True

    def _got(self, path: str, query: str) -> None:
        if path == "/presence":
            self._presence(self.server.sessions.named(query))
        elif path == "/given":
            self._check_token()
            self._say(HTTPStatus.OK, File(json.dumps(vars(self.server.given)).encode(), "application/json"))
        elif path in self.server.files:
            self._say(HTTPStatus.OK, self.server.files[path])
        else:
            raise Denied(HTTPStatus.NOT_FOUND, "there is no such file")

    def _posted(self, path: str, query: str) -> None:
        self._check_token()
        body = self._body()
        if path == "/open":
            answer = self.server.sessions.open(query).name.encode()
        elif path == "/ask":
            answer = self.server.sessions.named(query).answer(commands_of(body))
        else:
            raise Denied(HTTPStatus.NOT_FOUND, "there is no such thing to ask")
        self._say(HTTPStatus.OK, File(answer, "text/plain; charset=utf-8"))

    def _check_token(self) -> None:
        guards.check_token(self.headers.get(guards.TOKEN), self.server.token)

    def _body(self) -> bytes:
        """What was sent. Raises `Denied` where it is too much, or not told how much."""
        length = self.headers.get("Content-Length") or ""
        if not (length.isascii() and length.isdecimal()) or "Transfer-Encoding" in self.headers:
            raise Denied(HTTPStatus.LENGTH_REQUIRED, "how long is it?")
        if int(length) > MOST_BYTES:
            raise Denied(HTTPStatus.REQUEST_ENTITY_TOO_LARGE, "it is too long")
        return self.rfile.read(int(length))

    def _presence(self, session: Session) -> None:
        """Waits until the page is gone, and ends its run. The run's name is its right to it: nobody can guess it."""
        key = self.headers.get("Sec-WebSocket-Key")
        if key is None or self.headers.get("Upgrade", "").lower() != "websocket" or session.is_seen:
            raise Denied(HTTPStatus.BAD_REQUEST, "it is for the page alone")
        session.is_seen = True
        self.close_connection = True
        try:
            self.send_response(HTTPStatus.SWITCHING_PROTOCOLS)
            self.send_header("Upgrade", "websocket")
            self.send_header("Connection", "Upgrade")
            self.send_header("Sec-WebSocket-Accept", accepted(key))
            self.end_headers()
            self.wfile.flush()
            self.connection.settimeout(None)
            watch(self.connection, session)
        finally:
            self.server.sessions.close(session)

    def _say(self, status: HTTPStatus, file: File) -> None:
        """Answers."""
        self.send_response(status)
        self.send_header("Content-Type", file.type)
        self.send_header("Content-Length", str(len(file.content)))
        for name, value in guards.HEADERS.items():
            self.send_header(name, value)
        if self.close_connection:
            self.send_header("Connection", "close")
        self.end_headers()
        self.wfile.write(file.content)
