"""Who is answered, what a page may ask, and when a run ends: by requests, with no browser."""
from __future__ import annotations

import os
import signal
import socket
import stat
import tempfile
import threading
import time
import unittest
from pathlib import Path
from unittest import mock

from rubliman.page import presence, sessions
from rubliman.page.guards import Denied
from rubliman.page.requests import MOST_BYTES, commands_of
from rubliman.page.sessions import MOST_PAGES, Session, Sessions

from page.support import Server, program, until

HANDSHAKE = (
    "GET /presence?{name} HTTP/1.1\r\nHost: 127.0.0.1:{port}\r\nUpgrade: websocket\r\nConnection: Upgrade\r\n"
    "Sec-WebSocket-Key: dGhlIHNhbXBsZSBub25jZQ==\r\nSec-WebSocket-Version: 13\r\n\r\n"
)


class Requests(unittest.TestCase):
    """Requests to a server of the test's own."""

    def setUp(self) -> None:
        self.server = self.enterContext(Server())

    def present(self, name: str) -> socket.socket:
        """Says that a page is there."""
        made = socket.create_connection(("127.0.0.1", self.server.port), timeout=30)
        self.addCleanup(made.close)
        made.sendall(HANDSHAKE.format(name=name, port=self.server.port).encode())
        answer = made.recv(4096)
        self.assertIn(b"101 Switching Protocols", answer)
        # The key and its answer are those of RFC 6455, section 1.3.
        self.assertIn(b"Sec-WebSocket-Accept: s3pPLMBiTxaQ9kYGzzhZRbK+xOo=\r\n", answer)
        return made

    def test_foreign_tokens(self) -> None:
        for token in ("", "wrong", self.server.token[:-1], f"{self.server.token}x", "é"):
            with self.subTest(token=token):
                given = {"X-Token": token.encode("utf-8").decode("latin-1")}
                for method, path in (("POST", "/open?8"), ("GET", "/given"), ("POST", "/ask?x")):
                    self.assertEqual(self.server.request(method, path, b"", given)[0], 403)
        self.assertEqual(self.server.request("POST", "/open?8", b"", token=False)[0], 403)
        self.assertEqual(self.server.runs(), [], "nothing was begun")
        self.assertGreaterEqual(len(self.server.token), 43, "256 bits")

    def test_foreign_hosts_and_origins(self) -> None:
        port = self.server.port
        for host in (
            "example.org",
            f"example.org:{port}",
            "127.0.0.1",
            f"127.0.0.1:{port + 1}",
            f"127.0.0.1.example.org:{port}",
        ):
            for path in ("/", "/main.js", "/given"):
                self.assertEqual(self.server.request("GET", path, headers={"Host": host})[0], 403, (host, path))
        for origin in ("null", "http://example.org", f"http://127.0.0.1:{port + 1}", f"https://127.0.0.1:{port}", ""):
            self.assertEqual(self.server.request("POST", "/open?8", b"", {"Origin": origin})[0], 403, origin)
            self.assertEqual(self.server.request("GET", "/", headers={"Origin": origin})[0], 403, origin)
        for site in ("cross-site", "same-site"):
            self.assertEqual(self.server.request("GET", "/", headers={"Sec-Fetch-Site": site})[0], 403)
        for host in (f"127.0.0.1:{port}", f"localhost:{port}"):
            given = {"Host": host, "Origin": f"http://{host}", "Sec-Fetch-Site": "same-origin"}
            self.assertEqual(self.server.request("GET", "/", headers=given)[0], 200)

    def test_known_names_alone_are_served(self) -> None:
        for path in (
            "/../command.py",
            "/%2e%2e/command.py",
            "//etc/passwd",
            "/etc/passwd",
            "/examples/../main.js",
            "/examples/",
            "/site",
            "/index.html",
            "/examples/boot.txt%00",
            "/main.js/",
        ):
            self.assertEqual(self.server.request("GET", path)[0], 404, path)
        for path, kind in (("/", "text/html"), ("/main.js", "text/javascript"), ("/style.css", "text/css")):
            status, headers, _ = self.server.request("GET", path, token=False)
            self.assertEqual((status, headers["Content-Type"].split(";")[0]), (200, kind))
        for method in ("PUT", "DELETE", "OPTIONS", "HEAD", "TRACE"):
            self.assertEqual(self.server.request(method, "/")[0], 501, method)

    def test_headers(self) -> None:
        for path in ("/", "/main.js", "/given", "/nowhere"):
            _, headers, _ = self.server.request("GET", path)
            policy = headers["Content-Security-Policy"].split("; ")
            for due in (
                "default-src 'none'",
                "script-src 'self'",
                "style-src 'self'",
                "connect-src 'self'",
                "frame-ancestors 'none'",
                "base-uri 'none'",
                "form-action 'none'",
            ):
                self.assertIn(due, policy)
            self.assertNotIn("unsafe", headers["Content-Security-Policy"])
            self.assertEqual(headers["X-Content-Type-Options"], "nosniff")
            self.assertEqual(headers["Referrer-Policy"], "no-referrer")
            self.assertEqual(headers["Cache-Control"], "no-store")
            self.assertNotIn("Access-Control-Allow-Origin", headers)

    def test_it_listens_on_one_address_alone(self) -> None:
        listening = Path("/proc/net/tcp").read_text(encoding="ascii") + Path("/proc/net/tcp6").read_text(
            encoding="ascii"
        )
        found = [
            it.split()[1]
            for it in listening.splitlines()
            if f":{self.server.port:04X} " in it and it.split()[3] == "0A"
        ]
        self.assertEqual(found, [f"0100007F:{self.server.port:04X}"])

    def test_answers_are_the_programs(self) -> None:
        name = self.server.open("4")
        text = (
            "edit 1 0 2\nstart: ba start\n nop\n\n \t\nregs 1\nbogus\nedit 1 0\n"
            "steps 0 2 2\r\nedit 1 1 1\r\n.word 5\nlist\n"
        )
        status, told = self.server.ask(name, text)
        self.assertEqual(status, 200)
        ends = [it for it in told.splitlines() if it == "ok" or it.startswith("refused")]
        self.assertEqual(ends, ["ok", "ok", "refused 18 BadCommand", "refused 18 BadCommand", "ok", "ok", "ok"])
        self.assertIn("1 00000000 00000005 |.word 5\n2 00000004 01000000 | nop\nok\n", told)
        self.assertIn("0 00000000 00000000 10800000 run\n", told)

    def test_what_may_not_be_asked(self) -> None:
        name = self.server.open()
        for text, why in (
            ("quit", "quit"),
            ("regs 1\n quit \n", "quit"),
            ("edit 1 0 3\nnop\n", "edit lacks"),
            ("regs " + "1" * 5000, "too long"),
            ("\n".join(["regs 0"] * 200_001), "too many"),
        ):
            status, told = self.server.ask(name, text)
            self.assertEqual((status, why in told), (400, True), told)
        self.assertEqual(self.server.ask(name, "regs 0")[0], 200, "and the run is there still")
        self.assertEqual(self.server.ask("nowhere", "regs 0")[0], 410)
        for windows in ("3", "", "8;ls", "64", "08"):
            self.assertEqual(self.server.request("POST", f"/open?{windows}", b"")[0], 400)
        self.assertEqual(self.server.request("POST", "/elsewhere", b"")[0], 404)

    def test_sizes(self) -> None:
        name = self.server.open()
        head = {"Content-Length": str(MOST_BYTES + 1)}
        self.assertEqual(self.server.request("POST", f"/ask?{name}", b"", head)[0], 413)
        for given in (
            {"Content-Length": "-1"},
            {"Content-Length": "x"},
            {"Transfer-Encoding": "chunked", "Content-Length": "0"},
        ):
            self.assertEqual(self.server.request("POST", f"/ask?{name}", b"", given)[0], 411, given)
        # All of RAM is 4.7 MB, and ten times that is too much of an answer: the run ends with it.
        self.assertEqual(self.server.ask(name, "mem 0 0 262144\n")[0], 200)
        self.assertEqual(self.server.ask(name, "mem 0 0 262144\n" * 10)[0], 413)
        self.assertTrue(until(lambda: not any(map(is_running, self.server.runs()))))

    def test_many_commands_and_long_answers_at_once(self) -> None:
        name = self.server.open()
        events = "".join(f"poke {step} {4 * step:x} {step:x}\n" for step in range(10_000))
        status, told = self.server.ask(name, f"{events}events 0 1000000\n")
        lines = told.splitlines()
        self.assertEqual((status, lines.count("ok"), len(lines)), (200, 10_001, 20_001))
        self.assertEqual(lines[-2], "poke 9999 00009C3C 0000270F")
        status, told = self.server.ask(name, "mem 0 0 4096\n" * 60)
        self.assertEqual((status, told.count("\n")), (200, 60 * 4097))

    def test_pages_are_bounded(self) -> None:
        names = [self.server.open() for _ in range(MOST_PAGES)]
        self.assertEqual(self.server.request("POST", "/open?8", b"")[0], 503)
        self.present(names[0]).close()
        self.assertTrue(until(lambda: len(self.server.runs()) == MOST_PAGES - 1))
        self.server.open()

    def test_a_run_ends_with_its_page(self) -> None:
        here, there = self.server.open(), self.server.open()
        page, _ = self.present(here), self.present(there)
        self.assertEqual(len(self.server.runs()), 2)
        refused = {"Upgrade": "websocket", "Connection": "Upgrade", "Sec-WebSocket-Key": "dGhlIHNhbXBsZSBub25jZQ=="}
        self.assertEqual(self.server.request("GET", f"/presence?{there}", headers=refused)[0], 400, "it has its page")
        page.close()
        self.assertTrue(until(lambda: len(self.server.runs()) == 1))
        self.assertEqual(self.server.ask(here, "regs 0")[0], 410)
        self.assertEqual(self.server.ask(there, "regs 0")[0], 200)

    def test_a_page_learns_that_its_run_has_ended(self) -> None:
        page = self.present(self.server.open())
        os.kill(self.server.runs()[0], signal.SIGKILL)
        self.assertEqual(page.recv(16), b"\x88\x00")
        self.assertEqual(page.recv(16), b"")

    def test_nothing_is_left_behind(self) -> None:
        for number, status in ((signal.SIGINT, 0), (signal.SIGTERM, 143), (signal.SIGHUP, 129)):
            with Server() as server:
                for it in (server.open(), server.open()):
                    server.ask(it, "edit 1 0 1\nnop\nregs 1\n")
                runs = server.runs()
                self.assertEqual(len(runs), 2)
                server.process.send_signal(number)
                _, said = server.process.communicate(timeout=30)
                self.assertEqual((server.process.returncode, said), (status, ""))
                self.assertTrue(until(lambda: not any(map(is_running, runs))))


def is_running(process: int) -> bool:
    """Whether a process is there, and has not ended."""
    try:
        return Path(f"/proc/{process}/stat").read_text(encoding="ascii").rsplit(")", 1)[1].split()[0] != "Z"
    except OSError:
        return False


class Bounds(unittest.TestCase):
    """The bounds of a session, with times that a test can wait for."""

    def test_a_run_that_takes_too_long_is_ended(self) -> None:
        with tempfile.TemporaryDirectory() as folder:
            slow = Path(folder, "slow")
            slow.write_text("#!/bin/sh\nexec sleep 600\n", encoding="ascii")
            slow.chmod(slow.stat().st_mode | stat.S_IXUSR)
            with mock.patch.object(sessions, "MOST_SECONDS", 0.2):
                session = Session(slow, "8")
                page, browser = socket.socketpair()
                ended = []

                def ask() -> None:
                    with self.assertRaises(Denied) as denied:
                        session.answer([b"regs 0"])
                    ended.append(str(denied.exception))

                thread = threading.Thread(target=ask)
                thread.start()
                presence.watch(page, session)
                thread.join()
                browser.close()
                page.close()
                session.program.close()
        self.assertEqual(ended, ["it took more than 0.2 seconds"])

    def test_a_run_whose_page_never_came_is_forgotten(self) -> None:
        kept = Sessions(program())
        first = kept.open("8")
        with mock.patch.object(sessions, "PATIENCE_SECONDS", 0.01):
            time.sleep(0.05)
            second = kept.open("8")
        self.assertIsNotNone(first.program.process.poll())
        self.assertIsNone(second.program.process.poll())
        kept.close_all()

    def test_commands_are_counted_as_the_program_does(self) -> None:
        body = b"edit 1 0 2\r\n a\n\nquit now\n  edit 1 2 1  \nlist\n\t\nlist 1 2\nedit 1 0 4294967296\nregs 0"
        due = [
            b"edit 1 0 2\n a\n",
            b"quit now",
            b"  edit 1 2 1  \nlist",
            b"list 1 2",
            b"edit 1 0 4294967296",
            b"regs 0",
        ]
        self.assertEqual(commands_of(body), due)
        self.assertEqual(commands_of(b""), [])
