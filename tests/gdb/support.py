"""Runs GDB, and speaks packets, on the machine of a script."""
from __future__ import annotations

import os
import re
import select
import shlex
import subprocess
import sys
import tempfile
import time
from collections.abc import Sequence
from pathlib import Path
from types import TracebackType

from docs.blocks import Kind, blocks
from rubliman.gdb.command import words_of_gdb
from rubliman.launcher.words import read

TOP = Path(__file__).resolve().parents[2]
PROGRAMS = Path(__file__).with_name("programs")
GUIDE = TOP / "docs/GDB.md"
C_PROGRAM = "sum"
SECONDS = 60
COMMAND, PROMPT = "$ ./sparc8 --gdb", "(gdb) "
# What GDB tells before anything is asked.
LEFT_OUT = ("Remote debugging using", "Reading ", "warning: File transfers")


def program() -> str:
    """The monitor that is asked."""
    return os.environ["SPARC8_MONITOR"]


def environment(folder: str) -> dict[str, str]:
    """The environment of GDB and of the stub, with a folder for what they leave."""
    return {**os.environ, "PYTHONPATH": str(TOP / "lib"), "HOME": "/nonexistent", "LC_ALL": "C", "TMPDIR": folder}


class Packets:
    """A stub that is spoken to by hand, as a context. It leaves nothing behind."""

    def __init__(self, script: Path | None = None, windows: int = 8) -> None:
        self._words = ["--program", program(), "--windows", str(windows), *([str(script)] if script else [])]
        # What the user was told.
        self.said = b""
        self.acknowledges = True

    def __enter__(self) -> Packets:
        self._folder = tempfile.TemporaryDirectory(prefix="gdb-test-")
        self._errors = tempfile.TemporaryFile()
        self.process = subprocess.Popen(
            [sys.executable, "-B", "-m", "rubliman.gdb", *self._words],
            env=environment(self._folder.name),
            stdin=subprocess.PIPE,
            stdout=subprocess.PIPE,
            stderr=self._errors,
            bufsize=0,
        )
        self._arrived = b""
        return self

    def __exit__(
        self, kind: type[BaseException] | None, value: BaseException | None, trace: TracebackType | None
    ) -> None:
        assert self.process.stdin is not None and self.process.stdout is not None
        self.process.stdin.close()
        self.process.stdout.close()
        self.process.wait(timeout=SECONDS)
        left = os.listdir(self._folder.name)
        self._folder.cleanup()
        self._errors.close()
        assert kind or not left, left

    def errors(self) -> str:
        """What the stub has told on standard error."""
        self._errors.seek(0)
        return self._errors.read().decode()

    def child(self) -> int:
        """The number of the monitor's process."""
        assert self.ask(b"qC") == b"QC1"
        found = subprocess.run(["pgrep", "-P", str(self.process.pid)], stdout=subprocess.PIPE, text=True, check=True)
        return int(found.stdout)

    def write(self, data: bytes) -> None:
        """Sends bytes as they are."""
        assert self.process.stdin is not None
        while data:
            data = data[self.process.stdin.write(data) or 0 :]

    def read(self, seconds: float = SECONDS) -> bytes:
        """Bytes that have come, at least one; none at the end or where none comes in time."""
        assert self.process.stdout is not None
        if not select.select([self.process.stdout], [], [], seconds)[0]:
            return b""
        return os.read(self.process.stdout.fileno(), 1 << 16)

    def send(self, body: bytes) -> None:
        """Sends a packet."""
        self.write(b"$%s#%02x" % (body, sum(body) & 0xFF))

    def reply(self) -> bytes:
        """The next packet of the stub, without its escapes."""
        end = time.monotonic() + SECONDS
        while b"#" not in self._arrived or len(self._arrived) < self._arrived.index(b"#") + 3:
            more = self.read(max(0.0, end - time.monotonic()))
            if not more:
                raise EOFError(self._arrived)
            self._arrived += more
        begin, at = self._arrived.index(b"$"), self._arrived.index(b"#")
        body, self._arrived = self._arrived[begin + 1 : at], self._arrived[at + 3 :]
        if self.acknowledges:
            self.write(b"+")
        return re.sub(rb"\}(.)", lambda it: bytes([it[1][0] ^ 0x20]), body, flags=re.DOTALL)

    def ask(self, body: bytes) -> bytes:
        """What a packet is answered, without text for the user."""
        self.send(body)
        while True:
            found = self.reply()
            if not found.startswith(b"O") or found == b"OK":
                return found
            self.said += bytes.fromhex(found[1:].decode())

    def command(self, text: str) -> str:
        """What the user is told to a command behind `monitor`."""
        self.said = b""
        found = self.ask(b"qRcmd," + text.encode().hex().encode())
        assert found == b"OK", found
        return self.said.decode()


def build(folder: Path) -> None:
    """Builds the C program in a folder, and imports it, by the commands of the guide."""
    for it in ("lib", "sparc8", "tests"):
        (folder / it).symlink_to(TOP / it)
    block = next(it for it in blocks(GUIDE, Kind.SH) if f"--import {C_PROGRAM}.elf" in it.text)
    *commands, last = block.lines
    assert last == f"./sparc8 --gdb {C_PROGRAM}.txt -- {C_PROGRAM}.elf", last
    subprocess.run(["sh", "-ec", "\n".join(commands)], cwd=folder, check=True, stderr=subprocess.DEVNULL)


def typed(words: Sequence[str], commands: Sequence[str], folder: Path) -> str:
    """What GDB prints where these words start it in a folder, and `commands` are typed. Nothing is left behind."""
    with tempfile.TemporaryDirectory(prefix="gdb-test-") as left:
        done = subprocess.run(
            words,
            cwd=folder,
            env=environment(left),
            input="".join(f"{it}\n" for it in commands),
            stdout=subprocess.PIPE,
            stderr=subprocess.STDOUT,
            text=True,
            errors="replace",
            timeout=SECONDS,
            check=True,
        )
        assert not os.listdir(left), left
    return done.stdout.replace(f"{TOP}/", "")


def gdb(line: str, commands: Sequence[str], folder: Path = TOP, more: Sequence[str] = ()) -> str:
    """The same where a line starts it, as a user would type it; `more` are words of GDB."""
    words = shlex.split(line.removeprefix(COMMAND))
    at = words.index("--") if "--" in words else len(words)
    settings = read(words[:at])
    own = ["-nx", *more, *words[at + 1 :]]
    return typed(words_of_gdb(program(), settings.windows, settings.script, own), commands, folder)


def session(line: str, commands: Sequence[str], folder: Path = TOP) -> str:
    """What a user sees, with each command behind its prompt. What GDB tells of the pipe and of files at its start is
    left out."""
    head, *shown = gdb(line, commands, folder, ["-iex", "set width 0"]).split(PROMPT)
    begin = "".join(it for it in head.splitlines(keepends=True) if not it.startswith(LEFT_OUT))
    return begin + "".join(f"{PROMPT}{command}\n{it}" for command, it in zip(commands, shown))
