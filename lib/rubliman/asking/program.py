"""A run of the proved monitor, over pipes."""
from __future__ import annotations

import contextlib
import subprocess
import threading
from collections.abc import Callable, Iterator, Sequence
from pathlib import Path
from select import PIPE_BUF

OK, REFUSED = b"ok\n", b"refused "
# What a pipe takes at once in any case. More is written by a thread of its own, or both pipes might run full.
_AT_ONCE = PIPE_BUF


class Gone(Exception):
    """The monitor has ended."""


class TooLong(Exception):
    """An answer is longer than what was allowed. The monitor is ended, for the rest of it would come."""


class Program:
    """A run of the monitor. Answers are counted: each command has one."""

    def __init__(self, program: Path | str, windows: str) -> None:
        # A session of its own, so that Ctrl-C at the terminal is not the monitor's.
        self.process = subprocess.Popen(
            [program, "--windows", windows], stdin=subprocess.PIPE, stdout=subprocess.PIPE, start_new_session=True
        )

    def exchange(self, commands: Sequence[bytes], most: int | None = None) -> list[list[bytes]]:
        """The answers of commands, each its lines with their ends; the last line is `ok` or a refusal. A command has no
        end of line behind it, an edit its lines within it. Raises `Gone`, and `TooLong` above `most` bytes."""
        with self._sent(b"".join(it + b"\n" for it in commands)):
            try:
                return self._answers(len(commands), most)
            except TooLong:
                self.process.kill()
                raise

    def end(self) -> None:
        """Ends the monitor. It may be asked by another thread at the same time, which finds it gone."""
        self.process.kill()
        self.process.wait()

    def close(self) -> None:
        """Ends the monitor, and lets its pipes go."""
        self.process.kill()
        with self.process, contextlib.suppress(BrokenPipeError, ValueError):
            # It may have gone before it read what was sent.
            self.process.communicate()

    @contextlib.contextmanager
    def _sent(self, data: bytes) -> Iterator[None]:
        """Sends commands, while the answers are read."""
        if len(data) <= _AT_ONCE:
            self._write(data)()
            yield
            return
        writer = threading.Thread(target=self._write(data, is_quiet=True))
        writer.start()
        try:
            yield
        finally:
            writer.join()

    def _write(self, data: bytes, is_quiet: bool = False) -> Callable[[], None]:
        """What sends these bytes. Where it is quiet, the reader of the answers finds the monitor gone."""
        pipe = self.process.stdin
        assert pipe is not None

        def write() -> None:
            try:
                pipe.write(data)
                pipe.flush()
            except (BrokenPipeError, ValueError) as problem:
                if not is_quiet:
                    raise Gone("the monitor has ended") from problem

        return write

    def _answers(self, count: int, most: int | None) -> list[list[bytes]]:
        """The next answers."""
        found: list[list[bytes]] = []
        for _ in range(count):
            found.append(self._answer(most))
            most = None if most is None else most - sum(map(len, found[-1]))
        return found

    def _answer(self, most: int | None) -> list[bytes]:
        """The lines of the next answer."""
        assert self.process.stdout is not None
        lines: list[bytes] = []
        size, read = 0, self.process.stdout.readline
        while True:
            line = read()
            if not line.endswith(b"\n"):
                raise Gone("the monitor has ended")
            lines.append(line)
            size += len(line)
            if line == OK or line.startswith(REFUSED):
                return lines
            if most is not None and size > most:
                raise TooLong
