"""Runs a command of the toolchain, reads what it says as it says it, and leaves no process behind."""
from __future__ import annotations

import contextlib
import os
import selectors
import signal
import subprocess
from collections.abc import Callable, Iterator, Sequence
from pathlib import Path
from types import FrameType
from typing import Any

from .problem import Interrupted

PATIENCE_SECONDS = 10

# The signals that came while they were held back, where they are.
_held_back: list[int] | None = None


@contextlib.contextmanager
def interruptible() -> Iterator[None]:
    """Has Ctrl-C, a hangup and a polite kill raise `Interrupted`, so that what was begun is ended and removed."""

    def stop(number: int, _: FrameType | None) -> None:
        # The end goes its way undisturbed.
        for it in before:
            signal.signal(it, signal.SIG_IGN)
        if _held_back is None:
            raise Interrupted(number)
        _held_back.append(number)

    numbers = (signal.SIGINT, signal.SIGTERM, signal.SIGHUP)
    before = {it: signal.getsignal(it) for it in numbers if signal.getsignal(it) is not signal.SIG_IGN}
    for it in before:
        signal.signal(it, stop)
    try:
        yield
    finally:
        for it, handler in before.items():
            signal.signal(it, handler)


@contextlib.contextmanager
def undisturbed() -> Iterator[None]:
    """Has `Interrupted` wait until a process that is begun here is known, so that it can be ended."""
    global _held_back
    _held_back = []
    try:
        yield
    finally:
        numbers, _held_back = _held_back, None
        if numbers:
            raise Interrupted(numbers[0])


@contextlib.contextmanager
def begun(words: Sequence[str], **how: Any) -> Iterator[subprocess.Popen[bytes]]:
    """A process with a session of its own, which is ended where something is raised meanwhile."""
    process = None
    try:
        with undisturbed():
            process = subprocess.Popen(words, start_new_session=True, **how)
        yield process
    except BaseException:
        if process:
            end(process)
        raise


def run(
    words: Sequence[str],
    folder: Path,
    environment: dict[str, str],
    tell: Callable[[str], None],
    tick: Callable[[], None],
) -> int:
    """Runs a command with no input, hands each line of it to `tell`, and calls `tick` each second. Gives its status."""
    said = {"stdout": subprocess.PIPE, "stderr": subprocess.STDOUT}
    with begun(words, cwd=folder, env=environment, stdin=subprocess.DEVNULL, **said) as process:
        assert process.stdout is not None
        with process.stdout:
            for line in _lines(process, tick):
                tell(line)
        return process.wait()


def _lines(process: subprocess.Popen[bytes], tick: Callable[[], None]) -> Iterator[str]:
    """The lines that a process says, as they come."""
    assert process.stdout is not None
    rest = b""
    with selectors.DefaultSelector() as selector:
        selector.register(process.stdout, selectors.EVENT_READ)
        while True:
            if selector.select(timeout=1):
                found = os.read(process.stdout.fileno(), 1 << 16)
                if not found:
                    break
                *lines, rest = (rest + found).split(b"\n")
                yield from (it.decode(errors="replace") for it in lines)
            tick()
    if rest:
        yield rest.decode(errors="replace")


def end(process: subprocess.Popen[bytes]) -> None:
    """Ends a process and its group. The toolchain's own commands end when it does."""
    for number in (signal.SIGTERM, signal.SIGKILL):
        with contextlib.suppress(ProcessLookupError):
            os.killpg(process.pid, number)
        with contextlib.suppress(subprocess.TimeoutExpired):
            process.wait(timeout=PATIENCE_SECONDS)
            break
    with contextlib.suppress(ProcessLookupError):
        os.killpg(process.pid, signal.SIGKILL)
