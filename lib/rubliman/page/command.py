"""`./sparc8 --page [--windows N] [--no-open] [FILE]`: serves the page until it is interrupted."""
from __future__ import annotations

import os
import signal
import sys
import threading
import webbrowser
from pathlib import Path
from types import FrameType

from .server import Given, Server

NO_OPEN = "--no-open"
# The longest script that the program reads.
MOST_BYTES = 1 << 28


class _Ended(Exception):
    """A signal asks to end."""


def run(program: Path | str, windows: str, file: str | None, opens: bool) -> int:
    """Serves the page, tells its address, and gives the status. Nothing is left behind. Raises `OSError`."""
    before = {it: signal.signal(it, _end) for it in (signal.SIGINT, signal.SIGTERM, signal.SIGHUP)}
    try:
        with Server(program, _given(windows, file)) as server:
            threading.Thread(target=server.serve_forever, kwargs={"poll_interval": 3600}, daemon=True).start()
            print(f"{server.address()}\nCtrl-C ends it", flush=True)
            if opens and has_browser():
                threading.Thread(target=webbrowser.open, args=[server.address()], daemon=True).start()
            threading.Event().wait()
    except _Ended as ended:
        number = ended.args[0]
        return 0 if number == signal.SIGINT else 128 + int(number)
    finally:
        for number, handler in before.items():
            signal.signal(number, handler)
    return 0


def has_browser() -> bool:
    """Whether there is a browser that shows pages, and not text alone in this terminal."""
    return any(os.environ.get(it) for it in ("BROWSER", "DISPLAY", "WAYLAND_DISPLAY"))


def _end(number: int, _: FrameType | None) -> None:
    """Ends the server. The end goes its way undisturbed."""
    for it in (signal.SIGINT, signal.SIGTERM, signal.SIGHUP):
        signal.signal(it, signal.SIG_IGN)
    raise _Ended(signal.Signals(number))


def _given(windows: str, file: str | None) -> Given:
    """What the page opens with."""
    if file is None:
        return Given(windows, None, "")
    content = Path(file).read_bytes()
    if len(content) > MOST_BYTES:
        raise OSError(f"{file} is too long")
    return Given(windows, Path(file).name, content.decode("utf-8", "replace"))


def main() -> int:
    """The page as a program of its own, over the program that a word names."""
    import argparse

    words = argparse.ArgumentParser(prog="rubliman.page")
    words.add_argument("--program", required=True)
    words.add_argument("--windows", default="8")
    words.add_argument(NO_OPEN, action="store_true")
    words.add_argument("file", nargs="?")
    chosen = words.parse_args()
    try:
        return run(chosen.program, chosen.windows, chosen.file, not chosen.no_open)
    except OSError as problem:
        sys.stderr.write(f"{problem}\n")
        return 1
