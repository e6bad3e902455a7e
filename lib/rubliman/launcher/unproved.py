"""Runs a script with no proof, by `rt try`.

The toolchain compiles the program anew each time, tells what it printed when it has ended, and gives up above 1 MiB
of it. It is given a copy with less to compile: the code alone, for the one number of windows that is asked for.
"""
from __future__ import annotations

import os
import re
import sys
import tempfile
import time
from pathlib import Path

from . import places, running, times, toolchain
from .problem import Problem, say
from .sources import WORKBENCH, Sources, read_sources
from .words import Settings

# What a first run took on four processors with other work on them.
ESTIMATE_SECONDS = 80.0
MOST_SECONDS = 3600
# Where the program is compiled for each number of windows but 8, which it has in any case.
_COUNTS_PLACE, _COUNTS = "crates/sv8_shell/src/program.rt", b"[2 4 16 32]"
_ENDED = re.compile(rb"(?:\A|\n)run=ended status=(\d+)[^\n]*\n\Z")
# What the toolchain says of its own, beside what the program prints on standard error.
_OWN = re.compile(rb"(?m)^(?:checked|interpreter): [^\n]*\n")
_NO_ANSWER = re.compile(rb"(?m)^checked: no-answer: ([^\n]*)\n")


def run(settings: Settings) -> int:
    """Runs the script that the settings name, or standard input. Gives the program's status."""
    rt = toolchain.wanted("--unproved compiles the program by it")
    seconds = times.measured().get("unproved", ESTIMATE_SECONDS)
    say(
        f"running without any proof: nothing that this prints was proved; it takes about {seconds:.0f} seconds, "
        f"all of it is printed at the end, and more than 1 MiB is not"
    )
    begun = time.monotonic()
    with running.interruptible(), tempfile.TemporaryDirectory(prefix="sparc8-") as room:
        status = _ran(rt, settings, Path(room))
    times.note("unproved", time.monotonic() - begun)
    return status


def write_copy(sources: Sources, windows: str, to: Path) -> None:
    """Writes what is compiled for a run with so many windows."""
    for path, content in sources.files.items():
        if path.split("/")[2] == "src":
            if path == _COUNTS_PLACE and content.count(_COUNTS) == 1:
                content = content.replace(_COUNTS, b"[]" if windows == "8" else f"[{windows}]".encode())
            (to / path).parent.mkdir(parents=True, exist_ok=True)
            (to / path).write_bytes(content)
    (to / "crates.txt").write_text("\n".join(it.line for it in sources.crates) + "\n", encoding="utf-8")
    (to / ".git").mkdir()


def _ran(rt: str, settings: Settings, room: Path) -> int:
    """Runs the toolchain's command on a copy. The script comes as its input, since it may lie anywhere."""
    copy = room / "copy"
    write_copy(read_sources(places.TOP, [WORKBENCH]), settings.windows, copy)
    words = [rt, "try", "--steps", "1", "--seconds", str(MOST_SECONDS), "--", "--windows", settings.windows]
    script: int | None = None
    try:
        script = None if settings.script is None else os.open(settings.script, os.O_RDONLY)
        with (room / "said").open("w+b") as said:
            sys.stdout.flush()
            with running.begun(
                words,
                cwd=copy / "crates" / "sparc8",
                env={**toolchain.environment(), "TMPDIR": str(room)},
                stdin=script,
                stderr=said,
            ) as process:
                status = process.wait()
            said.seek(0)
            return _told(status, said.read())
    finally:
        if script is not None:
            os.close(script)


def _told(status: int, said: bytes) -> int:
    """Hands on what the program printed on standard error, and gives its status."""
    ended, no_answer = _ENDED.search(said), _NO_ANSWER.search(said)
    if no_answer:
        raise Problem(f"nothing is printed without proof, for {no_answer[1].decode(errors='replace')}")
    if ended is None or int(ended[1]) != status:
        raise Problem(
            "\n".join(
                [
                    "the program could not be run without proof; the toolchain said:",
                    said.decode(errors="replace").rstrip(),
                ]
            )
        )
    sys.stderr.buffer.write(_OWN.sub(b"", said[: ended.start()] + b"\n" if ended.start() else b""))
    sys.stderr.flush()
    return status
