"""What the tests of the launcher share: a small repository with the launcher in it, and a fake of the toolchain."""
from __future__ import annotations

import os
import shutil
import signal
import subprocess
import tempfile
import time
import unittest
from collections.abc import Iterator
from contextlib import contextmanager
from pathlib import Path

from rubliman.launcher.sources import PROGRAMS

TOP = Path(__file__).resolve().parents[2]
CRATES = {"low": "", "side": "", "high": "low", "sparc8": "high side", "sparc8_monitor": "high", "other": "low"}
PAGE = """| Crate | Proof | Tests |
| `low` | 4.0 | 1.0 |
| `side` | 2.0 | 0.0 |
| `high` | 6.0 | 0.0 |
| `sparc8` | 1.0 | 0.0 |
| `sparc8_monitor` | 1.0 | 0.0 |
"""
# The built program of the fake toolchain: it tells its words and its input.
PROGRAM = '#!/bin/sh\ncase "$1" in --help) echo "the help";; *) echo "words $*"; cat;; esac\n'
FAKE = """#!/bin/sh
echo "$*: $PWD" >>{log}
case "$1:$2" in
  version:*) echo "{identity}"; exit 0;;
  ci:?*) {ahead}; exit;;
esac
{does}
"""
# What `rt ci` does where all goes well.
PROVES = """for it in low side high sparc8 sparc8_monitor; do
  echo "== $it"
  echo "logic=proved functions=3 sum=1"
  echo "rt: $it proved"
  echo "== $it: its tests"
  echo "logic=proved functions=4 sum=1"
  echo "rt: $it: its tests are proved"
done
for it in sparc8 sparc8_monitor; do
  mkdir -p crates/$it/out
  cp {program} crates/$it/out/$it
  chmod 755 crates/$it/out/$it
done
echo "rt: ok"
"""
# What `rt run` does in the folder of a program.
BUILDS = "mkdir -p out; cp {program} out/$(basename $PWD)"


class InRepository(unittest.TestCase):
    """A test in a repository of four crates, with no toolchain at first."""

    def setUp(self) -> None:
        kept = tempfile.TemporaryDirectory(prefix="rubliman-launcher-")
        self.addCleanup(kept.cleanup)
        self.room = Path(kept.name)
        self.top, self.bin, self.temporary, self.cache = (self.room / it for it in ("top", "kit/bin", "tmp", "cache"))
        for it in (self.top, self.bin, self.temporary):
            it.mkdir(parents=True)
        self.log = self.room / "log"
        self.log.touch()
        for it in PROGRAMS:
            shutil.copy(TOP / it, self.top)
        shutil.copytree(TOP / "lib", self.top / "lib", ignore=shutil.ignore_patterns("__pycache__"))
        (self.top / "docs").mkdir()
        (self.top / "docs/PROVING.md").write_text(PAGE, encoding="utf-8")
        (self.top / "crates.txt").write_text(
            "".join(f"{name}: {uses}\n" for name, uses in CRATES.items()), encoding="utf-8"
        )
        for name in CRATES:
            (self.top / "crates" / name / "src").mkdir(parents=True)
            (self.top / "crates" / name / "src/lib.rt").write_text(f"// {name}\n" * 10, encoding="utf-8")
        (self.room / "program").write_text(PROGRAM, encoding="utf-8")

    def fake(self, does: str, identity: str = "kit-1", ahead: str = "true") -> None:
        """Puts an `rt` on the PATH that notes each call and does this, and `ahead` where it is asked for one crate."""
        does = does.replace("{program}", str(self.room / "program"))
        text = FAKE.format(log=self.log, identity=identity, does=does, ahead=ahead)
        made = self.room / "rt.new"
        made.write_text(text, encoding="utf-8")
        made.chmod(0o755)
        made.rename(self.bin / "rt")

    def environment(self) -> dict[str, str]:
        """The environment of a run: no toolchain but the fake, and folders of the test's own."""
        return {
            "PATH": f"{self.bin}:/usr/bin:/bin",
            "HOME": str(self.room),
            "RUBLIMAN_CACHE": str(self.cache),
            "TMPDIR": str(self.temporary),
            "LANG": "C.UTF-8",
        }

    def sparc8(
        self, *words: str | bytes, given: str = "", command: Path | None = None
    ) -> subprocess.CompletedProcess[str]:
        """A run of the launcher."""
        return subprocess.run(
            [command or self.top / "sparc8", *words],
            cwd=self.room,
            env=self.environment(),
            input=given,
            capture_output=True,
            text=True,
            check=False,
            timeout=250,
        )

    def calls(self) -> list[str]:
        """What the fake was called with, but for the question of its version, and for single crates ahead of all."""
        return [it for it in self.all_calls() if not it.startswith("ci ")]

    def all_calls(self) -> list[str]:
        """What the fake was called with, but for the question of its version."""
        return [
            it.partition(":")[0]
            for it in self.log.read_text(encoding="utf-8").splitlines()
            if not it.startswith("version")
        ]

    def assert_nothing_left(self) -> None:
        """No temporary file, no copy and no process of the test's is left."""
        self.assertEqual(list(self.temporary.iterdir()), [])
        self.assertEqual(
            [it.name for it in self.cache.glob("work-*")] + [it.name for it in self.cache.glob("**/new-*")], []
        )
        self.assertEqual(left_in(self.room), [])

    @contextmanager
    def begun(self, *words: str) -> Iterator[subprocess.Popen[str]]:
        """A run of the launcher that goes on while the test does something."""
        with subprocess.Popen(
            [self.top / "sparc8", *words],
            cwd=self.room,
            env=self.environment(),
            stdin=subprocess.DEVNULL,
            stdout=subprocess.PIPE,
            stderr=subprocess.PIPE,
            text=True,
            start_new_session=True,
        ) as process:
            try:
                yield process
            finally:
                process.kill()

    def wait_for(self, file: Path) -> None:
        """Waits until a file is there."""
        until = time.monotonic() + 120
        while not file.exists():
            self.assertLess(time.monotonic(), until, f"{file} does not come")
            time.sleep(0.02)


def interrupt(process: subprocess.Popen[str], number: signal.Signals) -> tuple[int, str]:
    """Sends a signal as a terminal does, and gives the status and what was said."""
    os.killpg(process.pid, number)
    _, said = process.communicate(timeout=120)
    return process.returncode, said


def left_in(folder: Path) -> list[str]:
    """The processes that work in a folder, by their words. One that was killed has some seconds to go."""
    until = time.monotonic() + 5
    while (found := _processes_in(folder)) and time.monotonic() < until:
        time.sleep(0.02)
    return found


def _processes_in(folder: Path) -> list[str]:
    """The processes that work in a folder now."""
    found = []
    for it in Path("/proc").glob("[0-9]*"):
        try:
            if Path(os.readlink(it / "cwd")).is_relative_to(folder):
                found.append((it / "cmdline").read_bytes().replace(b"\0", b" ").decode(errors="replace"))
        except OSError:
            pass
    return found
