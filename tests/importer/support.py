"""What the importer's tests share: the program, builds by the cross tools, and runs on the host."""
from __future__ import annotations

import os
import subprocess
import sys
import tempfile
import unittest
from collections.abc import Sequence
from functools import cached_property
from pathlib import Path

from rubliman.importer import Imported, Settings, import_file
from rubliman.importer.cross import Builder, CrossTools
from rubliman.importer.workbench import Workbench

TOP = Path(__file__).resolve().parents[2]
EXAMPLES = TOP / "examples"
PROGRAMS = Path(__file__).resolve().parent / "programs"


def program() -> str:
    """The program that is asked."""
    return os.environ["SPARC8"]


def workbench(windows: int | None = None) -> Workbench:
    """A workbench of that program."""
    return Workbench(program(), windows)


class InFolder(unittest.TestCase):
    """A test with a folder of its own, that goes with it."""

    def setUp(self) -> None:
        kept = tempfile.TemporaryDirectory(prefix="rubliman-test-")
        self.addCleanup(kept.cleanup)
        self.folder = Path(kept.name)

    @cached_property
    def tools(self) -> CrossTools:
        """The cross tools."""
        return CrossTools.find()

    def write(self, name: str, text: str) -> Path:
        """A file of the folder with this text."""
        file = self.folder / name
        file.write_text(text, encoding="utf-8")
        return file

    def host_output(self, source: Path) -> bytes:
        """What a C program prints where it is built for the host."""
        built = self.folder / "on-host"
        subprocess.run(["gcc", "-w", "-O1", "-o", built, source], check=True)
        return subprocess.run([built], check=True, stdout=subprocess.PIPE).stdout

    def built(
        self, sources: Sequence[Path], flags: Sequence[str] = ("-O2", "-g"), keeps_relocations: bool = True
    ) -> Imported:
        """Sources built and imported."""
        return import_file(sources, Settings(builder=Builder(self.tools, tuple(flags), keeps_relocations)))

    def cross(self, tool: str, *words: str | Path) -> str:
        """What a cross tool prints."""
        return subprocess.run(
            [self.tools.prefix + tool, *words], check=True, stdout=subprocess.PIPE, stderr=subprocess.DEVNULL, text=True
        ).stdout

    def linked(self, source: Path, *words: str, keeps_relocations: bool = True) -> Path:
        """An ELF file of a source by plain commands: what a user has who did not ask the importer."""
        made, linked = source.with_suffix(".o"), source.with_suffix(".elf")
        self.cross("gcc", "-m32", "-mcpu=v8", "-mno-fpu", "-fno-pic", "-ffreestanding", "-g", "-c", source, "-o", made)
        self.cross(
            "ld", "-m", "elf32_sparc", "-static", *(["-q"] if keeps_relocations else []), *words, "-o", linked, made
        )
        return linked

    def check(self, imported: Imported, windows: int | None = None) -> str:
        """Has the program assemble the text, and compares the image."""
        with workbench(windows) as opened:
            imported.enter(opened)
            return imported.check(opened)

    def command(self, *words: str | Path, **more: str) -> subprocess.CompletedProcess[str]:
        """The importer's command line."""
        return subprocess.run(
            [sys.executable, "-B", "-m", "rubliman.importer", *words],
            capture_output=True,
            text=True,
            check=False,
            cwd=self.folder,
            env={**os.environ, "PYTHONPATH": str(TOP / "lib"), **more},
        )
