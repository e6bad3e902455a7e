"""Builds sources by the user's cross tools."""
from __future__ import annotations

import os
import re
import shlex
import shutil
import subprocess
from collections.abc import Mapping, Sequence
from dataclasses import dataclass
from pathlib import Path

from elftools.elf.elffile import ELFFile

from .problem import Problem

RUNTIME = Path(__file__).resolve().parent.parent / "runtime"
SOURCES = (".c", ".S", ".s")
PREFIXES = (
    "sparc64-linux-gnu-",
    "sparc-linux-gnu-",
    "sparc-elf-",
    "sparc-none-elf-",
    "sparc-unknown-elf-",
    "sparc-gaisler-elf-",
    "sparc-leon-elf-",
    "sparc-rtems6-",
    "sparc-rtems5-",
    "sparc-buildroot-linux-uclibc-",
    "sparc-unknown-linux-gnu-",
)

_PLAIN_FLAGS = "-O2 -g"
_MACHINE = ["-m32", "-mcpu=v8", "-mno-fpu"]
_FIXED = ["-fno-pic", "-fno-pie"]
"""These stand behind the user's flags: addresses of a program that is linked once have to stand in its code."""
_ALONE = [
    "-ffreestanding",
    "-fno-stack-protector",
    "-fno-asynchronous-unwind-tables",
    "-nostdinc",
    "-isystem",
    str(RUNTIME / "include"),
]
_SUPPORT_FLAGS = ["-ffunction-sections", "-fno-tree-loop-distribute-patterns"]
_FLOATING = re.compile(r"undefined reference to `(__\w+[sdt]f[23]?|__(fix|float)\w+|_Q_\w+)'")
_SCRIPT, _START, _SUPPORT = RUNTIME / "sparc8.ld", RUNTIME / "crt0.S", RUNTIME / "support.c"


@dataclass(frozen=True)
class CrossTools:
    """Programs with a common prefix, which may have a path before it."""

    prefix: str

    @staticmethod
    def find(environment: Mapping[str, str] = os.environ) -> CrossTools:
        """The tools that CROSS= chooses, or the first of the usual ones that are there."""
        chosen = environment.get("CROSS")
        for prefix in [chosen] if chosen else PREFIXES:
            if all(shutil.which(prefix + it, path=environment.get("PATH")) for it in ("gcc", "ld")):
                return CrossTools(prefix)
        if chosen:
            raise Problem(
                f"CROSS={chosen} names no cross tools ({chosen}gcc and {chosen}ld are wanted): give the part before gcc"
            )
        raise Problem(
            "no cross tools for SPARC are found: install gcc-sparc64-linux-gnu, or name others by CROSS=, "
            "the part before gcc"
        )

    def run(self, tool: str, words: Sequence[str | Path], failing: str) -> str:
        """Runs a tool. Where it fails, that is told with its first complaint."""
        done = subprocess.run(
            [self.prefix + tool, *words],
            capture_output=True,
            text=True,
            errors="replace",
            check=False,
            env={**os.environ, "LC_ALL": "C"},
        )
        if done.returncode:
            raise Problem(f"{failing}: {_complaint(done.stderr)}")
        return done.stdout

    def asked(self, question: str) -> str:
        """What the compiler answers of itself, for 32-bit code."""
        return self.run("gcc", ["-m32", question], "the compiler does not answer").strip()

    def headers(self) -> str:
        """The folder of the headers that come with the compiler."""
        return self.asked("-print-file-name=include")

    def library(self) -> list[str]:
        """GCC's own library for 32-bit code, where there is one."""
        folder, file = self.asked("-print-multi-directory"), Path(self.asked("-print-libgcc-file-name"))
        return [str(file)] if file.is_file() and (folder == "." or file.parent.name == folder) else []


@dataclass(frozen=True)
class Builder:
    """How sources are built: with which tools, with which flags of the compiler, and whether relocations are kept."""

    tools: CrossTools
    flags: tuple[str, ...] | None = None
    """What CFLAGS= says where it is None."""
    keeps_relocations: bool = True

    def build(self, sources: Sequence[Path], folder: Path) -> Path:
        """Compiles and links the sources in a folder. A `main` without `_start` gets the runtime's start."""
        for it in sources:
            if not it.is_file():
                raise Problem(f"{it} is not there: name a file")
        objects = [self._compile(it, folder / f"{number}.o") for number, it in enumerate(sources)]
        defined = set().union(*map(_defined, objects))
        if "main" in defined and "_start" not in defined:
            objects.insert(0, self._compile(_START, folder / "start.o"))
            objects.append(self._compile(_SUPPORT, folder / "support.o", _SUPPORT_FLAGS))
            defined.add("_start")
        return self._link(objects, "_start" if "_start" in defined else "0", folder / "linked", sources[0].name)

    def _compile(self, source: Path, to: Path, more: Sequence[str] = ()) -> Path:
        flags = self.flags if self.flags is not None else tuple(shlex.split(os.environ.get("CFLAGS", _PLAIN_FLAGS)))
        words = [*_MACHINE, *_ALONE, "-isystem", self.tools.headers(), *flags, *more, *_FIXED]
        self.tools.run("gcc", [*words, "-c", source.resolve(), "-o", to], f"{source.name} is refused by the compiler")
        return to

    def _link(self, objects: Sequence[Path], entry: str, to: Path, name: str) -> Path:
        flags = ["-m", "elf32_sparc", "-static", "--gc-sections", *(["-q"] if self.keeps_relocations else [])]
        words = [*flags, "-T", _SCRIPT, "-e", entry, "-o", to, *objects, *self.tools.library()]
        self.tools.run("ld", words, f"{name} cannot be linked")
        return to


def _defined(file: Path) -> set[str]:
    """The global names that an object file defines."""
    with file.open("rb") as data:
        table = ELFFile(data).get_section_by_name(".symtab")
        return {
            it.name
            for it in table.iter_symbols()
            if it["st_info"]["bind"] == "STB_GLOBAL" and it["st_shndx"] != "SHN_UNDEF"
        }


def _complaint(errors: str) -> str:
    """The line of a tool's errors that says most."""
    lines = [it.strip() for it in errors.splitlines() if it.strip()]
    wanted = ("undefined reference", "overflowed", "will not fit", "error:", "Error:")
    said = next((it for word in wanted for it in lines if word in it), lines[0] if lines else "it fails without a word")
    if not _FLOATING.search(said):
        return said
    return f"{said} (floating point in C needs GCC's own library for 32 bits, which these tools lack)"
