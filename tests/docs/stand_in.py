"""stand_in.py NAME [WORD ..]: what a document's shell finds in the place of a command of the repository.

`./sparc8` and `./sparc8_monitor` are answered by the programs that SPARC8 and SPARC8_MONITOR name: nothing is proved.
A command that cannot run in a test (a proof, the page, GDB, the gate) has its words checked, and prints nothing.
"""
from __future__ import annotations

import os
import re
import subprocess
import sys
from collections.abc import Sequence
from pathlib import Path

TOP = Path(__file__).resolve().parents[2]
OPTION = re.compile(r"(?<![\w-])--[a-z][a-z0-9-]*")
# What the command of the toolchain can do.
TOOLCHAIN = frozenset(
    "all check ci doc expand fmt lemma lib must-fail names new plant run seed".split()
    + "selftest test tidy try verdict version".split()
)
# Words of `./sparc8` that may name a file, and those that do not.
WITH_FILES = frozenset(("--gdb", "--gdb-stub", "--page"))
WITHOUT_FILES = frozenset(("--install", "--check", "--program"))


class Wrong(Exception):
    """The words are not those of the command."""


def help_text() -> str:
    """What `./sparc8 --help` prints."""
    words = [TOP / "sparc8", "--help"]
    return subprocess.run(words, stdout=subprocess.PIPE, text=True, check=True).stdout


def check_options(words: Sequence[str], text: str, where: str) -> None:
    """Each option has to stand in a text."""
    known = set(OPTION.findall(text))
    for word in words:
        for option in OPTION.findall(word):
            if option not in known:
                raise Wrong(f"{option} is no option that {where}")


def check_files(words: Sequence[str]) -> None:
    """Each word that is no option, nor the number of windows, has to name a file."""
    for before, word in zip(["", *words], words):
        if not word.startswith("-") and before != "--windows" and not Path(word).exists():
            raise Wrong(f"there is no file {word}")


def workbench(words: list[str]) -> None:
    """Does what `./sparc8` does with these words, as far as that needs no proof."""
    first = words[0] if words else ""
    if "--import" in words or first in ("--help", "-h"):
        become(TOP / "sparc8", words)
    if first == "--unproved":
        become(Path(os.environ["SPARC8"]), words[1:])
    if first not in WITH_FILES | WITHOUT_FILES:
        become(Path(os.environ["SPARC8"]), words)
    own = words[1 : words.index("--")] if "--" in words else words[1:]
    check_options([first, *own], help_text(), "./sparc8 --help prints")
    if first in WITH_FILES:
        check_files(own)


def become(program: Path, words: Sequence[str]) -> None:
    """Has a program take over."""
    os.execv(program, [str(program), *words])


def toolchain(words: Sequence[str]) -> None:
    """Checks the words of `rt`."""
    if not words or words[0] not in TOOLCHAIN:
        raise Wrong(f"rt has no command {' '.join(words[:1])}")


def script(name: str, words: Sequence[str]) -> None:
    """Checks the words of a script of the repository: its options stand in its text."""
    check_options(words, (TOP / name).read_text(encoding="utf-8"), f"{name} has")


def main(name: str, words: list[str]) -> int:
    """Stands in for the command of that name."""
    try:
        if name == "sparc8":
            workbench(words)
        elif name == "sparc8_monitor":
            become(Path(os.environ["SPARC8_MONITOR"]), words)
        elif name == "rt":
            toolchain(words)
        elif (TOP / name).is_file():
            script(name, words)
    except Wrong as problem:
        print(f"{name}: {problem}", file=sys.stderr)
        return 2
    return 0


if __name__ == "__main__":
    sys.exit(main(sys.argv[1], sys.argv[2:]))
