"""The command line of `./sparc8 --import`."""
from __future__ import annotations

import argparse
import os
import re
import sys
from collections.abc import Sequence
from pathlib import Path
from typing import NoReturn

from rubliman.launcher import places

from .imported import Imported, Settings, import_file
from .limits import MOST_STEPS
from .problem import Problem
from .running import run_program, told
from .text import join
from .workbench import Refusal, Workbench

_PLACE = re.compile(r"(?P<step>[0-9]{1,7})|0[xX](?P<address>[0-9A-Fa-f]{1,8})")


def main(words: Sequence[str]) -> int:
    """Does what the words say. The status is 0, 1 where something cannot be had, or 2 for wrong words."""
    parser = _parser()
    chosen = parser.parse_args(words)
    if not chosen.files:
        parser.error("--import names no file")
    name = Path(chosen.files[0]).name
    try:
        only = frozenset(it for it in chosen.only.split(",") if it)
        settings = Settings(chosen.base, only, tuple(map(Path, chosen.sources)))
        imported = import_file([Path(it) for it in chosen.files], settings)
        for note in imported.notes:
            _say(name, note)
        _write(chosen, imported)
        if chosen.check or chosen.run or any(it.group("step") for it in chosen.addr2line):
            with Workbench(chosen.program, chosen.windows) as workbench:
                _ask(chosen, imported, workbench)
        else:
            _tell_places(chosen, imported, None)
    except Problem as problem:
        _say(name, str(problem))
        return 1
    except (BrokenPipeError, KeyboardInterrupt):
        return 1
    return 0


def _say(name: str, text: str) -> None:
    sys.stdout.flush()
    print(f"{name}: {text}", file=sys.stderr)


def _write(chosen: argparse.Namespace, imported: Imported) -> None:
    """Writes the text, or the script, where it is wanted."""
    if chosen.output is None and (chosen.check or chosen.run or chosen.addr2line):
        return
    commands = None if chosen.script is None else [it.strip() for it in chosen.script.split(";") if it.strip()]
    text = join(imported.text.texts() if commands is None else imported.script(commands))
    if chosen.output is None:
        sys.stdout.write(text)
        sys.stdout.flush()
        return
    try:
        Path(chosen.output).write_text(text, encoding="latin-1")
    except OSError as problem:
        raise Problem(f"{chosen.output} cannot be written ({problem.strerror}): name another file by -o") from problem


def _ask(chosen: argparse.Namespace, imported: Imported, workbench: Workbench) -> None:
    """What is asked of the proved program."""
    imported.enter(workbench)
    try:
        if chosen.check:
            _say(imported.name, imported.check(workbench))
        if chosen.run:
            ending = run_program(workbench, imported, chosen.steps)
            sys.stdout.buffer.write(ending.output)
            sys.stdout.flush()
            _say(imported.name, told(ending, imported))
        _tell_places(chosen, imported, workbench)
    except Refusal as refusal:
        raise Problem(f"the workbench refuses by {refusal.number} {refusal.name}: ask for less") from refusal


def _tell_places(chosen: argparse.Namespace, imported: Imported, workbench: Workbench | None) -> None:
    """Tells of each step, or address, where it is in the origin."""
    for it in chosen.addr2line:
        if it.group("step") and workbench is not None:
            state = workbench.state(int(it.group("step")))
            print(f"step {state.step}: {imported.place(state.pc)}")
        else:
            print(imported.place(int(it.group("address"), 16)))


def _place(word: str) -> re.Match[str]:
    """A step (decimal) or an address (0x and hexadecimal)."""
    found = _PLACE.fullmatch(word)
    if found is None or found.group("step") and int(word) > MOST_STEPS:
        raise argparse.ArgumentTypeError(f"{word} is neither a step (0 to {MOST_STEPS}) nor an address (0x..)")
    return found


def _whole(word: str) -> int:
    """A number, decimal or hexadecimal behind 0x."""
    try:
        value = int(word, 0)
    except ValueError as problem:
        raise argparse.ArgumentTypeError(f"{word} is no number: write 16384 or 0x4000") from problem
    if value < 0:
        raise argparse.ArgumentTypeError(f"{word} is below 0")
    return value


def _steps(word: str) -> int:
    steps = _whole(word)
    if steps > MOST_STEPS:
        raise argparse.ArgumentTypeError(f"{word} is above {MOST_STEPS}, the last step that there is")
    return steps


class _Parser(argparse.ArgumentParser):
    """Tells wrong words in one line."""

    def error(self, message: str) -> NoReturn:
        self.exit(2, f"{self.prog}: {message}: see ./sparc8 --import --help\n")


def _parser() -> argparse.ArgumentParser:
    about = "Imports a real program as a source text for the workbench."
    words = _Parser(prog="sparc8", description=about, allow_abbrev=False)
    _add_importing(words)
    _add_asking(words)
    words.set_defaults(program=os.environ.get("SPARC8") or str(places.command()))
    return words


def _add_importing(words: argparse.ArgumentParser) -> None:
    """Adds what says what is imported, and how it is written."""
    words.add_argument(
        "--import",
        dest="files",
        nargs="*",
        default=[],
        metavar="FILE",
        help="a linked 32-bit SPARC ELF file, a raw image, "
        "or sources (.c, .S, .s), which are built by cross tools (CROSS= chooses them, CFLAGS= the flags)",
    )
    words.add_argument(
        "-o",
        dest="output",
        metavar="OUT",
        help="write the text here; without it, and with nothing to ask, it is printed",
    )
    words.add_argument(
        "--script",
        metavar="COMMANDS",
        help="write a script that enters the text and gives these commands, separated by `;`",
    )
    words.add_argument("--base", type=_whole, default=0, metavar="ADDRESS", help="where a raw image lies (0)")
    words.add_argument(
        "--only", default="", metavar="NAMES", help="write these functions as instructions, and other code as data"
    )
    words.add_argument(
        "--sources", action="append", default=[], metavar="FOLDER", help="look for the files of origin here first"
    )


def _add_asking(words: argparse.ArgumentParser) -> None:
    """Adds what is asked of an import."""
    words.add_argument(
        "--check",
        action="store_true",
        help="have the program assemble the text, and compare the whole image with the file",
    )
    words.add_argument("--run", action="store_true", help="run it, and print what it puts out at the console")
    words.add_argument(
        "--steps", type=_steps, default=MOST_STEPS, metavar="N", help=f"the most steps of --run ({MOST_STEPS})"
    )
    words.add_argument(
        "--windows", type=int, choices=(2, 4, 8, 16, 32), metavar="N", help="register windows: 2, 4, 8, 16 or 32 (8)"
    )
    words.add_argument(
        "--addr2line",
        nargs="+",
        type=_place,
        default=[],
        metavar="STEP",
        help="tell where the program is at a step, or what lies at an address (0x..)",
    )
