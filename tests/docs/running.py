"""Runs the blocks of a document, and compares what they print with what stands there.

Each difference is a subtest that names the document and the line.
"""
from __future__ import annotations

import difflib
import os
import re
import shlex
import shutil
import subprocess
import sys
import tempfile
import unittest
from collections.abc import Iterable, Iterator, Sequence
from contextlib import contextmanager
from pathlib import Path

from docs.blocks import TOP, Block, Example, Exchange, Kind, examples, exchanges, pattern
from rubliman.asking.script import lines_behind

STAND_IN = Path(__file__).with_name("stand_in.py")
# Folders whose programs are only looked at: they prove, install or measure.
WATCHED = (".ci", "bench", "tests", "tools")
# Commands of the system that are only looked at.
SYSTEM = ("apt-get", "git", "rt", "sudo")
WORKBENCH = frozenset("edit poke unpoke pokeb unpokeb input uninput irq unirq list regs mem out quit".split())
OK, REFUSED = "ok", "refused "
SECONDS = 280


def asked(program: str, script: Sequence[str]) -> list[str]:
    """The lines that a program answers to a script; `program` is the word of the environment that names it."""
    data = "".join(f"{it}\n" for it in script).encode()
    done = subprocess.run([os.environ[program]], input=data, stdout=subprocess.PIPE, timeout=SECONDS, check=True)
    return done.stdout.decode().splitlines()


def answers(lines: Iterable[str]) -> list[list[str]]:
    """The answers of a program, one by one, without the `ok` that ends them."""
    found: list[list[str]] = [[]]
    for line in lines:
        if line != OK:
            found[-1].append(line)
        if line == OK or line.startswith(REFUSED):
            found.append([])
    return found


def differences(due: Sequence[str], printed: Sequence[str]) -> str:
    """Two texts side by side: `-` are lines of the document, `+` lines that are printed."""
    return "\n".join(["- stands there, + is printed:", *difflib.ndiff(due, printed)])


@contextmanager
def place(test: unittest.TestCase, name: str, line: int, **more: str) -> Iterator[None]:
    """A subtest of a place in a document. What fails in it begins with the place."""
    with test.subTest(document=name, line=line, **more):
        try:
            yield
        except AssertionError as problem:
            raise test.failureException(f"{name}:{line}: {problem}") from None


def programs_of(script: Sequence[Exchange]) -> list[str]:
    """The programs that a session is a session of: the monitor, and the workbench where it has all the commands."""
    words = [it.said[0].split() for it in script]
    is_small = all(it and it[0] in WORKBENCH and not (it[0] == "list" and it[1:]) for it in words)
    return ["SPARC8_MONITOR", "SPARC8"] if is_small else ["SPARC8_MONITOR"]


def check_session(test: unittest.TestCase, blocks: Sequence[Block]) -> None:
    """All session blocks of a document are one session, in their order."""
    script = list(exchanges(blocks))
    for it in script:
        with place(test, it.name, it.line, command=it.said[0]):
            if not it.is_whole:
                test.fail(f"{it.said[0]} wants {lines_behind(it.said[0])} source lines, and has {len(it.said) - 1}")
    for program in programs_of(script):
        found = answers(asked(program, [*(line for it in script for line in it.said), "quit"]))
        # The last one is what follows the last answer.
        if len(found) <= len(script):
            count = f"{len(script)} commands, {len(found) - 1} answers"
            test.fail(f"{blocks[0].name}: {count}: is there a `quit`, or a blank line outside an edit?")
        for it, printed in zip(script, found):
            with place(test, it.name, it.line, command=it.said[0], program=program):
                if printed != it.due:
                    test.fail(f"{it.said[0]}, by {program}:\n{differences(it.due, printed)}")


@contextmanager
def top() -> Iterator[Path]:
    """A folder that looks like the top of the repository: what is written goes with it, and commands are stand-ins."""
    with tempfile.TemporaryDirectory(prefix="docs-test-") as name:
        folder = Path(name)
        for it in TOP.iterdir():
            if it.name == "examples":
                shutil.copytree(it, folder / it.name)
            elif it.name in WATCHED:
                _watch(it, folder / it.name)
            elif it.name not in (".git", "sparc8", "sparc8_monitor"):
                (folder / it.name).symlink_to(it)
        for word in ("sparc8", "sparc8_monitor"):
            _stand_in(folder / word, word)
        (folder / ".path").mkdir()
        for word in SYSTEM:
            _stand_in(folder / ".path" / word, word)
        yield folder


def _watch(folder: Path, to: Path) -> None:
    """A folder with stand-ins for the programs in it."""
    to.mkdir()
    for it in folder.iterdir():
        if it.is_file() and os.access(it, os.X_OK):
            _stand_in(to / it.name, str(it.relative_to(TOP)))
        else:
            (to / it.name).symlink_to(it)


def _stand_in(file: Path, name: str) -> None:
    """Writes a stand-in for a command."""
    line = shlex.join([sys.executable, "-B", str(STAND_IN), name])
    file.write_text(f'#!/bin/sh\nexec {line} "$@"\n', encoding="utf-8")
    file.chmod(0o755)


def _shell(script: str, folder: Path) -> subprocess.CompletedProcess[str]:
    """What the shell prints in a folder, errors among it."""
    kept = {name: value for name, value in os.environ.items() if name not in ("CROSS", "CFLAGS")}
    return subprocess.run(
        ["bash", "-c", script],
        stdin=subprocess.DEVNULL,
        stdout=subprocess.PIPE,
        stderr=subprocess.STDOUT,
        text=True,
        errors="replace",
        cwd=folder,
        env={**kept, "PATH": f"{folder}/.path:{kept['PATH']}"},
        timeout=SECONDS,
        check=False,
    )


def check_shell(test: unittest.TestCase, blocks: Sequence[Block]) -> None:
    """All blocks of shell commands of a document run in one folder, in their order."""
    found = list(examples(blocks))
    script = [line for number, it in enumerate(found) for line in (f"echo '== {number}'", it.command)]
    with top() as folder:
        done = _shell("\n".join(script), folder)
    printed = re.split(r"^== \d+\n", done.stdout, flags=re.MULTILINE)[1:]
    test.assertEqual(len(printed), len(found))
    for it, output in zip(found, printed):
        _compare(test, it, output)


def _compare(test: unittest.TestCase, it: Example, output: str) -> None:
    """Compares what a command printed."""
    with place(test, it.name, it.line, command=it.command):
        if not pattern(it.due).match(output):
            test.fail(f"{it.command}:\n{differences(it.due, output.splitlines())}")


# Ends a shell at the first command that fails, and names its line: the block begins in the second one.
_FIRST_LINE = r"""set -e; trap 'echo "== line $LINENO, status $?"' ERR"""
_FAILED = re.compile(r"^== line (\d+), status \d+\n", re.MULTILINE)


def check_pasted(test: unittest.TestCase, blocks: Sequence[Block]) -> None:
    """Each `sh` block is pasted into a shell at the top, and the `output` block right after it is what it prints."""
    with top() as folder:
        for block, after in zip(blocks, [*blocks[1:], None]):
            if block.kind is not Kind.SH:
                continue
            done = _shell(f"{_FIRST_LINE}\n{block.text}", folder)
            failed = _FAILED.search(done.stdout)
            with place(test, block.name, block.line + int(failed[1]) - 2 if failed else block.line):
                if done.returncode:
                    test.fail(f"it ends with status {done.returncode}:\n{_FAILED.sub('', done.stdout)}")
            if after is not None and after.kind is Kind.OUTPUT:
                printed = Example(after.name, after.line, "the block before it", list(after.lines))
                _compare(test, printed, done.stdout)


def check_source(test: unittest.TestCase, block: Block) -> None:
    """The program accepts the lines of a block by one edit."""
    found = answers(asked("SPARC8", [f"edit 1 0 {len(block.lines)}", *block.lines, "quit"]))[0]
    refused = re.search(r" line (\d+)$", found[0]) if found else None
    at = int(refused[1]) if refused else 1
    with place(test, block.name, block.line + at - 1):
        if found:
            test.fail(f"{found[0]}: {block.lines[at - 1]}")
