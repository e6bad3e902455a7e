"""The words of `./sparc8`: the launcher's own, and those that go to the program."""
from __future__ import annotations

import os
import signal
import stat
import subprocess
import sys
from collections.abc import Callable, Sequence
from pathlib import Path
from typing import TYPE_CHECKING

from . import places
from .problem import Interrupted, Problem, say
from .sources import MONITOR, PROGRAMS, WORKBENCH

if TYPE_CHECKING:
    from .kept import Kept

CANNOT_OPEN, READ_FAULT, FAULT = "cannot open script", "read fault", 3

HELP = """
Words of ./sparc8 itself, each the first:
  --unproved [--windows N] [SCRIPT]   runs a script with no proof, and says so
  --gdb [--windows N] [SCRIPT] [-- WORD ..]
                                      GDB on the machine of a script, back and forth; WORDs are GDB's; docs/GDB.md
  --gdb-stub [--windows N] [SCRIPT]   what GDB speaks to then, for editors that start GDB themselves
  --page [--windows N] [--no-open] [FILE]
                                      the run of a source or a script in a browser, and its past changed; docs/PAGE.md
  --import FILE .. [-o OUT] ..        makes a source of a real program; --import --help tells more, docs/IMPORT.md all
  --install PREFIX                    installs the proved programs, the importer and the manual pages below PREFIX
  --check                             tells what stands here: version, sources, proved or not, by what and when
  --program                           proves and builds the programs if need be, and tells where this one is

./sparc8_monitor [--windows N] [SCRIPT] answers questions besides: docs/MONITOR.md tells them.
"""


def main(words: Sequence[str]) -> int:
    """Does what the words of `./sparc8` say. Gives the status, unless the proved program takes over."""
    return _done(lambda: _workbench(words))


def monitor(words: Sequence[str]) -> int:
    """The same for `./sparc8_monitor`, which has no words of its own."""
    return _done(lambda: _run(MONITOR, words))


def _workbench(words: Sequence[str]) -> int:
    """Does what the words of `./sparc8` say."""
    own: dict[str, Callable[[Sequence[str]], int]] = {
        "--unproved": _unproved,
        "--gdb": _gdb,
        "--gdb-stub": _gdb_stub,
        "--page": _page,
        "--install": _install,
        "--check": _check,
        "--program": _program,
    }
    if "--import" in words:
        return _import(words)
    if words and words[0] in own:
        return own[words[0]](words[1:])
    return _run(WORKBENCH, words)


def _done(does: Callable[[], int]) -> int:
    """Does this, and tells what goes wrong."""
    try:
        return does()
    except Problem as problem:
        say(str(problem))
        return problem.status
    except Interrupted as interrupted:
        return interrupted.status
    except KeyboardInterrupt:
        return 130
    except BrokenPipeError:
        return 1
    except PermissionError as problem:
        say(f"{problem}: RUBLIMAN_CACHE= names another folder than {places.cache()}")
        return 1
    except OSError as problem:
        say(str(problem))
        return 1


def _run(program: str, words: Sequence[str]) -> int:
    """Hands the words to a proved program, which is proved and built first where it is not there."""
    path = _kept_program(program)
    if path is None:
        status = _answered(program, words)
        if status is not None:
            return status
        path = _proved_program(program)
    elif program == WORKBENCH and _asks_help(words):
        return _help(path, words)
    return _become(path, words)


def _kept_program(program: str = WORKBENCH) -> Path | None:
    """The proved program that stands here for these very sources, if there is one."""
    from . import standing

    found = standing.now().kept
    return found.program(program) if found and found.has([program]) else None


def _proved_program(program: str = WORKBENCH) -> Path:
    """The proved program, proved and built now where need be."""
    found = _kept_program(program)
    if found is not None:
        return found
    from . import standing

    return standing.prove([program]).program(program)


def _all_programs() -> Kept:
    """All proved programs, proved and built now where need be."""
    from . import standing

    found = standing.now().kept
    return found if found and found.has(PROGRAMS) else standing.prove()


def _become(program: Path, words: Sequence[str]) -> int:
    """Has the program take over this process."""
    # A recorded run takes fresh memory all the time, which the system gives faster in large pages.
    os.environ.setdefault("GLIBC_TUNABLES", "glibc.malloc.hugetlb=1")
    # Python ignores these, and the program would inherit that.
    for it in (signal.SIGPIPE, signal.SIGXFSZ):
        signal.signal(it, signal.SIG_DFL)
    sys.stdout.flush()
    os.execv(program, [program.name, *words])
    raise AssertionError("the program has taken over")


def _asks_help(words: Sequence[str]) -> bool:
    """Whether the program answers these words by its help."""
    from .words import Refused, read

    if not any(it.startswith("-") for it in words):
        return False
    try:
        read(words)
    except Refused as refused:
        return refused.is_help
    return False


def _help(program: Path, words: Sequence[str]) -> int:
    """The program's help, and behind it the launcher's own words."""
    status = subprocess.run([program, *words], check=False).returncode
    if status == 0:
        sys.stdout.write(HELP)
        sys.stdout.flush()
    return status


def _answered(program: str, words: Sequence[str]) -> int | None:
    """Answers words that need no run as the program does, and gives the status; None where a run is asked for."""
    from .words import Refused, read

    try:
        settings = read(words)
    except Refused as refused:
        said = refused.said(program)
        sys.stderr.write(said.err)
        sys.stdout.write(said.out + (HELP if refused.is_help and program == WORKBENCH else ""))
        sys.stdout.flush()
        return said.status
    fault = None if settings.script is None else fault_of(settings.script)
    if fault is not None:
        say(fault, program)
        return FAULT
    return None


def fault_of(script: str) -> str | None:
    """Why the program could not read a script of that name, in its own words."""
    try:
        mode = os.stat(script).st_mode
        if stat.S_ISDIR(mode):
            return READ_FAULT
        if stat.S_ISREG(mode):
            os.close(os.open(script, os.O_RDONLY))
    except (OSError, ValueError):
        return CANNOT_OPEN
    return None if os.access(script, os.R_OK) else CANNOT_OPEN


def _in_repository(word: str) -> None:
    """Raises `Problem` where this was installed."""
    if not places.is_repository():
        raise Problem(f"{word} is for the repository, and this program was installed", 2)


def _no_more(word: str, words: Sequence[str]) -> None:
    """Raises `Problem` where words stand behind one that takes none."""
    if words:
        raise Problem(f"{word} takes no word behind it", 2)


def _unproved(words: Sequence[str]) -> int:
    """Runs a script with no proof."""
    _in_repository("--unproved")
    status = _answered(WORKBENCH, words)
    if status is not None:
        return status
    from . import unproved
    from .words import read

    return unproved.run(read(words))


def _gdb(words: Sequence[str]) -> int:
    """GDB on the machine of a script, by the proved monitor. Words behind `--` are GDB's."""
    at = list(words).index("--") if "--" in words else len(words)
    status = _answered(WORKBENCH, words[:at])
    if status is not None:
        return status
    from rubliman.gdb import command as gdb

    from .words import read

    settings = read(words[:at])
    try:
        gdb.find()
        gdb.become(_proved_program(MONITOR), settings.windows, settings.script, words[at + 1 :])
    except gdb.NoGdb:
        how = "run tests/install, or apt-get install" if places.is_repository() else "apt-get install"
        raise Problem(f"GDB is not there: {how} gdb-multiarch") from None


def _gdb_stub(words: Sequence[str]) -> int:
    """What GDB speaks to, over standard input and output, for editors that start GDB themselves."""
    status = _answered(WORKBENCH, words)
    if status is not None:
        return status
    program = _kept_program(MONITOR)
    if program is None:
        raise Problem("the monitor is not proved yet, and GDB would not wait: ./sparc8 --program proves it")
    from rubliman.gdb.serving import serve

    from .words import read

    settings = read(words)
    return serve(program, settings.windows, settings.script)


def _page(words: Sequence[str]) -> int:
    """A page over the proved monitor, until it is interrupted. Words behind `--` are no words of its own."""
    from rubliman.page.command import NO_OPEN, run

    at = list(words).index("--") if "--" in words else len(words)
    own = [it for it in words[:at] if it != NO_OPEN] + list(words[at:])
    status = _answered(WORKBENCH, own)
    if status is not None:
        return status
    from .words import read

    settings = read(own)
    return run(_proved_program(MONITOR), settings.windows, settings.script, NO_OPEN not in words[:at])


def _import(words: Sequence[str]) -> int:
    """The importer asks the program that SPARC8 names, or the proved one; a text alone needs none."""
    try:
        import elftools  # noqa: F401
    except ImportError:
        how = "run tests/install, or apt-get install" if places.is_repository() else "apt-get install"
        raise Problem(f"Python's elftools is not there: {how} python3-pyelftools") from None
    if not os.environ.get("SPARC8"):
        asks = any(it in ("--check", "--run") or it.startswith("--addr2line") for it in words)
        os.environ["SPARC8"] = str(_proved_program() if asks else places.command())
    from rubliman.importer.command import main as import_main

    return import_main(words)


def _install(words: Sequence[str]) -> int:
    """Installs what is proved, below the folder that the word names."""
    _in_repository("--install")
    if len(words) != 1 or words[0].startswith("-"):
        raise Problem("--install takes one word behind it, the folder to install below, as /usr/local", 2)
    from . import installing

    installing.install(_all_programs(), Path(words[0]))
    return 0


def _check(words: Sequence[str]) -> int:
    """Tells what stands here."""
    _no_more("--check", words)
    from . import standing

    sys.stdout.write(standing.now().told())
    return 0


def _program(words: Sequence[str]) -> int:
    """Tells where the proved program is."""
    _no_more("--program", words)
    print(_all_programs().program())
    return 0
