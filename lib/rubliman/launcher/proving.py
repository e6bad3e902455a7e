"""Proves and builds the programs where nothing kept serves.

Two ways lead there, both the toolchain's own. `rt ci`, on a copy of the needed crates without their must-fail edits,
proves crates side by side from nothing (`ahead` says how), and shares what it proves with every `rt ci` on this
machine: what the gate proved is taken in seconds, and the gate takes what was proved here. A toolchain whose `rt ci`
takes no crate's name shares nothing; there `rt lib` and `rt run` prove the crates of the copy. `rt run`, in the
checkout, proves over what `rt check` kept, so it is quicker where most was checked and a little was changed since. The
first is begun; where much is left of it after some seconds, and checks have kept their work, the second takes over.
"""
from __future__ import annotations

import contextlib
import datetime
import fcntl
import os
import re
import shutil
import tempfile
from collections.abc import Callable, Iterable, Iterator
from dataclasses import dataclass
from pathlib import Path

from . import ahead, kept, places, running, schedule, toolchain
from .ahead import Ahead, UnknownWay
from .kept import Kept, Record
from .problem import Interrupted, Problem, say
from .progress import Progress
from .schedule import Task
from .sources import PROGRAMS, Sources, read_sources
from .ways import ByName, InTrees

BY_GATE, BY_RUN = "rt ci", "rt run"
# Where so many seconds go by with no crate, `rt ci` proves and takes no more, and more than so many minutes are much.
PATIENCE_SECONDS, MUCH_MINUTES = 15, 5
# A crate that is kept is taken in less.
TAKEN_SECONDS = 8
_SHOWN_LINES = 400
_HEAD = re.compile(r"== (.*)")
_PROVED = re.compile(r"rt: (\w+(?:: its tests are)?) proved")
_KEPT = re.compile(r"rt: \w+ is kept: .*")


@dataclass(frozen=True)
class Asked:
    """What is to be proved: the programs, their sources as they stand, the number of all sources, and the toolchain."""

    programs: tuple[str, ...]
    sources: Sources
    fingerprint: str
    rt: str
    toolchain: str


class Refused(Problem):
    """The toolchain refuses something: what it said."""

    def __init__(self, said: list[str]) -> None:
        super().__init__("\n".join(["the program could not be proved and built; the toolchain said:", *said]))
        self.said = said


def prove(asked: Asked) -> Kept:
    """Proves and builds the programs, and keeps them. Waits while another `./sparc8` does so."""
    try:
        with running.interruptible(), _alone() as had_to_wait:
            found = kept.find(asked.fingerprint, asked.toolchain) if had_to_wait else None
            return found if found and found.has(asked.programs) else _prove(asked)
    except Interrupted:
        say("interrupted: what was proved so far is kept, and the next ./sparc8 goes on from there")
        raise


@contextlib.contextmanager
def _alone() -> Iterator[bool]:
    """Holds others off, and gives whether it had to wait for one."""
    places.cache().mkdir(parents=True, exist_ok=True)
    with (places.cache() / "lock").open("w") as lock:
        try:
            fcntl.flock(lock, fcntl.LOCK_EX | fcntl.LOCK_NB)
            had_to_wait = False
        except BlockingIOError:
            say("another ./sparc8 is proving; waiting for it")
            fcntl.flock(lock, fcntl.LOCK_EX)
            had_to_wait = True
        yield had_to_wait


def _prove(asked: Asked) -> Kept:
    """Proves, keeps, and tells so."""
    page = places.TOP / "docs" / "PROVING.md"
    tasks = schedule.tasks_of(asked.sources, page.read_text(encoding="utf-8") if page.is_file() else "")
    cores = len(os.sched_getaffinity(0))
    lanes = ahead.lanes(cores, ahead.free_memory())
    progress, way = Progress(tasks, cores, lanes), BY_GATE
    say(
        f"proving and building {' and '.join(asked.programs)}: {progress.whole()} on {cores} processors, "
        f"where nothing of it was proved on this machine"
    )
    with tempfile.TemporaryDirectory(prefix="work-", dir=places.cache(), ignore_cleanup_errors=True) as room:
        try:
            made = _by_gate(asked, Path(room), tasks, lanes, progress)
        except UnknownWay:
            progress, way = Progress(tasks, cores, lanes), BY_RUN
            made = _in_trees(asked, Path(room), tasks, lanes, progress)
        except _Lags:
            say("going on by rt run, over what rt check kept of most crates on this machine")
            progress, way = Progress(tasks, cores, foretells=False), BY_RUN
            made = _by_run(asked, places.TOP, progress)
        found = kept.keep(made, record(asked.fingerprint, asked.toolchain, way, made))
    _stop_where_changed(asked)
    progress.note_pace()
    say(f"done after {progress.minutes_gone():.1f} minutes: proved and built")
    return found


def _stop_where_changed(asked: Asked) -> None:
    """Raises `Problem` where the sources are no more those that were to be proved."""
    if read_sources(places.TOP).fingerprint() != asked.fingerprint:
        raise Problem("a source was changed while it was being proved: run this again")


def record(fingerprint: str, identity: str, way: str, made: dict[str, Path]) -> Record:
    """The record of programs that were built just now."""
    now = datetime.datetime.now().astimezone().isoformat(timespec="seconds")
    return Record(fingerprint, identity, now, way, version(), {name: kept.sum_of(path) for name, path in made.items()})


def version() -> str:
    """The version number of what stands here."""
    try:
        return (places.PACKAGE / "VERSION").read_text(encoding="utf-8").strip()
    except OSError:
        return "unknown"


class _Lags(Exception):
    """Much is left, and there is kept work to go on from."""


class _Proves(Exception):
    """Not all libraries were taken as they are kept: some have to be proved."""


def _until_it_proves(libraries: list[Task], progress: Progress, tick: Callable[[], None]) -> Callable[[], None]:
    """Gives what is called each second until a library takes longer than one that is kept."""
    wanted = {it.crate for it in libraries}

    def look() -> None:
        tick()
        if progress.seconds_at_work() >= TAKEN_SECONDS and not wanted <= set(progress.proved):
            raise _Proves

    return look


def _checks_have_most(asked: Asked) -> bool:
    """Whether checks, here or in other checkouts, have kept their work on most of the crates, by lines."""
    crates, elsewhere = places.TOP / "crates", toolchain.checked_elsewhere(asked.rt)
    lines = {it.name: asked.sources.lines(it.name) for it in asked.sources.crates}
    checked = [it for it in lines if it in elsewhere or (crates / it / "out" / "incremental").is_dir()]
    return 2 * sum(lines[it] for it in checked) > sum(lines.values())


def _watch(asked: Asked, progress: Progress) -> Callable[[], None]:
    """Gives what is called each second: it tells the progress, and looks once whether much is left."""
    may_lag = _checks_have_most(asked)

    def tick() -> None:
        nonlocal may_lag
        progress.tick()
        if may_lag and progress.seconds_at_work() >= PATIENCE_SECONDS:
            may_lag = False
            if progress.minutes_to_come() > MUCH_MINUTES:
                raise _Lags

    return tick


def _by_gate(asked: Asked, room: Path, tasks: list[Task], lanes: int, progress: Progress) -> dict[str, Path]:
    """Proves by `rt ci` on a copy that is removed again. The toolchain keeps each crate that passes."""
    copy = room / "copy"
    write_copy(asked.sources, copy)
    # The toolchain runs programs as nobody where it runs as root, so its temporary files stand where nobody may come.
    with tempfile.TemporaryDirectory(prefix="sparc8-", ignore_cleanup_errors=True) as temporary:
        os.chmod(temporary, 0o711)
        try:
            environment = {**toolchain.environment(), "TMPDIR": temporary}
            tick = _watch(asked, progress)
            libraries = [it for it in tasks if it.crate not in asked.programs]
            try:
                if lanes and not toolchain.keeps_some(asked.rt, {it.crate for it in libraries}):
                    raise _Proves
                first = _until_it_proves(libraries, progress, tick) if lanes else tick
                _ran([asked.rt, "ci"], copy, environment, progress, first)
            except _Proves:
                way, wanted = ByName(asked.rt, copy, asked.programs), [*libraries, _building(asked, tasks)]
                processors = len(os.sched_getaffinity(0))
                if not Ahead(wanted, way, environment, progress, processors=processors).prove(lanes, tick):
                    _ran([asked.rt, "ci"], copy, environment, progress, tick)
        except Refused as refused:
            if not progress.is_all_proved():
                raise
            # The proof is all that a run needs. That a test fails, say, is for the gate to judge.
            say("\n".join(["every crate is proved, but the toolchain refuses something else; it said:", *refused.said]))
    return built(copy, asked.programs)


def _building(asked: Asked, tasks: list[Task]) -> Task:
    """What is left where all libraries are proved: one command proves and builds the programs."""
    libraries = dict.fromkeys(it.crate for it in tasks if it.crate not in asked.programs)
    minutes = sum(it.minutes for it in tasks if it.crate in asked.programs and not it.of_tests)
    return Task(asked.programs[-1], False, tuple(libraries), minutes)


def _in_trees(asked: Asked, room: Path, tasks: list[Task], lanes: int, progress: Progress) -> dict[str, Path]:
    """Proves each crate by `rt lib` or `rt run`, side by side, on a copy that is removed again."""
    copy, jobs = room / "copy", ahead.jobs(len(os.sched_getaffinity(0)), ahead.free_memory(), lanes)
    shutil.rmtree(copy, ignore_errors=True)
    write_copy(asked.sources, copy)
    way = InTrees(asked.rt, copy, room / "trees", asked.sources.crates, asked.programs)
    proofs = Ahead([it for it in tasks if not it.of_tests], way, toolchain.environment(), progress, jobs)
    if not proofs.prove(lanes, progress.tick):
        raise Refused(proofs.said[-_SHOWN_LINES:])
    return built(copy, asked.programs)


def write_copy(sources: Sources, copy: Path) -> None:
    """Writes the crates as the top of a repository: the sources as they were read, and what the programs are run on."""
    for path, content in sources.files.items():
        (copy / path).parent.mkdir(parents=True, exist_ok=True)
        (copy / path).write_bytes(content)
    (copy / "crates.txt").write_text("\n".join(it.line for it in sources.crates) + "\n", encoding="utf-8")
    (copy / ".git").mkdir()
    if (places.TOP / "HANDLES").is_file():
        shutil.copyfile(places.TOP / "HANDLES", copy / "HANDLES")
    for crate in sources.crates:
        for it in ("stdin", "stdout", "args", "status", "data"):
            beside, to = places.TOP / "crates" / crate.name / it, copy / "crates" / crate.name / it
            if beside.is_dir():
                shutil.copytree(beside, to)
            elif beside.is_file():
                shutil.copyfile(beside, to)


def _by_run(asked: Asked, top: Path, progress: Progress) -> dict[str, Path]:
    """Proves by `rt run` in the checkout, each program in turn, over what was kept there.

    The toolchain reads the sources themselves, so they may not be touched meanwhile, not even to what they were.
    """
    times = _touched(asked.sources)
    for name in asked.programs:
        _ran([asked.rt, "run"], top / "crates" / name, toolchain.environment(), progress, progress.tick)
    _stop_where_changed(asked)
    if _touched(asked.sources) != times:
        raise Problem("a source was touched while it was being proved: run this again")
    return built(top, asked.programs)


def _touched(sources: Sources) -> dict[str, tuple[int, int]]:
    """When each source was last written, and its place on the disk."""
    found = {path: (places.TOP / path).stat() for path in sources.files}
    return {path: (it.st_ctime_ns, it.st_ino) for path, it in found.items()}


def built(top: Path, programs: Iterable[str] = PROGRAMS) -> dict[str, Path]:
    """The programs that the toolchain has built below a folder."""
    made = {name: top / "crates" / name / "out" / name for name in programs}
    for name, path in made.items():
        if not path.is_file():
            raise Problem(f"the toolchain ended well, but built no {name}")
    return made


def _ran(
    words: list[str], folder: Path, environment: dict[str, str], progress: Progress, tick: Callable[[], None]
) -> None:
    """Runs the toolchain. Raises `Problem` where it fails, with what it said of what it did not prove."""
    said = Said()

    def tell(line: str) -> None:
        said.line(line)
        progress.line(line)

    if running.run(words, folder, environment, tell, tick):
        raise Refused(said.lines[-_SHOWN_LINES:])


class Said:
    """What the toolchain said, less what it told of crates that are proved."""

    def __init__(self) -> None:
        self.lines: list[str] = []
        self._block, self._name = 0, ""

    def line(self, line: str) -> None:
        """Takes a line. What is told of a crate stands between a line with its name and the verdict."""
        head, proved = _HEAD.fullmatch(line), _PROVED.fullmatch(line)
        if head:
            self._block, self._name = len(self.lines), head[1]
        if proved and proved[1].replace(" are", "") == self._name:
            del self.lines[self._block :]
        elif not _KEPT.fullmatch(line):
            self.lines.append(line)
