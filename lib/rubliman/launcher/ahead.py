"""Proves crates side by side, each by a command of its own (`ways` says which), once something is to be proved.

One `rt ci` of all crates gives most proofs one processor, also while others have nothing to do: it counts with the
tests that each crate might have. So crates are asked for one by one, those with the longest way above them first, as
long as a processor has no job. What a crate at work has done of its own proof is no part of its way. Where a crate at
work has a shorter way than one that becomes ready, the second does not wait for a processor, and goes first.

Where half as many crates as there are processors have ways that are nearly as long as the longest one, or fewer, each
of them has two jobs. Where there are more, the one with the longest way alone has two, and where there are as many as
processors none has: one job takes less processor time than two. A crate with a far shorter way than the longest one
leaves the processors to two others: what waits for it is far, and at the end of the longest way there are processors
with nothing to do.

A command takes some seconds before it proves anything, the more the more crates lie below. So the next crate is begun
while the last of its libraries is under way: where commands share what they prove, its own then waits for that. What
builds the programs comes last in the same way.
"""
from __future__ import annotations

import os
import re
import subprocess
import tempfile
import time
from collections.abc import Callable, Iterable
from dataclasses import dataclass
from pathlib import Path
from typing import IO

from . import running, schedule
from .progress import Progress
from .schedule import Task
from .ways import Way

# What a check of a large crate takes with two jobs, seen on the crates as they are, and with each job more, as the
# toolchain's own sources reckon.
_CHECK_BYTES, _JOB_BYTES = 5 << 30, 3 << 29
_LOOK_SECONDS = 0.2
_MOST_SAID = 1 << 20
# What a command says while it waits for another one. It is read once both have ended.
_WAITED = re.compile(r"rt: .*\bwaiting for it")
# More jobs than this make no crate quicker.
_MOST_JOBS = 4
# How nice a crate is to each one with a longer way above it, and to all together at most.
_NICENESS, _NICEST = 10, 19
# Behind so many seconds a command has begun its proof, so that another one waits for it and does not begin the same.
_BEGUN_SECONDS = 20
# While two crates are at work, one whose way is a smaller part of the longest way than this can wait.
_FAR = 0.4
# A way that is no smaller a part of the longest way than this is nearly as long.
_ALIKE = 0.9
# A command counts the memory that is free when it begins, and with less it may give its crate one job.
_AMPLE_BYTES = 16 << 30


def lanes(cores: int, memory: int) -> int:
    """How many crates are proved side by side; 0 where `rt ci` of all is as quick, or memory holds no two checks."""
    number = min(max(3, cores // 4), memory // _CHECK_BYTES)
    return number if cores >= 4 and number >= 2 else 0


def free_memory() -> int:
    """The bytes that may be had without swapping."""
    for line in Path("/proc/meminfo").read_text(encoding="ascii").splitlines():
        if line.startswith("MemAvailable:"):
            return 1024 * int(line.split()[1])
    return 0


class UnknownWay(Exception):
    """The toolchain does not know the command."""


def jobs(cores: int, memory: int, number: int) -> int:
    """How many jobs each of so many crates may use, by the processors and what memory holds."""
    spare = max(memory // number - _CHECK_BYTES, 0) // _JOB_BYTES
    return max(1, min(_MOST_JOBS, cores, 2 + spare))


@dataclass
class _Begun:
    """A crate under way: its process, what it says, its jobs, and since when its libraries are proved."""

    crate: str
    process: subprocess.Popen[bytes]
    said: IO[bytes]
    since: float
    jobs: int
    at_work_since: float | None = None


class Ahead:
    """The crates that are left, and those that are under way."""

    def __init__(
        self,
        tasks: Iterable[Task],
        way: Way,
        environment: dict[str, str],
        progress: Progress,
        jobs: int = 2,
        processors: int = 0,
    ) -> None:
        self._tasks = list(tasks)
        self._way, self._environment, self._progress, self._jobs = way, environment, progress, jobs
        self._processors, self._pace = processors, progress.pace()
        self._proved = set(progress.proved)
        proofs = [it for it in self._tasks if not it.of_tests]
        self._ways, self._minutes = schedule.ways_above(proofs), {it.crate: it.minutes for it in proofs}
        self._order = schedule.longest_first(self._ways)
        self._left = [it for it in self._order if it not in self._proved]
        self._below = {it.crate: set(it.below) for it in proofs}
        self._under_way: list[_Begun] = []
        self.said: list[str] = []

    def prove(self, number: int, tick: Callable[[], None]) -> bool:
        """Proves crates, so many at a time, until none is left or one fails. Leaves no process behind.

        Gives whether none failed; if not, `said` is what the toolchain said of the one. Raises `UnknownWay` where it
        does not know the command.
        """
        try:
            while self._begin(number):
                self._progress.at_work = self._at_work()
                time.sleep(_LOOK_SECONDS)
                tick()
                self._look()
                if not self._end():
                    return False
            return True
        finally:
            self._progress.at_work = []
            for it in self._under_way:
                running.end(it.process)
                it.said.close()

    def _begin(self, number: int) -> bool:
        """Begins crates whose libraries are proved, and the one that comes next. Gives whether one is under way."""
        for crate in [it for it in self._left if self._is_ready(it)]:
            if (self._has_place(number) or self._overtakes(crate, number)) and not self._can_wait(crate):
                self._begin_one(crate)
        following = self._following()
        if following:
            self._begin_one(following)
        return bool(self._under_way)

    def _begin_one(self, crate: str) -> None:
        """Begins a crate, so that it is under way whatever interrupts."""
        with running.undisturbed():
            self._under_way.append(self._of(crate))

    def _is_ready(self, crate: str) -> bool:
        """Whether the libraries of a crate are proved."""
        return self._below[crate] <= self._proved

    def _at_work(self) -> list[str]:
        """The crates under way that wait for no other one."""
        return [it.crate for it in self._under_way if self._is_ready(it.crate)]

    def _has_place(self, number: int) -> bool:
        """Whether one crate more may be at work: so many may, with ample memory one more, if a processor has no job."""
        at_work = [it for it in self._under_way if self._is_ready(it.crate)]
        if not self._processors:
            return len(at_work) < number
        most = number + 1 if free_memory() >= _AMPLE_BYTES else number
        return len(at_work) < most and sum(it.jobs for it in at_work) < self._processors

    def _way_left(self, crate: str) -> float:
        """The minutes of the longest way from a crate up, less what is done of its own proof."""
        begun = next((it for it in self._under_way if it.crate == crate), None)
        if begun is None or begun.at_work_since is None:
            return self._ways[crate]
        minutes = (time.monotonic() - begun.at_work_since) / 60 / self._pace
        return self._ways[crate] - min(minutes * schedule.speed(begun.jobs), self._minutes[crate])

    def _alike(self, proved: set[str]) -> list[str]:
        """The crates at work or ready, over what is proved, with ways that are nearly as long as the longest."""
        waiting = {*self._left, *(it.crate for it in self._under_way)} - proved
        longest = max((self._way_left(it) for it in waiting), default=0.0)
        return [it for it in waiting if self._below[it] <= proved and self._way_left(it) >= _ALIKE * longest]

    def _overtakes(self, crate: str, number: int) -> bool:
        """Whether a crate need not wait for a place: its way is longer than that of a crate at work."""
        at_work = self._at_work()
        is_longer = any(self._way_left(it) < self._ways[crate] for it in at_work)
        return is_longer and len(at_work) == number and free_memory() >= _AMPLE_BYTES

    def _can_wait(self, crate: str) -> bool:
        """Whether a crate leaves the processors to those at work, since what waits for it is far."""
        return len(self._at_work()) >= 2 and self._part_of_longest(crate) < _FAR

    def _part_of_longest(self, crate: str) -> float:
        """The way of a crate, as a part of the longest one of it and of those that it does not wait for."""
        others = {*self._left, *(it.crate for it in self._under_way)} - self._proved - self._all_below(crate)
        longest = max(self._way_left(it) for it in {crate, *others})
        return self._way_left(crate) / longest if longest else 1.0

    def _all_below(self, crate: str) -> set[str]:
        """The crates that a crate stands on, and those that these stand on."""
        return self._below[crate].union(*(self._all_below(it) for it in self._below[crate]))

    def _following(self) -> str | None:
        """The crate that comes next, where it lacks libraries that are being proved, and no other crate waits so."""
        if not self._way.waits or len(self._at_work()) < len(self._under_way) or free_memory() < _AMPLE_BYTES:
            return None
        since = {it.crate: it.since for it in self._under_way}
        others = (it for it in self._left if self._below[it] <= self._proved | since.keys())
        following = next((it for it in others if not self._can_wait(it)), None)
        lacking = self._below[following] - self._proved if following else set()
        have_begun = all(time.monotonic() - since[it] >= _BEGUN_SECONDS for it in lacking)
        return following if lacking and have_begun else None

    def _jobs_of(self, crate: str) -> int:
        """How many jobs a crate gets that is begun."""
        alike = self._alike(self._proved | self._below[crate])
        if crate in alike and 2 * len(alike) <= self._processors:
            return self._jobs
        is_longest = self._part_of_longest(crate) >= 1
        return self._jobs if is_longest and not 0 < self._processors <= len(alike) else 1

    def _of(self, crate: str) -> _Begun:
        """The proof of a crate that is left, begun."""
        jobs = self._jobs_of(crate)
        self._left.remove(crate)
        words, folder = self._way.begin(crate, jobs)
        others = (it.crate for it in self._under_way if it.crate not in self._below[crate])
        longer = sum(self._way_left(it) > self._ways[crate] for it in others)
        if longer:
            words = ["nice", "-n", str(min(longer * _NICENESS, _NICEST)), *words]
        said = tempfile.TemporaryFile()
        process = subprocess.Popen(
            words,
            cwd=folder,
            env=self._environment,
            stdin=subprocess.DEVNULL,
            stdout=said,
            stderr=subprocess.STDOUT,
            start_new_session=True,
        )
        return _Begun(crate, process, said, time.monotonic(), jobs)

    def _look(self) -> None:
        """Notes which crates are proved. What is left of their commands holds no other crate back."""
        for it in self._under_way:
            if self._way.is_proved(it.crate, os.pread(it.said.fileno(), _MOST_SAID, 0)):
                self._proved.add(it.crate)
        for it in self._under_way:
            if it.at_work_since is None and self._is_ready(it.crate):
                it.at_work_since = time.monotonic()

    def _end(self) -> bool:
        """Takes what the crates say that have ended. Gives whether all of these are proved."""
        for it in [it for it in self._under_way if it.process.poll() is not None]:
            self._under_way.remove(it)
            with it.said as said:
                said.seek(0)
                words = said.read()
            self.said = words.decode(errors="replace").splitlines()
            if it.process.returncode:
                if not self._way.knows(words):
                    raise UnknownWay
                return False
            for line in [*self.said, *self._way.end(it.crate)]:
                if not _WAITED.fullmatch(line):
                    self._progress.line(line)
            self._proved.add(it.crate)
            self._pace = self._progress.pace()
        return True
