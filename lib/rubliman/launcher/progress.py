"""Tells how far proving is, from what the toolchain says."""
from __future__ import annotations

import re
import time
from collections.abc import Callable

from . import schedule, times
from .problem import say
from .schedule import Task

_PROVED = re.compile(r"rt: (\w+) (proved|is kept: .*)")
_BEGUN = re.compile(r"rt: chose --jobs \d+ for (\w+)")
_FUNCTIONS = re.compile(r"logic=proved functions=(\d+)")
_SO_FAR = re.compile(r"so far: (\d+) of (\d+) functions checked")
# What the user should know of at once: that it waits for another run, and that the disk is full.
_NOTES = re.compile(r"rt: (.*\bwaiting for .*|note: the disk .*)")
TOLD_SECONDS = 60
# Below this the pace of a run says little.
_LEAST_MINUTES = 1.0
# The minutes of docs/PROVING.md are those of a first run that had the machine to itself.
_USUAL_PACE = 1.0
# So many minutes of the schedule count at the pace that was expected: a run begins with crates of all sizes.
_EXPECTED_MINUTES = 10.0


class Progress:
    """Crate by crate: how many of how many, the functions that were proved, and the minutes gone and to come."""

    def __init__(
        self,
        tasks: list[Task],
        cores: int,
        lanes: int = 0,
        foretells: bool = True,
        clock: Callable[[], float] = time.monotonic,
    ) -> None:
        self._tasks, self._cores, self._lanes, self._foretells, self._clock = tasks, cores, lanes, foretells, clock
        self._names = list(dict.fromkeys(it.crate for it in tasks))
        self._begun = self._told = self._ended = clock()
        self._whole = schedule.minutes_left(tasks, (), cores, lanes)
        self._pace = times.measured().get("pace", _USUAL_PACE)
        self._functions, self._of_crate, self._within, self._current = 0, 0, "", ""
        self.proved: list[str] = []
        # Those that are known to be under way.
        self.at_work: list[str] = []
        self.has_worked = False
        self.was_kept = False

    def minutes_gone(self) -> float:
        """The minutes since the beginning."""
        return (self._clock() - self._begun) / 60

    def seconds_at_work(self) -> float:
        """The seconds since the last crate was proved or taken."""
        return self._clock() - self._ended

    def minutes_to_come(self) -> float:
        """The minutes that are left at the pace of this run, or of an earlier one where this one has just begun."""
        left = schedule.minutes_left(self._tasks, self.proved, self._cores, self._lanes)
        return max(left * self._pace_so_far(left) - self.seconds_at_work() / 60, min(left, _LEAST_MINUTES))

    def pace(self) -> float:
        """How many minutes by the clock one of the schedule's takes."""
        return self._pace_so_far(schedule.minutes_left(self._tasks, self.proved, self._cores, self._lanes))

    def _pace_so_far(self, left: float) -> float:
        """How many minutes by the clock one of the schedule's takes, as expected at first and then as seen."""
        done, took = self._whole - left, (self._ended - self._begun) / 60
        if not self.has_worked or min(done, took) < _LEAST_MINUTES:
            return self._pace
        return (took + _EXPECTED_MINUTES * self._pace) / (done + _EXPECTED_MINUTES)

    def is_all_proved(self) -> bool:
        """Whether the toolchain has said of every crate that it is proved."""
        return set(self._names) <= set(self.proved)

    def whole(self) -> str:
        """What there is to prove from nothing, in words."""
        return f"{len(self._names)} crates, about {self._pace * self._whole:.0f} minutes"

    def line(self, said: str) -> None:
        """Takes a line that the toolchain says."""
        functions, so_far, begun = _FUNCTIONS.match(said), _SO_FAR.match(said), _BEGUN.fullmatch(said)
        ended, note = _PROVED.fullmatch(said), _NOTES.fullmatch(said)
        if said.startswith("== "):
            self._of_crate = 0
        elif functions:
            self._of_crate = int(functions[1])
        elif so_far:
            self._within = f"{so_far[1]} of {so_far[2]} functions"
        elif begun and begun[1] in self._names:
            self._begin(begun[1])
        elif ended and ended[1] in self._names and ended[1] not in self.proved:
            self._end(ended[1], ended[2] == "proved")
        elif note:
            self._told = self._clock()
            say(note[1])

    def _begin(self, name: str) -> None:
        """Where crates are proved one after the other: a crate is begun, and those before it are proved."""
        self._current, self._within = name, ""
        number = self._names.index(name)
        self.proved += [it for it in self._names[:number] if it not in self.proved]
        self._tell(f"crate {number + 1} of {len(self._names)}, {name}: begun")

    def _end(self, name: str, is_new: bool) -> None:
        """Where crates are proved side by side: a crate is proved, now or by an earlier run."""
        self.proved.append(name)
        self._ended = self._clock()
        self.has_worked, self.was_kept = self.has_worked or is_new, self.was_kept or not is_new
        self._functions += self._of_crate if is_new else 0
        how = "proved" if is_new else "was proved before"
        self._tell(f"crate {len(self.proved)} of {len(self._names)}, {name}: {how}")

    def tick(self) -> None:
        """Tells where it is, once a minute."""
        if self._clock() - self._told >= TOLD_SECONDS:
            self._tell(f"  {', '.join(self._at_work())}" + (f", {self._within}" if self._within else ""))

    def _at_work(self) -> list[str]:
        """The crates under way, or, where they are not known, those that may be: they wait for none."""
        if self._current or not self._foretells:
            return [self._current or "what was kept is read"]
        if self.at_work:
            return self.at_work
        ready = [
            it
            for it in self._tasks
            if not it.of_tests and it.crate not in self.proved and set(it.below) <= set(self.proved)
        ]
        return [it.crate for it in ready] or ["tests"]

    def _tell(self, text: str) -> None:
        """Tells a line, with the minutes."""
        self._told = self._clock()
        counted = f", {self._functions} functions" if self._functions else ""
        to_come = f", about {self.minutes_to_come():.0f} to come" if self._foretells else ""
        say(f"{text}{counted}; {self.minutes_gone():.0f} minutes gone{to_come}")

    def note_pace(self) -> None:
        """Keeps the pace of a run that proved all, for the next one's estimate."""
        if (
            self._foretells
            and self.has_worked
            and not self.was_kept
            and self._whole >= _LEAST_MINUTES
            and self.minutes_gone() >= _LEAST_MINUTES
        ):
            times.note("pace", self.minutes_gone() / self._whole)
