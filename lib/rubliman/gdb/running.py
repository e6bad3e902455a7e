"""Looks for the step at which the machine is to stop, forwards and backwards. The monitor searches."""
from __future__ import annotations

from collections.abc import Callable, Iterable
from dataclasses import dataclass, field, replace

from ..asking.monitor import Monitor
from .judging import holding
from .machine import Machine, Made, made
from .memory import Memory
from .points import Kind, Points
from .stops import Stop, begun, broken, caught, dead, ended, failed, interrupted
from .watching import Watched, Watcher

# A search goes by parts, so that Ctrl-C is seen: so many steps at first, and each part has twice those of the last.
_FIRST_STEPS, _MOST_STEPS = 16, 16_384
# How many steps one question tells at most, and how many conditions it takes.
_TOGETHER = 64
_MOST_CONDITIONS = 32
# Conditions of breakpoints by their addresses.
_Breaks = dict[int, list[bytes]]


@dataclass
class Catches:
    """What stops the machine beside the points of GDB."""

    # The types of traps and interrupts; None where each does.
    traps: frozenset[int] | None = frozenset()
    output: bool = False

    def conditions(self) -> list[str]:
        """As the monitor's conditions."""
        traps = ["trap"] if self.traps is None else [f"tt {it:x}" for it in sorted(self.traps)]
        return traps + ["out"] * self.output

    def takes(self, it: Made) -> bool:
        """Whether a step is one of them."""
        is_caught = it.trap is not None and (self.traps is None or it.trap in self.traps)
        return is_caught or (self.output and "out" in it.items)


@dataclass(frozen=True)
class _Part:
    """A part of a search: the steps that were told, which of them breaks, and which meet a watchpoint."""

    hits: list[Made]
    breaks: int | None
    watched: dict[int, Watched]

    def is_whole(self) -> bool:
        """Whether all steps were told, and not only the first ones."""
        return len(self.hits) < _TOGETHER


@dataclass
class Runner:
    """Runs on, and back."""

    monitor: Monitor
    memory: Memory
    points: Points
    is_interrupted: Callable[[], bool]
    catches: Catches = field(default_factory=Catches)

    def __post_init__(self) -> None:
        self._watcher = Watcher(self.monitor, self.memory, self.points)

    def forward(self, start: int, end: int, tells_output: bool) -> Stop:
        """To the first step behind this one at which something is to be told, or to the end of time. The stop tells
        what the program has put out on the way, too."""
        return self._forward(start, end, self.points.breaks(), ended(end), tells_output)

    def one_forward(self, start: int, end: int, tells_output: bool) -> Stop:
        """One step, and past an annulled slot behind it. GDB looks for breakpoints itself."""
        following = made(self.monitor, start + 1, min(start + 3, end), 2) if start < end else []
        to = next((it.step for it in following if it.what != "annul"), end)
        return self._forward(start, to, {}, Stop(to) if to < end else ended(end), tells_output)

    def back(self, start: int) -> Stop:
        """To the last step in front of this one at which something is to be told, or to the first one."""
        return self._down(start, 0, self.points.breaks()) or begun()

    def one_back(self, start: int) -> Stop:
        """One step back, and past an annulled slot. Where the machine stands still, back to the step that failed. GDB
        looks for breakpoints itself."""
        if start == 0:
            return begun()
        if Machine.at(self.monitor, start).is_running:
            undone = made(self.monitor, start, max(0, start - 2), 2)
        else:
            undone = made(self.monitor, start, 0, 1, "error")
        to = next((it.step for it in undone if it.what != "annul"), 0)
        return self._down(start, to, {}) or Stop(to)

    # ---- forwards

    def _forward(self, start: int, end: int, breaks: _Breaks, last: Stop, tells_output: bool) -> Stop:
        """The stop behind a step and up to another, or the last one."""
        if not Machine.at(self.monitor, start).is_running:
            return dead(start)
        output: list[bytes] = []
        stop = self._up(start, end, breaks, ["error", *["out"] * tells_output], output) or last
        told = b"".join(output).decode("latin-1") if tells_output else ""
        if told and stop.said and not told.endswith("\n"):
            told += "\n"
        return replace(stop, said=told + stop.said)

    def _up(self, start: int, end: int, breaks: _Breaks, conditions: list[str], output: list[bytes]) -> Stop | None:
        """The stop behind a step and up to another; None where there is none."""
        at, steps = start, _FIRST_STEPS
        while at < end:
            if self.is_interrupted():
                return interrupted(at)
            watched = self._watcher.at(at)
            to = self._watcher.reach(at, min(at + steps, end), watched)[1]
            part = self._part(at, to, watched, breaks, conditions, start)
            for it in part.hits:
                stop = self._on(it, part, start, output)
                if stop is not None:
                    return stop
            if part.is_whole():
                moved = self._watcher.changed(to - 1)
                if moved is not None:
                    return Stop(to, reason=moved.reason())
            at, steps = to if part.is_whole() else part.hits[-1].step + 1, min(2 * steps, _MOST_STEPS)
        return None

    def _on(self, it: Made, part: _Part, start: int, output: list[bytes]) -> Stop | None:
        """The stop at a step that was told, or behind it."""
        if it.step == part.breaks:
            return broken(it.step)
        output.append(it.put_out())
        if it.what == "error":
            return failed(it)
        one = part.watched.get(it.step)
        if one is not None:
            # What is poked is seen at its own step.
            is_seen = _may_poke(it, one) and it.step > start and self._watcher.differs(one.point, it.step - 1)
            return Stop(it.step + (not is_seen), reason=one.reason())
        return caught(it, it.step + 1) if self.catches.takes(it) else None

    # ---- backwards

    def _down(self, start: int, last: int, breaks: _Breaks) -> Stop | None:
        """The stop below a step and down to another; None where there is none."""
        at, steps = start, _FIRST_STEPS
        while at > last:
            if self.is_interrupted():
                return interrupted(at)
            moved = self._watcher.changed(at - 1)
            if moved is not None:
                return Stop(at - 1, reason=moved.reason())
            watched = self._watcher.at(at - 1)
            to = self._watcher.reach(at - 1, max(at - steps, last), watched)[0]
            part = self._part(at, to, watched, breaks, [], start)
            for it in part.hits:
                stop = self._under(it, part)
                if stop is not None:
                    return stop
            at, steps = to if part.is_whole() else part.hits[-1].step, min(2 * steps, _MOST_STEPS)
        return None

    def _under(self, it: Made, part: _Part) -> Stop | None:
        """The stop at a step that was told, which is to be undone; or in front of it, where a poke is undone."""
        if it.step == part.breaks:
            return broken(it.step)
        one = part.watched.get(it.step)
        if one is not None:
            is_poke = _may_poke(it, one) and it.step > 0 and not self._watcher.differs(one.point, it.step)
            return Stop(it.step - is_poke, reason=one.reason())
        return caught(it, it.step) if self.catches.takes(it) else None

    # ---- both

    def _part(
        self, first: int, last: int, watched: list[Watched], breaks: _Breaks, conditions: list[str], start: int
    ) -> _Part:
        """The first steps, in the order of the search, that meet a condition."""
        wanted = [f"pc {it:x}" for it in breaks] + [condition for it in watched for condition in it.conditions()]
        hits = self._found(first, last, [*wanted, *self.catches.conditions(), *conditions])
        meeting: dict[int, Watched] = {}
        for it in watched if hits else ():
            for hit in self._found(first, last, it.conditions()):
                meeting.setdefault(hit.step, it)
        return _Part(hits, self._first_break([it for it in hits if it.step != start], breaks), meeting)

    def _found(self, first: int, last: int, conditions: list[str]) -> list[Made]:
        """The first of the steps that meet a condition, in the order of the search."""
        found: dict[int, Made] = {}
        for at in range(0, len(conditions), _MOST_CONDITIONS):
            part = " ".join(conditions[at : at + _MOST_CONDITIONS])
            found |= {it.step: it for it in made(self.monitor, first, last, _TOGETHER, part)}
        return [found[it] for it in sorted(found, reverse=last < first)][:_TOGETHER]

    def _first_break(self, hits: Iterable[Made], breaks: _Breaks) -> int | None:
        """The first of some steps at which a breakpoint stops the machine."""
        doubtful: list[tuple[Made, list[bytes]]] = []
        certain = None
        for it in hits:
            if it.pc not in breaks or not it.reaches():
                continue
            if not breaks[it.pc]:
                certain = it.step
                break
            doubtful.append((it, breaks[it.pc]))
        return next(iter(holding(self.monitor, self.memory, doubtful)), certain)


def _may_poke(it: Made, one: Watched) -> bool:
    """Whether a step may have met a watchpoint of changes by a poke."""
    return one.point.kind is Kind.WRITE and "event" in it.items
