"""How long proving takes: each crate behind those that it stands on, as many side by side as there are processors."""
from __future__ import annotations

import heapq
import re
from collections.abc import Iterable, Mapping, Sequence
from dataclasses import dataclass

from .sources import Sources

# A row of the table in docs/PROVING.md: the crate, and the processor minutes of its proof, of its tests, and, behind
# those of the must-fail edits, of the rest, which is the building of a program.
_ROW = re.compile(r"\| `(\w+)` \| ([0-9.]+) \| ([0-9.]+) \|(?: [0-9.]+ \| ([0-9.]+) \|)?")
# How much faster a crate is proved by so many jobs than by one.
_SPEED = (0.0, 1.0, 1.5, 1.9, 2.2)


@dataclass(frozen=True)
class Task:
    """A proof of a crate or of its tests: what it waits for, and the processor minutes that it takes."""

    crate: str
    of_tests: bool
    below: tuple[str, ...]
    minutes: float


def minutes_of(page: str) -> dict[str, tuple[float, float]]:
    """The processor minutes of each crate's proof and building, and of its tests, that the page on proving tells."""
    return {name: (float(proof) + float(rest or 0), float(tests)) for name, proof, tests, rest in _ROW.findall(page)}


def tasks_of(sources: Sources, page: str) -> list[Task]:
    """What there is to prove, lowest crate first. A crate that the page does not name goes by its lines."""
    told = minutes_of(page)
    lines = {it.name: sources.lines(it.name) for it in sources.crates}
    known = [name for name in lines if name in told]
    a_line = sum(told[it][0] for it in known) / max(sum(lines[it] for it in known), 1) or 0.001
    tasks = []
    for crate in sources.crates:
        proof, tests = told.get(crate.name, (a_line * lines[crate.name], 0.0))
        below = tuple(it for it in crate.uses if it in lines)
        tasks.append(Task(crate.name, False, below, proof))
        if tests:
            tasks.append(Task(crate.name, True, below, tests))
    return tasks


def longest_first(ways: Mapping[str, float]) -> list[str]:
    """The crates, those with the longest way first."""
    return sorted(ways, key=lambda it: -ways[it])


def speed(jobs: int) -> float:
    """How much faster a crate is proved by so many jobs than by one."""
    return _SPEED[min(jobs, len(_SPEED) - 1)]


def minutes_left(tasks: Iterable[Task], proved: Iterable[str], cores: int, lanes: int = 0) -> float:
    """The minutes by the clock from where these crates are proved, the longest way first.

    In lanes each crate has half of the processors, and four at most; with none, those that no other crate waits for.
    """
    done = set(proved)
    left = [it for it in tasks if it.crate not in done]
    behind = ways_above(left)
    left.sort(key=lambda it: (it.of_tests, -behind[it.crate]))
    running: list[tuple[float, int, Task, int]] = []
    now, number = 0.0, 0
    while left or running:
        ready = [it for it in left if done.issuperset(it.below)]
        for at, task in enumerate(ready):
            idle = cores - sum(it[3] for it in running)
            if idle < 1 or 0 < lanes <= len(running):
                break
            jobs = max(1, min(4, cores // 2 if lanes else idle // (len(ready) - at)))
            left.remove(task)
            number += 1
            heapq.heappush(running, (now + task.minutes / _SPEED[jobs], number, task, jobs))
        if not running:
            break
        now, _, ended, _ = heapq.heappop(running)
        if not ended.of_tests:
            done.add(ended.crate)
    return now


def ways_above(tasks: Sequence[Task]) -> Mapping[str, float]:
    """For each crate, the minutes of the longest way from it up to the last that stands on it."""
    ways: dict[str, float] = {it.crate: 0.0 for it in tasks}
    above: dict[str, float] = {}
    for task in reversed(tasks):
        way = above.get(task.crate, 0.0) + (0.0 if task.of_tests else task.minutes)
        ways[task.crate] = max(ways[task.crate], way)
        if not task.of_tests:
            for it in task.below:
                above[it] = max(above.get(it, 0.0), way)
    return ways
