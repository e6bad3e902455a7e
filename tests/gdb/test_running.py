"""Searches for the next stop, against a look at each step, on the random scripts of the monitor's tests."""
from __future__ import annotations

import contextlib
import io
import os
import random
import re
import unittest
from collections.abc import Iterator
from pathlib import Path

from rubliman.gdb.machine import Made, made
from rubliman.gdb.memory import Memory, Unreadable
from rubliman.asking.monitor import Monitor, Refused
from rubliman.gdb.points import Points
from rubliman.gdb.running import Runner
from rubliman.gdb.serving import enter

from gdb.support import TOP, program

CASES = sorted((TOP / "tests/monitor/cases").glob("*.txt"))
STEPS, SEARCHES = 150, 12


class Watch:
    """A watchpoint: its kind as in a packet, its address and its size."""

    def __init__(self, kind: int, address: int, size: int) -> None:
        self.kind, self.address, self.size = kind, address, size

    def packet(self) -> str:
        """What sets it."""
        return f"Z{self.kind},{self.address:x},{self.size:x}"


class Machine:
    """A script's machine, and the stub's search on it."""

    def __init__(self, case: Path) -> None:
        windows = re.search(r"-w(\d+)$", case.stem)
        assert windows is not None
        self.monitor = Monitor(program(), windows[1])
        with contextlib.redirect_stderr(io.StringIO()):
            enter(self.monitor, str(case))
        self.memory, self.points = Memory(self.monitor), Points()
        self.runner = Runner(self.monitor, self.memory, self.points, lambda: False)
        self.steps = made(self.monitor, 0, STEPS, STEPS)

    def seen(self, step: int, watch: Watch) -> bytes | None:
        """What GDB sees of a watchpoint."""
        try:
            return self.memory.read(step, watch.address, watch.size)
        except Unreadable:
            return None

    def accesses(self, it: Made, watch: Watch) -> bool:
        """Whether a step loads, or stores where that is watched too, a byte of a watchpoint."""
        names = ("load", "store")[: watch.kind - 2]
        try:
            pieces = list(self.memory.pieces(it.step, watch.address, watch.size))
            conditions = " ".join(f"{name} {at:x} {size}" for at, size in pieces for name in names)
            return bool(made(self.monitor, it.step, it.step + 1, 1, conditions))
        except (Unreadable, Refused):
            return False

    def meets(self, it: Made, watch: Watch | None) -> bool:
        """Whether something is to be told of a step, for a watchpoint or as it is to be caught."""
        if watch is not None and watch.kind == 2 and self.seen(it.step, watch) != self.seen(it.step + 1, watch):
            return True
        return (watch is not None and watch.kind > 2 and self.accesses(it, watch)) or self.runner.catches.takes(it)

    def due(self, start: int, is_forward: bool, breaks: list[int], watch: Watch | None) -> int:
        """The step at which the machine is to stop."""

        def is_break(step: int) -> bool:
            return step < STEPS and self.steps[step].pc in breaks and self.steps[step].reaches()

        if not is_forward:
            for it in reversed(self.steps[:start]):
                if is_break(it.step) or self.meets(it, watch):
                    return it.step
            return 0
        if self.steps[start].what == "stop":
            return start
        for it in self.steps[start:]:
            if self.meets(it, watch) or it.what == "error" or is_break(it.step + 1):
                return it.step + 1
        return STEPS

    def found(self, start: int, is_forward: bool, breaks: list[int], watch: Watch | None) -> int:
        """Where the search stops. GDB goes on where a watched value is the old one, but for a breakpoint."""
        at = start
        while True:
            stop = self.runner.forward(at, STEPS, False) if is_forward else self.runner.back(at)
            is_same = watch is not None and self.seen(at, watch) == self.seen(stop.step, watch)
            here = self.steps[stop.step].pc if stop.step < STEPS else -1
            if not stop.reason.startswith("watch:") or not is_same or here in breaks:
                return stop.step
            at = stop.step


def watches(choose: random.Random, steps: list[Made]) -> Iterator[Watch]:
    """Watchpoints at what is loaded and stored, and elsewhere."""
    places = [int(words[0], 16) for it in steps for words in it.items.values() if len(words) == 2] or [0]
    while True:
        address = choose.choice([choose.choice(places), choose.randrange(0, 0x3000)])
        yield Watch(choose.choice((2, 2, 3, 4)), address, choose.choice((1, 2, 4, 8, 40)))


class Searches(unittest.TestCase):
    """Random breakpoints, watchpoints and catches, both ways."""

    def test_against_a_look_at_each_step(self) -> None:
        seed = int.from_bytes(os.urandom(4), "big")
        choose = random.Random(seed)
        for case in choose.sample(CASES, 4):
            machine = Machine(case)
            with contextlib.closing(machine.monitor):
                chosen = watches(choose, machine.steps)
                for _ in range(SEARCHES):
                    breaks = choose.sample([it.pc for it in machine.steps], choose.randrange(3))
                    watch = next(chosen) if choose.random() < 0.7 else None
                    machine.runner.catches.traps = choose.choice([None, frozenset(), frozenset(), frozenset({5, 9})])
                    machine.points.clear()
                    for packet in [*(f"Z0,{it:x},4" for it in breaks), *([watch.packet()] if watch else [])]:
                        machine.points.take(packet)
                    question = (choose.randrange(STEPS), choose.random() < 0.5, breaks, watch)
                    with self.subTest(seed=seed, case=case.name, question=question[:3], watch=watch and watch.packet()):
                        self.assertEqual(machine.found(*question), machine.due(*question))


if __name__ == "__main__":
    unittest.main()
