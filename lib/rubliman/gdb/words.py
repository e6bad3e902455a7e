"""The user's commands behind `monitor`: those of the stub, and all of the monitor's own."""
from __future__ import annotations

import re
from collections.abc import Callable
from dataclasses import dataclass, field

from ..asking.monitor import CHANGES, LAST_STEP, MOST_LINES, Monitor, Refused
from ..asking.script import lines_behind
from .machine import Machine
from .memory import Memory
from .running import Catches

HELP = """goto N, goto +N, goto -N   go to a step
onestep                    one step of the machine on, into traps and annulled slots too
step                       tells the step
end N                      the end of time, at most 1,000,000
catch all|none|TT ..       stop behind each trap and interrupt, behind none, or behind those of these types
catch out|noout            stop behind each step that puts a byte out, or not
physical on|off            addresses are those of RAM, or the program's
windows on|off             memory shows register windows as if they were saved
console on|off             what the program puts out is shown
part, differ               the first step at which now and before differ; the words of RAM that differ at this step
Any other line is the monitor's: edits (edit A B COUNT, and then its lines, each behind `monitor`), poke, pokeb, input,
irq and what clears them, list, regs, mem, out, steps, windows, where, names, events, keep, before, part, differ.
A word `.` is the present step.
"""
_TYPE = "[0-9a-fA-F]{1,2}"
_SHOWN_WORDS = 20


@dataclass
class Place:
    """Where the session stands."""

    step: int = 0
    end: int = 100_000
    # The present machine is another one than GDB knows. It asks anew when it is told of a stop.
    is_moved: bool = False
    shows_console: bool = True
    shows_windows: bool = False

    def go(self, step: int) -> None:
        """Goes to a step, of which GDB is told."""
        self.step, self.is_moved = step, False


@dataclass
class Words:
    """Answers the user's commands."""

    monitor: Monitor
    memory: Memory
    catches: Catches
    place: Place
    # To be called where the source is another one.
    on_edit: Callable[[], None]
    # An edit and the lines that have come for it, and how many are still to come.
    _taken: list[str] = field(default_factory=list)
    _wanted: int = 0

    def __post_init__(self) -> None:
        self._own: dict[str, Callable[..., str]] = {
            "": lambda: "",
            "help": lambda: HELP,
            "step": self._told_step,
            "goto ([+-]?)([0-9]{1,7})": self._go,
            "goto.*": self._stay,
            "onestep": lambda: self._go("+", "1"),
            "end ([0-9]{1,7})": self._end,
            "catch (out|noout)": self._catch_output,
            f"catch (all|none|{_TYPE}(?: {_TYPE})*)": self._catch_traps,
            "(physical|windows|console) (on|off)": self._switch,
            "part": self._part,
            "differ": self._differ,
            "quit": lambda: "quit is GDB's\n",
        }

    def answer(self, line: str) -> str:
        """What the user is told."""
        line = line.replace("\n", " ")
        if self._wanted:
            return self._take(line)
        text = re.sub(r"(?<= )\.(?= |$)", str(self.place.step), " ".join(line.split()))
        for pattern, does in self._own.items():
            match = re.fullmatch(pattern, text)
            if match is not None:
                return does(*match.groups())
        wanted = lines_behind(text)
        if wanted > MOST_LINES:
            return "refused 3 TooManyLines\n"
        if wanted:
            self._taken, self._wanted = [text], wanted
            return f"lines to follow, each behind `monitor`: {wanted}\n"
        return self._ask(text)

    # ---- where to go, and what to stop at

    def _told_step(self) -> str:
        return f"step {self.place.step} of {self.place.end}\n"

    def _go(self, sign: str, number: str) -> str:
        """Goes to a step. GDB shows it when the machine is resumed, which then goes nowhere."""
        step = int(f"{sign}{number}") + (self.place.step if sign else 0)
        if not 0 <= step <= self.place.end:
            return self._stay()
        self.place.step, self.place.is_moved = step, True
        return ""

    def _stay(self) -> str:
        """Goes nowhere, and neither does the resumption that is to show where."""
        self.place.is_moved = True
        return f"goto N, goto +N or goto -N: steps are from 0 to {self.place.end}\n"

    def _end(self, number: str) -> str:
        """Sets the end of time, which is not below the present step."""
        self.place.end = max(self.place.step, min(int(number), LAST_STEP))
        return self._told_step()

    def _catch_output(self, what: str) -> str:
        self.catches.output = what == "out"
        return ""

    def _catch_traps(self, what: str) -> str:
        types = [] if what in ("all", "none") else what.split()
        self.catches.traps = None if what == "all" else frozenset(int(it, 16) for it in types)
        return ""

    def _switch(self, what: str, value: str) -> str:
        is_on = value == "on"
        if what == "physical":
            self.memory.is_physical = is_on
        elif what == "windows":
            self.place.shows_windows = is_on
        else:
            self.place.shows_console = is_on
        return ""

    # ---- what a change changed

    def _part(self) -> str:
        """The first step at which now and before differ."""
        end = self.place.end
        return self._ask(f"part 0 {end}") or f"now and before are the same machine up to step {end}\n"

    def _differ(self) -> str:
        """The words of RAM that differ here."""
        step = self.place.step
        return self._ask(f"differ {step} {step} {_SHOWN_WORDS}") or f"no word of RAM differs at step {step}\n"

    # ---- the monitor's

    def _take(self, line: str) -> str:
        """One more line of an edit. The last one has it made."""
        self._taken.append(line)
        self._wanted -= 1
        return "" if self._wanted else self._ask("\n".join(self._taken))

    def _ask(self, command: str) -> str:
        """The monitor's answer, and a word on it where the present machine is another one now."""
        name = command.split(" ", 1)[0]
        try:
            before = self._machine() if name in CHANGES else None
            lines = self.monitor.ask(command)
        except Refused as refused:
            return f"{refused}\n"
        said = "".join(f"{line}\n" for line in lines)
        if name not in CHANGES:
            return said
        if name == "edit":
            self.on_edit()
        if self._machine() == before:
            return said
        self.place.is_moved = True
        return f"{said}step {self.place.step} is another one now; GDB shows it when the machine is resumed\n"

    def _machine(self) -> Machine:
        return Machine.at(self.monitor, self.place.step)
