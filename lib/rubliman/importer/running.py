"""Runs an imported program, and finds where it ends."""
from __future__ import annotations

from dataclasses import dataclass

from .imported import Imported
from .limits import MOST_STEPS
from .problem import counted
from .workbench import State, Workbench

HALT = "_halt"
"""The name of the place of the runtime at which a program ends, with its status in the first out register."""


@dataclass(frozen=True)
class Ending:
    """What a program has put out, and how it stands at the end of the run."""

    output: bytes
    state: State
    status: int | None
    """What it ended with, where it did so as the runtime has it."""


def run_program(workbench: Workbench, imported: Imported, steps: int = MOST_STEPS) -> Ending:
    """Runs a program that the workbench was given, for so many steps at the most."""
    output = workbench.output(steps)
    state = workbench.state(steps)
    if state.is_running:
        return Ending(output, state, None)
    ended = any(it.name == HALT and it.address == state.pc for it in imported.program.symbols)
    return Ending(output, _first_stopped(workbench, state), state.first_out if ended else None)


def told(ending: Ending, imported: Imported) -> str:
    """One line on the ending."""
    steps = counted(ending.state.step, "step")
    if ending.status is not None:
        return f"ended after {steps} with status {ending.status}"
    place = imported.place(ending.state.pc)
    if ending.state.is_running:
        return f"still runs after {steps}, at {place}"
    return f"stopped in error mode after {steps}, at {place}"


def _first_stopped(workbench: Workbench, state: State) -> State:
    """The first step at which the machine no longer runs."""
    low, high = 0, state
    while high.step - low > 1:
        middle = workbench.state((low + high.step) // 2)
        if middle.is_running:
            low = middle.step
        else:
            high = middle
    return high
