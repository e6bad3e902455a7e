"""Stops of the machine: as packets, and in words for the user."""
from __future__ import annotations

from dataclasses import dataclass

from .machine import Made

TRAPPED, INTERRUPTED, ABORTED = 5, 2, 6
_NAMES = {
    0x01: "instruction_access_exception",
    0x02: "illegal_instruction",
    0x03: "privileged_instruction",
    0x04: "fp_disabled",
    0x05: "window_overflow",
    0x06: "window_underflow",
    0x07: "mem_address_not_aligned",
    0x09: "data_access_exception",
    0x0A: "tag_overflow",
    0x24: "cp_disabled",
    0x2A: "division_by_zero",
}


@dataclass(frozen=True)
class Stop:
    """Where the machine stops: the step, the signal, the reason as a packet has it, and what the user is told."""

    step: int
    signal: int = TRAPPED
    reason: str = ""
    said: str = ""

    def packet(self) -> str:
        """As a packet."""
        return f"T{self.signal:02x}{self.reason}thread:1;"


def broken(step: int) -> Stop:
    """At a breakpoint."""
    return Stop(step, reason="swbreak:;")


def begun() -> Stop:
    """At the first step, where nothing more is to be undone."""
    return Stop(0, reason="replaylog:begin;")


def ended(end: int) -> Stop:
    """At the end of time. GDB is told of an interrupt: it takes an end of the replay log for no end of a step over a
    breakpoint, and waits for good at the next resumption."""
    return Stop(end, INTERRUPTED, said=f"step {end} is the end of time\n")


def interrupted(step: int) -> Stop:
    """By Ctrl-C."""
    return Stop(step, INTERRUPTED)


def dead(step: int) -> Stop:
    """Where the machine stands still."""
    return Stop(step, ABORTED, said="the machine is in error mode\n")


def failed(it: Made) -> Stop:
    """Behind the step that led to error mode."""
    return Stop(it.step + 1, ABORTED, said=f"{_trap(it)}: traps are disabled, and the machine is in error mode\n")


def caught(it: Made, step: int) -> Stop:
    """At a trap, an interrupt or an output that is to be caught. An interrupt is what GDB tells in each case, also
    while it steps over a breakpoint."""
    said = f"step {it.step} puts out {it.put_out().hex().upper()}" if it.trap is None else _trap(it)
    return Stop(step, INTERRUPTED, said=f"{said}\n")


def _trap(it: Made) -> str:
    """A trap in words."""
    trap = it.trap or 0
    name = _NAMES.get(trap, "")
    if it.is_interrupt():
        name = f"interrupt level {trap - 0x10}"
    elif trap >= 0x80:
        name = f"trap instruction {trap - 0x80}"
    return f"step {it.step}: trap {trap:02X} {name}".rstrip() + f", PC {it.pc:08X}"
