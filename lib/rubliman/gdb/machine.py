"""What the monitor tells of the machine at a step, and of what a step did."""
from __future__ import annotations

from dataclasses import dataclass

from ..asking.monitor import Monitor

# Where, among the words of `regs`, the values of its last six lines stand, and how many.
_ROWS = ((18, 8), (27, 8), (36, 8), (45, 8), (54, 5), (60, 4))


@dataclass(frozen=True)
class Machine:
    """The machine in front of a step, as `regs` shows it."""

    step: int
    is_running: bool
    pc: int
    npc: int
    annul: bool
    psr: int
    wim: int
    tbr: int
    y: int
    # Globals, outs, locals and ins of the current window.
    registers: tuple[int, ...]
    # Control, context table pointer, context, fault status, fault address.
    mmu: tuple[int, ...]
    # Timer, reload, pending levels, bytes that wait.
    devices: tuple[int, ...]

    @staticmethod
    def at(monitor: Monitor, step: int) -> Machine:
        """The machine at a step."""
        return Machine.of(monitor.ask(f"regs {step}"))

    @staticmethod
    def of(lines: list[str]) -> Machine:
        """What the lines of `regs` say."""
        words = " ".join(lines).split()
        *windows, mmu, devices = (tuple([int(it, 16) for it in words[at : at + size]]) for at, size in _ROWS)
        return Machine(
            step=int(words[1]),
            is_running=words[2] == "run",
            pc=int(words[4], 16),
            npc=int(words[6], 16),
            annul=words[8] == "1",
            psr=int(words[10], 16),
            wim=int(words[12], 16),
            tbr=int(words[14], 16),
            y=int(words[16], 16),
            registers=sum(windows, ()),
            mmu=mmu,
            devices=devices,
        )


@dataclass(frozen=True)
class Made:
    """What a step did, as a line of `steps` tells it."""

    step: int
    pc: int
    what: str
    trap: int | None
    # What stands behind: `load`, `store`, `swap`, `in`, `out`, `timer`, `event`, each with its words.
    items: dict[str, list[str]]

    @staticmethod
    def of(line: str) -> Made:
        """What a line says."""
        step, pc, _, _, what, *rest = line.split()
        trap = int(rest.pop(0), 16) if what in ("trap", "error") else None
        items: dict[str, list[str]] = {}
        words: list[str] = []
        for word in rest:
            if word in _ITEMS:
                words = items[word] = []
            else:
                words.append(word)
        return Made(int(step), int(pc, 16), what, trap, items)

    def is_interrupt(self) -> bool:
        """Whether it took an interrupt, and so carried out no instruction."""
        return self.trap is not None and 0x10 < self.trap < 0x20

    def reaches(self) -> bool:
        """Whether the instruction at PC was carried out, or trapped itself."""
        return self.what == "run" or (self.trap is not None and not self.is_interrupt())

    def put_out(self) -> bytes:
        """The byte that it put out at the console, if it did."""
        return bytes.fromhex("".join(self.items.get("out", [])))


_ITEMS = frozenset(("load", "store", "swap", "in", "out", "timer", "event"))


def made(monitor: Monitor, first: int, last: int, count: int, conditions: str = "") -> list[Made]:
    """Steps that meet a condition, rising from the first one or falling from below it."""
    return [Made.of(line) for line in monitor.ask(f"steps {first} {last} {count} {conditions}".rstrip())]
