"""Random programs and events: what a program does matters less than that much happens in it."""
from __future__ import annotations

import random

STEPS = 300
DATA = 0x1000

_FORMS = (
    "add %{a}, {number}, %{b}",
    "subcc %{a}, %{b}, %{c}",
    "sll %{a}, {shift}, %{b}",
    "ld [%g1+{word}], %{a}",
    "ldub [%g1+{byte}], %{a}",
    "ldd [%g1+{double}], %{even}",
    "st %{a}, [%g1+{word}]",
    "stb %{a}, [%g1+{byte}]",
    "sth %{a}, [%g1+{byte}]",
    "std %{even}, [%g1+{double}]",
    "swap [%g1+{word}], %{a}",
    "ldstub [%g1+{byte}], %{a}",
    "b{condition} l{line}",
    "b{condition},a l{line}",
    "ld [%g7+{device}], %{a}",
    "st %{a}, [%g7+{device}]",
    "save %{a}, {number}, %{b}",
    "restore %{a}, {number}, %{b}",
    "ta {trap}",
    "mov {psr}, %psr",
    "rd %psr, %{a}",
    "lda [%g0]4, %{a}",
    ".word {any}",
)


def _line(choose: random.Random, lines: int) -> str:
    """A line of a program of so many lines."""
    registers = ("g2", "g3", "g4", "o0", "o1", "l0", "l1", "i0")
    return choose.choice(_FORMS).format(
        a=choose.choice(registers),
        b=choose.choice(registers),
        c=choose.choice(registers),
        even=choose.choice(("g2", "o0", "l0")),
        number=choose.randint(-200, 200),
        shift=choose.randint(0, 31),
        word=4 * choose.randint(0, 15),
        byte=choose.randint(0, 63),
        double=8 * choose.randint(0, 7),
        condition=choose.choice(("a", "ne", "e", "g", "le", "n")),
        line=choose.randrange(lines),
        device=choose.choice((0, 4, 8, 0x10, 0x14, 0x1C)),
        trap=choose.randint(0, 3),
        psr=choose.choice(("0xfa0", "0xf80", "0xa0", "0xaa0")),
        any=f"0x{choose.getrandbits(32):08x}",
    )


def program(choose: random.Random) -> list[str]:
    """The lines of a program: its handlers are jumps back into it, at the types that are likely."""
    count = choose.randint(12, 40)
    start = [
        "ba start",
        "nop",
        *[line for tt in (1, 2, 5, 6, 7, 9, 0x1A, 0x80, 0x81, 0x82, 0x83) for line in _handler(choose, tt, count)],
        ".org 0xa00",
        f"start: set 0x{DATA:x}, %g1",
        "set 0x80000000, %g7",
        f"mov {choose.choice((1, 2, 4, 128))}, %wim",
        f"mov {choose.choice(('0xfa0', '0xa0', '0xf80'))}, %psr",
    ]
    return start + [f"l{number}: {_line(choose, count)}" for number in range(count)] + ["ba l0", "nop"]


def _handler(choose: random.Random, tt: int, lines: int) -> list[str]:
    """The handler of a trap type."""
    ways = (["jmp %l2", "rett %l2+4"], ["jmp %l1", "rett %l2"], [f"ba l{choose.randrange(lines)}", "mov 0xfa0, %psr"])
    return [f".org 0x{16 * tt:x}", *choose.choice(ways)]


def event(choose: random.Random) -> str:
    """A command that puts something into the timeline."""
    step, address = choose.randrange(STEPS), DATA + choose.randrange(64)
    if choose.random() < 0.3:
        address = 0xA00 + choose.randrange(160)
    return choose.choice(
        (
            f"poke {step} {address & ~3:x} {choose.getrandbits(32):x}",
            f"pokeb {step} {address:x} {choose.getrandbits(8):x}",
            f"input {step} {choose.getrandbits(16):04x}",
            f"irq {step} {choose.randint(1, 15)}",
        )
    )


def entered(lines: list[str]) -> list[str]:
    """The command that enters a program into an empty source."""
    return [f"edit 1 0 {len(lines)}", *lines]
