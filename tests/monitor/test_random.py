"""Random programs: each question's answers agree with what the workbench's own queries show at each step."""
from __future__ import annotations

import random
import re
import unittest
from dataclasses import dataclass, field

from monitor.programs import DATA, STEPS, entered, event, program
from monitor.support import answers

SEEDS = range(24)
WORDS = 4096 // 4


def asked(script: list[str], windows: int) -> list[list[str]]:
    """The answers to commands but for `quit`, each without its last line, which has to be `ok`."""
    found: list[list[str]] = [[]]
    for line in answers("\n".join([*script, "quit", ""]).encode(), windows).decode().splitlines():
        if line == "ok":
            found.append([])
        elif line.startswith("refused"):
            raise AssertionError(line)
        else:
            found[-1].append(line)
    return found[:-2]


@dataclass
class Told:
    """A step's line, taken apart."""

    line: str
    step: int = field(init=False)
    pc: str = field(init=False)
    what: str = field(init=False)
    tt: int | None = field(init=False)
    items: dict[str, list[str]] = field(init=False)

    def __post_init__(self) -> None:
        words = self.line.split(" ")
        self.step, self.pc, self.what = int(words[0]), words[1], words[4]
        rest = words[5:]
        self.tt = int(rest.pop(0), 16) if self.what in ("trap", "error") else None
        self.items = {}
        while rest:
            name, takes = rest[0], {"load": 2, "store": 2, "swap": 2, "in": 1, "out": 1}.get(rest[0], 0)
            self.items[name], rest = rest[1 : 1 + takes], rest[1 + takes :]

    def is_interrupt(self) -> bool:
        return self.tt is not None and 0x10 < self.tt < 0x20

    def address(self, name: str) -> int | None:
        """The physical address of an access of that name, if the step has one."""
        return int(self.items[name][1], 16) if name in self.items else None


class Questions(unittest.TestCase):
    """Programs of random instructions, with random events."""

    def each(self, check: object) -> None:
        for seed in SEEDS:
            with self.subTest(seed=seed):
                choose = random.Random(seed)
                check(choose, choose.choice((2, 8, 32)))  # type: ignore[operator]

    def script(self, choose: random.Random) -> list[str]:
        return entered(program(choose)) + [event(choose) for _ in range(choose.randrange(6))]

    def test_each_step_is_told_as_regs_shows_it(self) -> None:
        self.each(self.check_steps)

    def check_steps(self, choose: random.Random, windows: int) -> None:
        script = self.script(choose)
        before = asked(script, windows)
        found = asked([*script, f"steps 0 {STEPS} {STEPS}", *[f"regs {n}" for n in range(STEPS + 1)]], windows)
        told, shown = [Told(it) for it in found[len(before)]], found[len(before) + 1 :]
        self.assertEqual([it.step for it in told], list(range(STEPS)))
        for it, now, then in zip(told, shown, shown[1:]):
            running, runs = (lines[0].endswith(" run") for lines in (now, then))
            self.assertEqual(it.pc, now[1].split()[1], it.line)
            self.assertEqual(it.what == "stop", not running, it.line)
            self.assertEqual(it.what == "error", running and not runs, it.line)
            if it.what in ("annul", "run"):
                self.assertEqual(it.what == "annul", now[1].endswith("annul 1"), it.line)
            if it.what == "trap":
                self.assertEqual(int(then[2].split()[5], 16) >> 4 & 0xFF, it.tt, it.line)

    def test_conditions_choose_among_all_steps(self) -> None:
        self.each(self.check_conditions)

    def check_conditions(self, choose: random.Random, windows: int) -> None:
        script = self.script(choose)
        first, last = sorted(choose.choices(range(STEPS), k=2))
        address, count = DATA + choose.randrange(64), choose.randint(1, 16)
        pc = f"{0xA00 + 4 * choose.randrange(40):08X}"
        conditions = {
            f"pc {pc}": lambda it: it.pc == pc and (it.what == "run" or it.tt is not None and not it.is_interrupt()),
            "trap": lambda it: it.tt is not None,
            "tt 1a": lambda it: it.tt == 0x1A,
            "tt 81": lambda it: it.tt == 0x81,
            "error": lambda it: it.what == "error",
            "in": lambda it: "in" in it.items,
            "out": lambda it: "out" in it.items,
            "event": lambda it: "event" in it.items,
            "every 7": lambda it: it.step % 7 == 0,
        }
        chosen = choose.sample(sorted(conditions), 3)
        changed = f"change {address:x} {count}"
        questions = [
            f"steps {first} {last} {STEPS}",
            *[f"steps {first} {last} {STEPS} {it}" for it in conditions],
            f"steps {last} {first} {STEPS} {' '.join(chosen)}",
            f"steps {last} {first} 2 {' '.join(chosen)}",
            f"steps {first} {last} {STEPS} {changed}",
            *[f"mem {n} {DATA:x} 20" for n in range(first, last + 1)],
        ]
        found = asked([*script, *questions], windows)[-len(questions) :]
        told = [Told(it) for it in found[0]]
        for (name, meets), lines in zip(conditions.items(), found[1:]):
            self.assertEqual(lines, [it.line for it in told if meets(it)], name)
        falling = [it.line for it in reversed(told) if any(conditions[name](it) for name in chosen)]
        at = 1 + len(conditions)
        self.assertEqual(found[at], falling, chosen)
        self.assertEqual(found[at + 1], falling[:2], chosen)
        dumps = ["".join(line.split()[1] for line in lines) for lines in found[at + 3 :]]
        begin = 2 * (address - DATA)
        bytes_of = [it[begin : begin + 2 * count] for it in dumps]
        due = [it.line for it, now, then in zip(told, bytes_of, bytes_of[1:]) if now != then]
        self.assertEqual(found[at + 2], due, changed)

    def test_accesses_choose_among_all_steps(self) -> None:
        self.each(self.check_accesses)

    def check_accesses(self, choose: random.Random, windows: int) -> None:
        script = self.script(choose)
        address, count = DATA + choose.randrange(64), choose.randint(1, 16)
        conditions = [f"{it} {address:x} {count}" for it in ("load", "store")]
        questions = [f"steps 0 {STEPS} {STEPS}", *[f"steps 0 {STEPS} {STEPS} {it}" for it in conditions]]
        found = asked([*script, *questions], windows)[-3:]
        told = [Told(it) for it in found[0]]
        for kind, lines in zip(("load", "store"), found[1:]):
            wanted = range(address, address + count)
            sure = [it.line for it in told if any(it.address(name) in wanted for name in (kind, "swap"))]
            self.assertLessEqual(set(sure), set(lines), kind)
            for line in lines:
                it = Told(line)
                at = [int(it.items[name][1], 16) for name in (kind, "swap") if name in it.items]
                self.assertTrue(at and address - 7 <= at[0] < address + count, line)

    def test_where_both_part_and_how_memory_differs(self) -> None:
        self.each(self.check_before)

    def check_before(self, choose: random.Random, windows: int) -> None:
        script = self.script(choose)
        changes = [event(choose) for _ in range(choose.randint(0, 2))]
        first, last = sorted(choose.choices(range(STEPS), k=2))
        steps = [f"regs {n}" for n in range(first, last + 1)]
        rings = [f"windows {n}" for n in range(first, last + 1)]
        one, other = choose.choices(range(STEPS), k=2)
        memory = [f"mem {one} 0 {WORDS * 2}", f"before mem {other} 0 {WORDS * 2}"]
        both = [*steps, *rings, *[f"before {it}" for it in steps + rings]]
        questions = [f"part {first} {last}", *both, f"differ {one} {other} 9999", *memory]
        found = asked([*script, "keep", *changes, *questions], windows)[-len(questions) :]
        count = last - first + 1
        now, before = found[1 : 1 + 2 * count], found[1 + 2 * count : 1 + 4 * count]
        differs = [n for n in range(count) if processor(now, n, count) != processor(before, n, count)]
        self.assertEqual(found[0], [f"step {first + differs[0]}"] if differs else [])
        words_now, words_before = ([line.split() for line in lines] for lines in found[-2:])
        due = [f"{a} {old} {new}" for (a, new), (_, old) in zip(words_now, words_before) if new != old]
        self.assertEqual([line for line in found[-3] if int(line[:8], 16) < 4 * 2 * WORDS], due)


def processor(shown: list[list[str]], n: int, count: int) -> list[str]:
    """What `regs` and `windows` show of a step's processor: all but the step and the devices."""
    regs, windows = shown[n], shown[count + n]
    return [re.sub(r"^step \d+ ", "", regs[0]), *regs[1:-1], *windows]


if __name__ == "__main__":
    unittest.main()
