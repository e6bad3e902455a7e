"""Scripts: what is saved runs without a refusal, and opens as it was; the page answers as the program does."""
from __future__ import annotations

import os
import re
import time
from pathlib import Path

from page.support import CASES, SITE, InBrowser, answers, program

# The guide's script of each example.
GUIDE = {
    "boot": "examples-boot-w8",
    "page-tables": "examples-page-tables-w8",
    "console": "examples-console-echo-w8",
    "timer": "examples-timer-interrupt-w8",
    "window-overflow": "examples-window-overflow-w4",
    "user-mode": "examples-user-mode-w8",
}
# Scripts of the gate that end with a question of registers or ask one near their ends; a sample of each kind.
GATE = "arith-01 windows-01 devices-01 mmu-01 asm-01 edits-01 pokes-01 mixed-01 mixed-02".split()


def source(script: str) -> list[str]:
    """The lines of a script's first edit."""
    lines = script.split("\n")
    return lines[1 : 1 + int(lines[0].split()[3])]


def is_refused(words: list[str], script: str) -> list[str]:
    """What a program refuses of a script."""
    return [it[-1] for it in answers(words, script) if it[-1] != "ok"]


class Scripts(InBrowser):
    """Scripts that are opened and saved."""

    def saved(self) -> str:
        """The script that the page saves."""
        folder = Path(self.page.folder, "downloads")
        for it in folder.glob("*.txt"):
            it.unlink()
        self.page.driver.execute_cdp_cmd(
            "Browser.setDownloadBehavior", {"behavior": "allow", "downloadPath": str(folder)}
        )
        self.page.keys("Ctrl+s")
        end = time.monotonic() + 30
        while not (found := list(folder.glob("*.txt"))) and time.monotonic() < end:
            time.sleep(0.05)
        time.sleep(0.1)
        self.assertIn("Saved as", self.page.text("#status"))
        return found[0].read_text(encoding="utf-8")

    def test_examples_are_the_guides_and_run(self) -> None:
        self.page.keys("b")
        self.assertEqual([it.get_attribute("data-example") for it in self.page.all(".example")], list(GUIDE))
        for name, case in GUIDE.items():
            with self.subTest(name=name):
                script = (SITE / f"examples/{name}.txt").read_text(encoding="ascii")
                self.assertEqual(source(script), source((CASES / f"{case}.txt").read_text(encoding="ascii")))
                windows = case.rsplit("-w", 1)[1]
                for it in (os.environ["SPARC8"], program()):
                    self.assertEqual(is_refused([it, "--windows", windows], script), [])
        self.page.keys("Escape")
        for name in GUIDE:
            self.page.example(name)
            count = len(self.page.what_ifs())
            self.assertGreaterEqual(count, 2, name)
            for number in range(1, count + 1):
                self.page.keys(str(number))
                self.assertTrue(self.page.what_ifs()[number - 1])
                self.assert_verdict("step ")
            self.page.keys("x")

    def shown(self) -> list[object]:
        """The what-ifs, the first step that differs, the outputs and the lines."""
        page = self.page
        return [
            page.texts("#list li"),
            page.what_ifs(),
            page.text("#first"),
            page.text("#outputs"),
            page.text("#lines"),
        ]

    def test_what_is_saved_opens_as_it_was(self) -> None:
        page = self.page
        page.example("console")
        page.keys("4")
        page.go(30)
        page.press("i")
        page.type("!")
        page.keys("Enter")
        page.mark(5)
        page.press("Enter")
        page.type("        nop")
        page.press("Shift+Enter")
        page.driver.switch_to.active_element.send_keys("        nop")
        page.keys("Ctrl+Enter")
        page.edit(8, "! the end", "o")
        page.look_up("400")
        page.press("m")
        page.type("12345678")
        page.keys("Enter")
        shown = self.shown()
        script = self.saved()
        for it in (os.environ["SPARC8"], program()):
            self.assertEqual(is_refused([it, "--windows", "8"], script), [])
        told = answers([os.environ["SPARC8"], "--windows", "8"], script)[-1]
        self.assertEqual(told[0], "step 30 run")
        row = [word for it in told if it[0] in "goli" for word in it.split()[1:]]
        self.assertEqual(page.registers(), row, "its last answer is what is shown")
        page.example("boot")
        self.assertIsNone(page.open_text(script, "again.txt"))
        page.go(30)
        self.assertEqual(self.shown(), shown)
        self.assertEqual(self.saved(), script)

    def test_a_what_if_that_stands_on_another_one(self) -> None:
        page = self.page
        page.edit(9, "far:    nop", "o")
        page.edit(7, "end:    ba      far")
        self.assertEqual(page.what_ifs(), [False] * 4 + [True, True])
        script = self.saved()
        self.assertEqual(is_refused([os.environ["SPARC8"], "--windows", "8"], script), [])
        self.assertIsNone(page.open_text(script))
        self.assertEqual(page.text("#source-count"), "14 lines", "what is on is there")
        self.assertIn("ba far", page.text("#lines"))

    def test_the_page_answers_as_the_gates_scripts_are_due(self) -> None:
        page, compared = self.page, 0
        for name in GATE:
            found = sorted(CASES.glob(f"{name}-w*.txt"))
            self.assertTrue(found, name)
            case = found[0]
            windows = case.stem.rsplit("-w", 1)[1]
            script = case.read_text(encoding="ascii")
            lines, changes = case.with_suffix(".answer").read_text(encoding="ascii"), r"(?m)^(?:ok|refused .*)\n"
            told = re.split(changes, lines)
            step, answer = last_registers(script, told)
            with self.subTest(name=name):
                self.assertIsNone(
                    page.open_text(script[: script.rfind(f"regs {step}\n")] + f"regs {step}\n", name, windows)
                )
                page.go(step)
                self.assertEqual(
                    page.registers(), [word for it in answer if it[0] in "goli" for word in it.split()[1:]]
                )
                state = page.text("#special")
                for value in answer[1].split()[1:4:2] + answer[2].split()[1::2]:
                    self.assertIn(value, state)
                compared += 1
        self.assertEqual(compared, len(GATE))


def last_registers(script: str, told: list[str]) -> tuple[int, list[str]]:
    """The step of the last question of registers that is answered, and its answer."""
    lines, at, number, found = script.split("\n"), 0, 0, (0, [""])
    while at < len(lines) and number < len(told):
        words = lines[at].split()
        edit = re.fullmatch(r"\s*edit\s+\d{1,10}\s+\d{1,10}\s+(\d{1,10})\s*", lines[at])
        if words[:1] == ["regs"] and told[number].startswith("step "):
            found = (int(words[1]), told[number].splitlines())
        if words == ["quit"]:
            break
        number += bool(words)
        at += 1 + (int(edit[1]) if edit else 0)
    return found


class Models(InBrowser):
    """The parts of the page that hold what stands on it, by values worked out by hand."""

    def test_commands_between(self) -> None:
        found = self.page.asked(
            """
            const places = await import("/places.js");
            const { Past, editedLines } = await import("/past.js");
            const past = new Past(["a", "b", "c", "d"], new Map([["poke 5 00000100", "11223344"], ["input 3", "41"]]));
            const said = (from, to) => places.commandsBetween(new Map(from), new Map(to), past).map((it) => it.command);
            return [
              said([], [["line 2", ["B"]], ["line 4", []]]),
              said([["line 0", ["x", "y"]], ["line 3", []]], [["line 3", ["c", "C"]]]),
              said([], [["poke 5 00000100", "11--3344"], ["input 3", null], ["irq 7 15", ""]]),
              said([["poke 5 00000100", null]], [["poke 5 00000100", "--AABB--"]]),
              said([["line 1", ["a"]]], []),
              [...editedLines(past, 2, 3, ["B"])],
              [...editedLines(past, 1, 0, ["new"])],
              [...editedLines(past, 3, 2, ["new"])],
              [...editedLines(past, 1, 2, ["A", "B", "more"])],
            ];"""
        )
        due = [
            ["edit 2 4 2\nB\nc"],
            # Two lines in front are there, and line 3 is not: a, b and d stand at 3 to 5.
            ["edit 1 4 4\na\nb\nc\nC"],
            [
                "unpoke 5 00000100",
                "pokeb 5 00000100 11",
                "pokeb 5 00000102 33",
                "pokeb 5 00000103 44",
                "uninput 3",
                "irq 7 15",
            ],
            ["pokeb 5 00000101 AA", "pokeb 5 00000102 BB"],
            [],
            [["line 2", ["B"]], ["line 3", []]],
            [["line 0", ["new"]]],
            [["line 2", ["b", "new"]]],
            [["line 1", ["A"]], ["line 2", ["B", "more"]]],
        ]
        self.assertEqual(found, due)

    def test_scripts_are_told_apart_from_sources(self) -> None:
        texts = {
            "edit 1 0 1\nnop\n": True,
            "\n \nregs 3": True,
            "poke 1 2 3": True,
            "list": True,
            "keep\n": True,
            "quit": True,
            "list: nop": False,
            "start: nop": False,
            "  nop": False,
            "": False,
            "! list\n": False,
            "regs: nop\n": False,
            "input 1 zz": False,
            "\t.word 1": False,
            "before regs 1": True,
            "steps 0 9 9 trap": True,
        }
        found = self.page.asked(
            'const { isScript } = await import("/script.js"); return given[0].map(isScript);', list(texts)
        )
        self.assertEqual(dict(zip(texts, found)), texts)  # type: ignore[call-overload]

    def test_runs_are_laid_beside_each_other(self) -> None:
        script = """
            const { pairs } = await import("/alignment.js");
            return given[0].map(([before, now]) => pairs([...before], [...now]));"""
        found = self.page.asked(
            script,
            [
                ["abcdefgh", "abcdefgh"],
                ["abcdefghij", "abXcdefghij"],
                ["abXYcdefghij", "abcdefghij"],
                ["abXcdefgh", "abYcdefgh"],
            ],
        )
        same, more, less, other = found  # type: ignore[misc]
        self.assertEqual(same, [[it, it] for it in range(8)])
        self.assertEqual(more[:4], [[0, 0], [1, 1], [None, 2], [2, 3]])
        self.assertEqual(less[:5], [[0, 0], [1, 1], [2, None], [3, None], [4, 2]])
        self.assertEqual(other, [[it, it] for it in range(9)])

    def test_texts(self) -> None:
        script = """
            const text = await import("/text.js");
            const bytes = text.bytesTyped("a\\\\n\\\\x41\\\\\\\\é");
            return [given.map(text.statement), given.map(text.remark), bytes, text.typed([0x41, 10, 0, 0x5c])];"""
        lines = ('a: .ascii "x!y" ! z', "mov '!', %g1 ! it", "! all", " nop\t  ")
        statements, remarks, typed, shown = self.page.asked(script, *lines)  # type: ignore[misc]
        self.assertEqual(statements, ['a: .ascii "x!y"', "mov '!', %g1", "", "nop"])
        self.assertEqual(remarks, ["z", "it", "all", ""])
        self.assertEqual((typed, shown), ([97, 10, 65, 92, 195, 169], "A\\n\\x00\\\\"))
