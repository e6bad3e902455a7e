"""What the page shows of a run: its steps, registers, units, memory, console and strip."""
from __future__ import annotations

import re

from page.support import CASES, InBrowser


def due(case: str, command: str) -> list[str]:
    """The answer that is due to the first command of that text in a case, from its file."""
    lines = (CASES / f"{case}.txt").read_text(encoding="ascii").split("\n")
    wanted, at, number = -1, 0, 0
    while at < len(lines) and wanted < 0:
        words = lines[at].split()
        if lines[at] == command:
            wanted = number
        number += bool(words)
        at += 1 + (int(words[3]) if words[:1] == ["edit"] else 0)
    answers = re.split(r"(?m)^(?:ok|refused .*)\n", (CASES / f"{case}.answer").read_text(encoding="ascii"))
    return answers[wanted].splitlines()


def registers(answer: list[str]) -> list[str]:
    """The 32 registers of an answer to `regs`."""
    return [word for it in answer if it[0] in "goli" for word in it.split()[1:]]


class Looking(InBrowser):
    """The guide's examples, with the answers that are due in the repository."""

    def test_a_trap_at_boot(self) -> None:
        page = self.page
        self.assertEqual(page.text("#name"), "A trap at boot")
        page.keys("t")
        self.assertEqual(page.step(), 6)
        self.assertIn("ta 1", page.text("#happens"))
        self.assertIn("trap 81 trap instruction 1", page.text("#happens"))
        page.keys("ArrowRight")
        self.assertEqual(page.registers(), registers(due("examples-boot-w8", "regs 7")))
        self.assertEqual(page.text(".line.here .number"), "11", "the handler's first line")
        self.assertEqual(page.text(".line.next .number"), "12")
        self.assertIn("TBR 00001810", page.text("#special"))
        self.assertIn("trap type 81, trap instruction 1", page.text("#special"))
        self.assertEqual(page.texts("#special .flags .on"), ["S", "PS"])
        page.go(10)
        self.assertEqual(page.registers(), registers(due("examples-boot-w8", "regs 10")))
        self.assertIn("PC 0000001C end", page.text("#special"))
        page.keys("T", "T")
        self.assertEqual((page.step(), page.text("#status")), (6, "No trap in front of this step."))

    def test_page_tables(self) -> None:
        page = self.page
        page.example("page-tables")
        page.keys("t", "ArrowRight")
        self.assertEqual(page.step(), 28)
        self.assertEqual(page.registers(), registers(due("examples-page-tables-w8", "regs 28")))
        page.keys("v")
        self.assertIn("invalid entry on a supervisor store, level 3", page.text("#units"))
        self.assertIn("Translationon", page.text("#units"))
        page.press("p")
        page.type("5678")
        page.keys("Enter")
        self.assertEqual(page.texts("#units .walk th"), ["context", "level 1", "level 2", "level 3"])
        self.assertEqual(page.texts("#units .walk tr")[-1], "level 30000191400000000invalid")
        self.assertIn("leads to no page", page.text("#units .walk"))
        page.go(69)
        self.assertIn("leads to 00020678 (level 3, user / supervisor --- / rwx)", page.text("#units .walk"))
        self.assertEqual(page.texts("#units .walk tr")[0], "context0000100000000141table at 00001400")
        words = [it.split()[1] for it in due("examples-page-tables-w8", "mem 69 1900 10")]
        page.look_up("1900")
        self.assertEqual(page.memory(10), words)
        page.go(47)
        self.assertIn("0567A = 2067A", page.text("#steps tr.here"), "an address of the program, and where it leads")

    def test_windows(self) -> None:
        page = self.page
        page.example("window-overflow")
        self.assertEqual(len(page.all("#ring button")), 4)
        page.keys("t")
        self.assertIn("trap 05 window_overflow", page.text("#happens"))
        page.keys("ArrowRight")
        self.assertEqual(page.registers(), registers(due("examples-window-overflow-w4", "regs 9")))
        self.assertEqual(page.all("#ring button")[1].get_attribute("aria-label"), "window 1, current, marked in WIM")
        shown = page.registers()
        page.keys("<")
        self.assertEqual(page.find("#ring [aria-pressed=true]").text, "0")
        page.keys(">", ">")
        self.assertEqual(page.find("#ring [aria-pressed=true]").text, "2")
        # The ins of a window are the outs of the one above it.
        page.click("[data-window='0']")
        self.assertEqual(page.registers()[24:], shown[8:16])
        page.click("[data-window='1']")
        self.assertEqual(page.registers(), shown)
        page.go(29)
        page.look_up("1000")
        words = [it.split()[1] for it in due("examples-window-overflow-w4", "mem 29 1000 2")]
        self.assertEqual(page.memory(2), words)

    def test_the_console(self) -> None:
        page = self.page
        page.example("console")
        page.keys("v", "v")
        page.go(19)
        self.assertIn("0 of 2 bytes", page.text("#output"))
        page.go(20)
        self.assertIn("Hi1 of 2 bytes at this step", page.text("#output"))
        self.assertEqual(page.text("#output .later"), "i")
        self.assertIn("out 48 “H”", page.text("#steps"))
        page.keys("n")
        self.assertEqual(page.step(), 24)
        self.assertIn("in 69 “i”", page.text("#happens"))
        page.keys("N", "N")
        self.assertEqual(page.step(), 17)
        self.assertIn("in 48 “H”", page.text("#happens"))
        self.assertIn("“Hi”", page.text("#outputs"))

    def test_a_timer(self) -> None:
        page = self.page
        page.example("timer")
        page.keys("t")
        self.assertEqual(page.step(), 26)
        self.assertIn("interrupt level 10", page.text("#happens"))
        self.assertIn("timer", page.text("#happens"))
        page.keys("ArrowRight")
        self.assertEqual(page.registers(), registers(due("examples-timer-interrupt-w8", "regs 27")))
        page.keys("v")
        self.assertEqual(page.find("[data-level='10']").get_attribute("class"), "flag on")
        self.assertIn("count 00000014 reload 00000014", page.text("#units"))

    def test_times_at_a_line_and_changes_of_a_word(self) -> None:
        page = self.page
        page.example("timer")
        page.mark(16)
        page.keys("c", "c", "c")
        # Line 16 is carried out in front of the first interrupt at steps 9, 11, 13 ..
        self.assertEqual(page.step(), 13)
        page.keys("C")
        self.assertEqual(page.step(), 11)
        page.example("page-tables")
        page.look_up("1914")
        page.keys("w")
        self.assertEqual(page.step(), 43, "the handler's store")
        page.keys("ArrowRight", "W")
        self.assertEqual(page.step(), 43)
        page.mark(3)
        page.keys("c")
        self.assertIn("places no instruction", page.text("#status"))

    def test_the_strip_and_the_slider(self) -> None:
        page = self.page
        self.assertEqual(page.text("#range"), "0 – 18")
        box = page.run(
            "const it = document.getElementById('strip').getBoundingClientRect(); return [it.left, it.top, it.width]"
        )
        left, top, width = box  # type: ignore[misc]

        def press(part: float, y: float) -> None:
            x = left + 64 + part * (width - 64)
            for kind in ("mousePressed", "mouseReleased"):
                page.driver.execute_cdp_cmd(
                    "Input.dispatchMouseEvent", {"type": kind, "x": x, "y": top + y, "button": "left", "clickCount": 1}
                )
            page.idle()

        press(10.5 / 18, 100)
        self.assertEqual(page.step(), 10)
        # A press in a lane goes to what is near: the trap at step 6.
        press(6.02 / 18, 5)
        self.assertEqual(page.step(), 6)
        slider = page.find("#slider")
        self.assertEqual(slider.get_attribute("aria-valuetext")[:10], "step 6: 00")
        self.assertIn("ta 1", slider.get_attribute("aria-valuetext"))
        self.assertIn("1 trap", page.find("#strip").get_attribute("aria-label"))
        page.keys("+")
        self.assertEqual(page.text("#range"), "1 – 17")
        page.keys("-", "-")
        self.assertEqual(page.text("#range"), "0 – 64")
        page.keys("End")
        self.assertEqual(page.step(), 64)
        page.keys("Home", "f")
        self.assertEqual((page.step(), page.text("#range")), (0, "0 – 18"))

    def test_moves_by_keys(self) -> None:
        page = self.page
        page.keys("ArrowRight", "ArrowRight", "Shift+ArrowRight", "Alt+ArrowRight", "ArrowLeft")
        self.assertEqual(page.step(), 111)
        page.keys("Alt+ArrowLeft", "Shift+ArrowLeft", "Shift+ArrowLeft")
        self.assertEqual(page.step(), 0, "there is none in front of the first one")
        page.go(1_000_000)
        self.assertEqual(page.step(), 1_000_000)
        page.keys("ArrowRight")
        self.assertEqual(page.step(), 1_000_000)
        self.assertIn("1,000,000", page.text("#range"))

    def test_sixty_keys_at_once(self) -> None:
        page = self.page
        page.example("timer")
        page.run("window.asked = 0; const own = fetch; window.fetch = (...it) => { asked += 1; return own(...it); };")
        page.run(
            "const press = () => new KeyboardEvent('keydown', { key: 'ArrowRight', bubbles: true });"
            "for (let n = 0; n < 60; n++) document.activeElement.dispatchEvent(press());"
        )
        page.idle()
        self.assertEqual((page.step(), page.find("#step").get_attribute("value")), (60, "60"))
        self.assertLess(page.run("return asked"), 10, "moves that wait are passed over")
        page.driver.switch_to.active_element.send_keys("".join("\ue014" for _ in range(60)))
        page.idle()
        self.assertEqual(page.step(), 120)
        self.assertEqual(page.text("#steps tr.here td"), "120", "and all that is shown is of that step")

    def test_the_strip_of_many_steps_has_what_the_monitor_tells(self) -> None:
        script = """
            const { bench } = rubliman;
            await bench.range(0, given[0]);
            const happens = "trap in out event";
            const questions = [`every ${given[1]}`, happens].map((it) => `steps 0 ${given[0]} 200000 ${it}`);
            const told = await bench.converse((ask) => ask(questions));
            const steps = told.map(({ lines }) => lines.map((it) => Number(it.split(" ")[0])));
            const { samples, happenings } = bench.run;
            const rising = happenings.every((it, at) => at === 0 || happenings[at - 1].n < it.n);
            return [String(samples.map((it) => it.n)) === String(steps[0]), rising,
              happenings.filter((it) => !steps[1].includes(it.n)).length, happenings.length, steps[1].length];"""
        for example, least in (("boot", 1), ("timer", 6_000)):
            self.page.example(example)
            for high, every in ((1_000_000, 768), (100_000, 67)):
                with self.subTest(example=example, high=high):
                    same, rising, wrong, shown, all_of_them = self.page.asked(script, high, every)  # type: ignore[misc]
                    self.assertEqual((same, rising, wrong), (True, True, 0))
                    self.assertGreaterEqual(shown, min(least, all_of_them))

    def test_what_stays_is_not_made_anew(self) -> None:
        page = self.page
        page.example("timer")
        parts = ".line, #window td, #words > *, #list > *, #steps tr"
        page.run("document.querySelectorAll(arguments[0]).forEach((it) => (it.isOld = true))", parts)
        page.keys("ArrowRight")
        page.go(30)
        page.keys("1")
        script = (
            "return [...document.querySelectorAll(arguments[0])].filter((it) => !it.isOld).map((it) => it.localName)"
        )
        self.assertEqual(page.run(script, parts), [])
