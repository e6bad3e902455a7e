"""What-ifs: made where they show, switched, combined, refused, and the verdict on each."""
from __future__ import annotations

from page.support import CASES, InBrowser
from page.test_looking import due, registers


class WhatIf(InBrowser):
    """Changes of the guide's examples."""

    def test_traps_off(self) -> None:
        page = self.page
        page.keys("2")
        self.assertEqual(page.what_ifs(), [False, True, False, False])
        # `docs/MONITOR.md` asks the same of the same program: step 6 leads to error mode, and step 5 is the first state
        # that differs.
        self.assert_verdict(
            "step 4", "before line 4 mov 0xfa0, %psr", "now line 4 mov 0xf80, %psr", "PSR 00000FA0 → 00000F80"
        )
        self.assertEqual(page.run("return rubliman.bench.run.stop"), 6)
        page.keys("d")
        self.assertEqual(page.step(), 4)
        page.go(6)
        self.assertIn("error mode trap 81 trap instruction 1, with traps off", page.text("#happens"))
        page.keys("ArrowRight")
        self.assertEqual(page.registers(), registers(self.answer_with_traps_off()))
        self.assertEqual(page.text("#state"), "error mode")
        self.assertEqual(page.texts("#window .was")[:1], ["00000000"], "old values stand under new ones")
        rows = page.run("return [...document.querySelectorAll('#window tbody tr')].map((it) => it.offsetHeight)")
        self.assertEqual(len(set(rows)), 1, "and move nothing")  # type: ignore[call-overload]
        self.assertIn("PC 00001810 → 00000018", page.text("#here"))
        self.assertEqual(page.text(".line.changed del"), "mov 0xfa0, %psr")

    @staticmethod
    def answer_with_traps_off() -> list[str]:
        """The answer that is due to the third question of the case: `regs 7` with traps off."""
        answers = (CASES / "examples-boot-w8.answer").read_text(encoding="ascii").split("ok\n")
        # The edit, two questions, an edit, two questions, an edit.
        return answers[7].splitlines()

    def test_one_for_a_place_is_on(self) -> None:
        page = self.page
        page.keys("2", "1")
        self.assertEqual(page.what_ifs(), [True, False, False, False], "both are about line 4")
        page.keys("4")
        self.assertEqual(page.what_ifs(), [True, False, False, True], "two may be combined")
        page.keys("x")
        self.assertEqual(page.what_ifs(), [False] * 4)
        self.assertIn("Now is as before", page.text("#first"))
        page.keys("x")
        self.assertEqual(page.what_ifs(), [True, False, False, True])
        page.click("#list [data-toggle]", 0)
        self.assertEqual(page.what_ifs(), [False, False, False, True], "by a click as well")
        self.assert_verdict("step 7", "line 11 add %i0, 1, %i0", "add %i0, 2, %i0", "%i0 0000002A → 0000002B")
        page.click("#list [data-drop]", 3)
        self.assertEqual(page.what_ifs(), [False] * 3)

    def test_a_line_in_place(self) -> None:
        page = self.page
        page.edit(5, "        mov 42, %o0")
        page.go(10)
        self.assertIn("%o0 0000002A → 0000002B", page.text("#here"))
        self.assertEqual(page.what_ifs(), [False] * 4 + [True])
        self.assertIn("line 5 mov 41, %o0 → mov 42, %o0", page.texts("#list li")[4])
        page.edit(5, "        mov 43, %o0")
        self.assertEqual(page.what_ifs(), [False] * 4 + [True], "it is changed, and no other one made")
        self.assertIn("%o0 0000002A → 0000002C", page.text("#here"))
        page.edit(5, "        mov     41, %o0         ! an argument")
        self.assertEqual((page.what_ifs(), page.text("#here")), ([False] * 4, "as before"))

    def test_refused_lines(self) -> None:
        page = self.page
        for text, said in (
            ("        move 41, %o0", "Line 5: this is no line of the assembler"),
            ("        ba strat", "Line 5: it uses a name that no line defines"),
            ("end:    nop", "Line 7: it defines a name that is defined already"),
            ("        mov 5000, %o0", "Line 5: a value does not fit"),
            ("        .org 0", "Line 5: .org may not go back"),
            ("        mov 41, %o0 ! \u00e9", "Line 5: a line holds printed ASCII"),
            ("! " + "x" * 255, "Line 5: a line has 255 bytes"),
        ):
            with self.subTest(text=text):
                page.edit(5, text)
                self.assertTrue(page.text("#editor-note").startswith(said), page.text("#editor-note"))
                self.assertEqual(
                    page.find(".editor textarea").get_attribute("value"), text, "it is there to be corrected"
                )
                self.assertEqual((page.what_ifs(), page.run("return rubliman.bench.set.size")), ([False] * 4, 0))
                page.keys("Escape")
        page.edit(5, "        move 43, %o0")
        page.type("        mov 43, %o0")
        page.keys("Enter")
        self.assertEqual(page.what_ifs(), [False] * 4 + [True])
        self.assertEqual(page.all(".editor"), [])

    def test_several_lines_at_once(self) -> None:
        page = self.page
        page.mark(4)
        page.keys("Shift+ArrowDown", "Enter")
        self.assertEqual(page.find(".editor textarea").get_attribute("value").count("\n"), 1)
        page.type("        mov 0xf20, %psr\n        mov 40, %o0\n        inc %o0\n        nop")
        page.keys("Ctrl+Enter")
        self.assertEqual(page.text("#source-count"), "15 lines")
        self.assertEqual(page.texts(".line.changed .number"), ["4", "5", "6", "7"])
        self.assertEqual(page.what_ifs(), [False] * 4 + [True], "it is one what-if")
        self.assert_verdict("step 4", "PSR 00000FA0 → 00000F20")
        page.keys("5")
        self.assertEqual(page.text("#source-count"), "13 lines")
        page.mark(7)
        page.keys("Shift+ArrowUp", "Delete")
        self.assertEqual(page.text("#source-count"), "11 lines")
        self.assertIn("line 7", page.texts("#list li")[5])

    def test_a_line_is_put_in(self) -> None:
        page = self.page
        page.edit(5, "        inc %o0", "o")
        self.assertEqual(
            (page.text("#source-count"), page.texts(".line.changed .text")), ("14 lines", ["inc %o0put in"])
        )
        page.go(9)
        self.assertEqual(page.text("#shift"), "−1", "step 9 does what step 8 did before")
        self.assertIn("beside step 8 of before", page.text("#here"))
        self.assertIn("%i0 0000002A → 0000002B", page.text("#here"))
        # PC is not told as another one: it is the same place.
        self.assertNotIn("PC 0", page.text("#here").replace("nPC", ""))
        page.go(12)
        self.assertIn("moved", page.text("#here"))
        page.go(5)
        row = page.texts("#steps tr.new")
        self.assertEqual(len(row), 1, "one step of now has none beside it")
        self.assertIn("inc %o0", row[0])
        page.go(9)
        page.keys("]")
        self.assertEqual(page.text("#shift"), "same step, by hand")
        page.keys("[", "[")
        self.assertEqual(page.text("#shift"), "−2, by hand")
        page.keys("0")
        self.assertEqual(page.text("#shift"), "same step, by hand")
        page.keys("l")
        self.assertEqual(page.text("#shift"), "−1")
        page.keys("x")
        self.assertEqual((page.text("#source-count"), page.text("#shift")), ("13 lines", "–"))

    def test_the_handler_passes_over(self) -> None:
        page = self.page
        page.example("page-tables")
        page.keys("1")
        page.go(47)
        self.assert_verdict("step 44", "before line 19 jmp %l1", "now line 19 jmp %l2", "nPC 00000264 → 00000268")
        self.assertEqual(page.text("#shift"), "+1")
        self.assertIn("%g5 00001234 → 00000000", page.text("#here"))
        self.assertIn("2 words of memory", page.text("#here"))
        page.click("#here [data-address]")
        self.assertTrue(page.find("#memory").is_displayed())
        self.assertEqual(page.text("#tab-memory .badge"), "2")

    def test_a_poke(self) -> None:
        page = self.page
        page.example("page-tables")
        page.go(20)
        page.look_up("1914")
        page.press("m")
        page.type("221e")
        page.keys("Enter")
        self.assertIn("→ 0000221E", page.text("#words .marked"), "it comes at this step, and shows at the next one")
        self.assertEqual(
            page.run("return rubliman.bench.run.happenings.filter((it) => it.type).map((it) => it.n)"),
            [30],
            "the first fault is gone",
        )
        self.assert_verdict("step 27", "before line 44", "trap 09 data_access_exception", "now line 44 st %g4, [%g3]")
        page.keys("ArrowRight")
        self.assertIn("0000221E", page.text("#words .marked"))
        page.go(200)
        # The case asks the same: 22678 holds what was stored.
        page.look_up("22678")
        word = due("examples-page-tables-w8", "mem 200 22678 1")[0].split()[1]
        self.assertEqual(page.run("return document.querySelector('#words .marked').firstChild.textContent"), word)

    def test_an_input(self) -> None:
        page = self.page
        page.example("console")
        page.go(30)
        page.press("i")
        page.type("!")
        page.keys("Enter")
        self.assertIn("“Hi” → “Hi!”", page.text("#outputs"))
        self.assert_verdict("step 31", "line 2 wait: ld [%g1+4], %g2", "%g2 00000000 → 00000001")
        self.assertIn("step 30 input “!”", page.texts("#list li")[4])
        page.press("i")
        page.type("\\n\\x41\\\\")
        page.keys("Enter")
        self.assertEqual(page.run("return rubliman.bench.set.get('input 30')"), "0A415C")
        self.assertEqual(page.what_ifs(), [False] * 4 + [True])
        page.keys("5", "2")
        self.assertEqual(page.text("#outputs")[:13], "“Hi” → nothin")

    def test_an_interrupt(self) -> None:
        page = self.page
        page.example("timer")
        page.go(15)
        page.click("#tab-units")
        page.click("[data-level='10']")
        self.assertIn("step 15 interrupt level 10 requested", page.texts("#list li")[3])
        self.assert_verdict("step 15", "interrupt level 10")
        page.go(15)
        page.click("[data-level='10']")
        self.assertEqual(page.what_ifs(), [False] * 3, "it is taken back")
        page.go(12)
        page.press("q")
        page.run(
            "const it = document.getElementById('add-irq'); it.value = '11'; it.dispatchEvent(new Event('change'))"
        )
        page.idle()
        self.assert_verdict("step 12", "now", "interrupt level 11")

    def test_keep(self) -> None:
        page = self.page
        page.edit(5, "        mov 50, %o0")
        page.keys("4", "k")
        self.assertEqual((page.what_ifs(), page.text("#first")[:16]), ([False] * 3, "Now is as before"))
        page.edit(5, "        mov 60, %o0")
        page.go(10)
        # 50 + 2 is before, 60 + 2 now.
        self.assertIn("%o0 00000034 → 0000003E", page.text("#here"))
        page.keys("3")
        self.assert_verdict("step 2", "line 2")

    def test_what_ifs_keep_their_lines_behind_keep(self) -> None:
        page = self.page
        page.edit(1, "        nop", "o")
        page.keys("k", "2")
        self.assertIn("line 5 mov 0xfa0, %psr → mov 0xf80, %psr", page.texts("#list li")[1])
        self.assert_verdict("step 5", "mov 0xf80, %psr")

    def test_a_what_if_that_is_refused(self) -> None:
        page = self.page
        self.page.open_text(
            "edit 1 0 3\nstart: nop\nba start\nnop\nregs 0\n"
            "edit 2 2 2\nba far\nfar: nop\nregs 0\nedit 2 3 1\nba start\n"
        )
        page.keys("1")
        self.assertEqual((page.what_ifs(), page.text("#source-count")), ([True], "4 lines"))
        page.edit(4, "        ba far")
        self.assertEqual(page.what_ifs(), [True, True])
        page.keys("1")
        self.assertEqual(page.what_ifs(), [True, True], "the other one needs it")
        self.assertIn("Line 3: it uses a name that no line defines", page.texts("#list li")[0])
        page.keys("2", "1")
        self.assertEqual((page.what_ifs(), page.text("#source-count")), ([False, False], "3 lines"))

    def test_no_difference(self) -> None:
        page = self.page
        page.edit(8, "        sethi 0, %g0")
        page.idle()
        page.run("return 0")
        self.assertIn("None in 1,000,000 steps", page.text("#first"))
        page.edit(12, "        jmp %l2+4")
        self.assert_verdict("step 8", "line 12 jmp %l2")

    def test_events_of_before_may_be_taken_away(self) -> None:
        page = self.page
        page.example("console")
        self.assertIn("before: step 10 input “Hi”", page.text("#list"))
        page.click("[data-without]")
        self.assertIn("“Hi” → nothing", page.text("#outputs"))
        self.assertEqual(page.what_ifs(), [False] * 4 + [True])

    def test_addresses_out_of_memory_are_refused(self) -> None:
        page = self.page
        pokes = [["poke 3 00100000", "11223344"], ["poke 3 00000100", "00000001"]]
        found = page.asked("return await rubliman.bench.give(new Map(given[0]));", pokes)
        self.assertEqual((found, page.run("return rubliman.bench.set.size")), ("14 BadAddress", 0))
        self.assertEqual(
            page.asked("return (await rubliman.bench.converse((ask) => ask(['events 0 9'])))[0].lines;"),
            [],
            "nothing of it is left",
        )
        self.assertEqual(page.what_ifs(), [False] * 4)
