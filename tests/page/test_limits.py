"""Long sources, many events, the whole run, much output, and texts that are meant ill."""
from __future__ import annotations

import time

from page.support import InBrowser

LINES = 65_536


class Limits(InBrowser):
    """The most that a page may be asked to show."""

    def test_65536_lines(self) -> None:
        page = self.page
        source = "\n".join(
            [
                "start:  inc %g1",
                *[f"        inc %g{it % 7 + 1}" for it in range(LINES - 3)],
                "        ba start",
                "        nop",
            ]
        )
        self.assertIsNone(page.open_text(source))
        self.assertEqual(page.text("#source-count"), "65,536 lines")
        self.assertLess(len(page.all(".line")), 100)
        page.run("document.getElementById('lines').scrollTop = 1e9")
        page.idle()
        self.assertEqual(page.texts(".line .number")[-1], "65536")
        page.run("document.getElementById('lines').scrollTop = 600000")
        page.idle()
        self.assertIn("31580", page.texts(".line .number"))
        page.go(65_000)
        self.assertEqual(page.text(".line.here .number"), "65001")
        page.click(".line.here")
        page.press("Enter")
        page.type("        dec %g5")
        page.keys("Enter")
        self.assertEqual(page.what_ifs(), [True])
        self.assert_verdict("step 65,000", "line 65001", "now line 65001 dec %g5")
        page.keys("1")
        self.assertEqual(page.what_ifs(), [False])

    def test_10000_events(self) -> None:
        page = self.page
        events = "\n".join(f"poke {it} {0x10000 + 4 * it:x} {it:x}" for it in range(10_000))
        before = f"edit 1 0 3\nstart: inc %g1\n ba start\n nop\n{events}\n"
        self.assertIsNone(page.open_text(f"{before}regs 0\npoke 9999 10000 ffff\nregs 0\nunpoke 5000 14e20\n"))
        self.assertEqual(page.what_ifs(), [True, True], "one of a question, one of the end")
        count = page.run("return rubliman.bench.run.happenings.length")
        self.assertGreater(int(count), 1900)  # type: ignore[call-overload]
        page.go(9_999)
        page.look_up("10000")
        self.assertIn("→ 0000FFFF", page.text("#words .marked"))
        page.keys("x")
        page.look_up("19c3c")
        self.assertIn("→ 0000270F", page.text("#words .marked"))
        page.keys("a")
        self.assertEqual(page.text("#range"), "0 – 1,000,000")

    def test_1000000_steps(self) -> None:
        page = self.page
        page.example("timer")
        begun = time.monotonic()
        page.keys("a")
        self.assertLess(time.monotonic() - begun, 10)
        self.assertEqual(page.text("#range"), "0 – 1,000,000")
        last = page.run("const { bench } = rubliman; return [bench.run.steps.at(-1).n, bench.run.happenings.at(-1).n]")
        self.assertGreater(last[0], 998_000)  # type: ignore[index]
        self.assertGreater(last[1], 990_000, "lanes reach to the end")  # type: ignore[index]
        page.keys("1")
        self.assert_verdict("step 31", "interrupt level 10")
        self.assertEqual(page.text("#range"), "0 – 1,000,000")
        page.go(999_990)
        page.keys("T")
        self.assertGreater(page.step(), 999_900)
        page.keys("f")
        self.assertLess(page.step(), 2000)

    def test_the_last_difference_is_found(self) -> None:
        page = self.page
        self.assertIsNone(page.open_text("start: inc %g1\n ba start\n ld [%g0+0x400], %g2\n"))
        page.asked("return await rubliman.bench.give(new Map([['poke 999995 00000400', '00000007']]));")
        page.idle()
        self.assert_verdict("step 999,995", "line 3 ld [%g0+0x400], %g2", "%g2 00000000 → 00000007")
        page.keys("d")
        self.assertEqual(page.step(), 999_995)

    def test_much_output(self) -> None:
        page = self.page
        source = "start: sethi 0x200000, %g1\n mov 0x61, %g2\nloop: st %g2, [%g1+8]\n ba loop\n nop\n"
        self.assertIsNone(page.open_text(source))
        page.keys("a")
        page.keys("v", "v")
        page.go(999_999)
        self.assertIn("333,333 of 333,333 bytes", page.text("#output"))

    def test_texts_that_are_meant_ill(self) -> None:
        page = self.page
        ill = "<img src=x onerror=window.bad=1><script>window.bad=1</script><b>x</b>"
        source = f'start: nop ! {ill}\n .ascii "<i>&amp;\\"</i>"\n .align 4\nx_: ba start ! "\'`${{window.bad=1}}\n nop'
        self.assertIsNone(page.open_text(source, ill))
        self.assertEqual(page.text("#name"), ill)
        self.assertIn(ill, page.text("#lines"))
        page.edit(1, f"start: inc %g1 ! {ill}")
        self.assertIn(ill, page.text("#list"))
        page.keys("b", "Escape", "r", "Escape", "Ctrl+s")
        for text in (ill, "</textarea><script>window.bad=1</script>"):
            page.go(3)
            page.press("i")
            page.type(text)
            page.keys("Enter")
            page.asked("return await rubliman.bench.open({ text: given[0], name: given[0], windows: '8' });", text)
        made = page.all("main img, main script, main b:not(.code), header img, header b, #list i")
        self.assertEqual((made, page.run("return window.bad ?? 0")), ([], 0))
        self.assertEqual(page.text("#source-count"), "5 lines", "a refused source leaves what was shown")
        # Markup cannot be made of text at all.
        stopped = page.asked("try { document.body.innerHTML = 'x'; return 'made'; } catch (it) { return it.name; }")
        self.assertEqual(stopped, "TypeError")
        self.assertEqual(page.run("return window.stopped.splice(0)"), ["require-trusted-types-for"])
        page.console()
