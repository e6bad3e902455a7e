"""One run of the monitor for each page: two pages, one that is closed, a run that ends, a reload, a foreign address."""
from __future__ import annotations

import signal

from page.support import InBrowser, end, temporary, until


class Life(InBrowser):
    """Pages that come and go."""

    def test_two_pages_at_once(self) -> None:
        page, driver = self.page, self.page.driver
        page.keys("2", "d")
        first = driver.current_window_handle
        driver.switch_to.new_window("tab")
        page.visit(self.server.address)
        self.assertEqual(len(self.server.runs()), 2)
        page.example("console")
        page.go(20)
        self.assertEqual((page.text("#name"), page.step()), ("The console", 20))
        second = driver.current_window_handle
        driver.switch_to.window(first)
        page.keys("ArrowRight")
        self.assertEqual(
            (page.text("#name"), page.step(), page.what_ifs()), ("A trap at boot", 5, [False, True, False, False])
        )
        driver.switch_to.window(second)
        driver.close()
        driver.switch_to.window(first)
        self.assertTrue(until(lambda: len(self.server.runs()) == 1), "its run ends with a page")
        page.keys("ArrowRight")
        self.assertEqual(page.step(), 6)

    def test_a_run_that_ends_comes_back_as_it_was(self) -> None:
        page = self.page
        page.example("page-tables")
        page.keys("1", "d", "+")
        page.run("rubliman.bench.lay(1)")
        page.idle()
        shown = [page.text(it) for it in ("#first", "#here", "#special", "#window", "#words", "#range", "#list")]
        for _ in range(2):
            run = self.server.runs()
            end(run[0])
            self.assertTrue(until(lambda: self.server.runs() and self.server.runs() != run))
            self.assertTrue(until(lambda: "Another one was given" in page.text("#status")))
            page.idle()
            again = [page.text(it) for it in ("#first", "#here", "#special", "#window", "#words", "#range", "#list")]
            self.assertEqual(again, shown)
            # Two ends within three seconds are taken for the fault of what stands there.
            page.asked("await new Promise((it) => setTimeout(it, 3100));")
        page.keys("ArrowRight")
        self.assertEqual((page.step(), page.what_ifs()), (45, [True, False, False]))

    def test_a_run_that_ends_in_a_request(self) -> None:
        page = self.page
        page.keys("2")
        end(self.server.runs()[0], signal.SIGSTOP)
        page.press("3")
        end(self.server.runs()[0])
        self.assertTrue(until(lambda: "Another one was given" in page.text("#status")))
        page.idle()
        self.assertEqual(
            page.what_ifs(), [False, True, False, False], "what was asked is not done, and all else stands"
        )
        page.keys("3")
        self.assertEqual(page.what_ifs(), [False, True, True, False])
        # The browser tells that the request failed.
        self.assertTrue(all("410" in it for it in page.console()))

    def test_a_reload_keeps_what_stands_there(self) -> None:
        page = self.page
        page.example("console")
        page.keys("1")
        page.go(25)
        page.asked("await new Promise((it) => setTimeout(it, 600));")
        page.driver.refresh()
        page.idle()
        self.assertEqual(
            (page.text("#name"), page.step(), page.what_ifs()), ("The console", 25, [True, False, False, False])
        )
        self.assertIn("“Hi” → “Hi!”", page.text("#outputs"))
        self.assertTrue(until(lambda: len(self.server.runs()) == 1))

    def test_an_address_without_the_token(self) -> None:
        page = self.page
        page.driver.get("about:blank")
        page.visit(self.server.address.partition("#")[0])
        self.assertEqual(page.text("#status"), "open the address that ./sparc8 --page printed")
        self.assertEqual(self.server.runs(), [])
        self.assertTrue(all("403" in it for it in page.console()))

    def test_another_site_gets_nothing(self) -> None:
        page, port = self.page, self.server.port
        page.driver.get("data:text/html,<title>elsewhere</title>")
        script = """
            const told = [];
            for (const [path, options] of [["/", {}], ["/given", {}], ["/open?8", { method: "POST", body: "" }],
                ["/open?8", { method: "POST", mode: "no-cors", body: "" }]]) {
              try {
                const answer = await fetch(given[0] + path, options);
                told.push(answer.type === "opaque" ? "opaque" : await answer.text());
              } catch { told.push("refused"); }
            }
            return told;"""
        found = page.asked(script, f"http://127.0.0.1:{port}")
        self.assertEqual(found, ["refused"] * 4)
        page.console()
        self.assertTrue(until(lambda: self.server.runs() == []), "the page is gone, and nothing was begun")
        page.console()
        script = (
            "const it = document.createElement('iframe'); document.documentElement.append(it); it.src = arguments[0]"
        )
        page.run(script, self.server.address)
        page.asked("await new Promise((it) => setTimeout(it, 300));")
        page.console()
        self.assertEqual(self.server.runs(), [], "and nothing frames it")
        page.run("location = 'about:blank'")
        page.requests()


class WithFile(InBrowser):
    """A page that is given a file."""

    def setUp(self) -> None:
        before = "edit 1 0 3\r\nstart: inc %g1 ! one\r\nba start\r\n nop\r\nregs 0\r\n"
        text = f"{before}edit 1 1 1\r\nstart: inc 2, %g1\r\npoke 3 102 1\r\n"
        self.file = self.enterContext(temporary(text, "own.txt"))
        self.windows = "4"
        super().setUp()

    def test_a_script(self) -> None:
        page = self.page
        self.assertEqual(
            (page.text("#name"), page.text("#source-count"), page.what_ifs()), ("own.txt", "3 lines", [True])
        )
        self.assertEqual(page.find("#window-count").get_attribute("value"), "4")
        self.assertEqual(len(page.all("#ring button")), 4)
        self.assertIn("Line 8 of the script is left out. No such word of memory", page.text("#status"))
        self.assert_verdict("step 0", "inc %g1", "inc 2, %g1", "%g1 00000001 → 00000002")
        page.run(
            "const it = document.getElementById('window-count'); it.value = '16'; it.dispatchEvent(new Event('change'))"
        )
        page.idle()
        self.assertEqual((len(page.all("#ring button")), page.what_ifs()), (16, [True]))


class WithRefusedSource(InBrowser):
    """A page that is given a source which is refused."""

    def setUp(self) -> None:
        self.file = self.enterContext(temporary("start: nop\n ba strat\n nop\n", "wrong.s"))
        super().setUp()

    def test_a_source_that_is_refused(self) -> None:
        page = self.page
        self.assertIn("Line 2: it uses a name that no line defines", page.text("#source-refused"))
        self.assertIn("ba strat", page.find("#source-text").get_attribute("value"))
        page.run("document.getElementById('source-text').value = 'start: nop\\n ba start\\n nop\\n'")
        page.click("#source-use")
        self.assertEqual((page.text("#source-count"), page.find("#source-dialog").is_displayed()), ("3 lines", False))
