"""`./sparc8 --page`: which words it takes, what it prints, that it opens a browser, and that nothing is left behind."""
from __future__ import annotations

import http.client
import os
import shutil
import signal
import subprocess
from pathlib import Path
from urllib.parse import urlsplit

from .support import PROVES, TOP, InRepository, interrupt, left_in

SCRIPT = TOP / "tests/gdb/programs/boot.txt"


class Page(InRepository):
    """Runs in a repository that is proved by a fake, with the monitor that SPARC8_MONITOR names."""

    def setUp(self) -> None:
        super().setUp()
        shutil.copyfile(os.environ["SPARC8_MONITOR"], self.room / "program")
        shutil.copyfile(SCRIPT, self.room / "boot.txt")
        self.fake(PROVES)

    def environment(self) -> dict[str, str]:
        """That of the others, with a browser that writes down what it is to open."""
        browser = self.room / "browser"
        browser.write_text(
            f'#!/bin/sh\necho "$1" >{self.room}/opening; mv {self.room}/opening {self.room}/opened\n', encoding="utf-8"
        )
        browser.chmod(0o755)
        return {**super().environment(), "BROWSER": f"{browser} %s"}

    def page_of(self, process: subprocess.Popen[str]) -> str:
        """The address that a run prints."""
        assert process.stdout is not None
        address = process.stdout.readline().strip()
        self.assertRegex(address, r"^http://127\.0\.0\.1:\d+/#[\w-]{43}$")
        self.assertEqual(process.stdout.readline(), "Ctrl-C ends it\n")
        return address

    def asked(self, address: str, method: str, path: str, body: str = "") -> str:
        """What the server of a page answers."""
        connection = http.client.HTTPConnection(urlsplit(address).netloc, timeout=60)
        connection.request(method, path, body, {"X-Token": urlsplit(address).fragment})
        answer = connection.getresponse().read().decode()
        connection.close()
        return answer

    def test_wrong_words_are_answered_as_ever(self) -> None:
        for words in (["--windows", "3"], ["a", "b"], ["nowhere"], ["--bogus"], ["--help"], ["--windows"]):
            with self.subTest(words=words):
                due = self.sparc8(*words)
                for more in ([], ["--no-open"]):
                    done = self.sparc8("--page", *more, *words)
                    found = (done.returncode, done.stdout, done.stderr)
                    self.assertEqual(found, (due.returncode, due.stdout, due.stderr))
        self.assertIn("\n  --page ", self.sparc8("--help").stdout)
        self.assertEqual(self.calls(), [], "nothing is proved for it")

    def test_a_page_until_it_is_interrupted(self) -> None:
        self.sparc8("--program")
        with self.begun("--page", "--windows", "4", "boot.txt") as process:
            address = self.page_of(process)
            self.wait_for(self.room / "opened")
            self.assertEqual((self.room / "opened").read_text(encoding="utf-8").strip(), address)
            given = self.asked(address, "GET", "/given")
            self.assertIn('"windows": "4", "name": "boot.txt", "text": "edit 1 0 13', given)
            name = self.asked(address, "POST", "/open?4")
            told = self.asked(address, "POST", f"/ask?{name}", "edit 1 0 1\nmov 5, %g1\nwindows 1\n").splitlines()
            self.assertEqual((told[0], len(told)), ("ok", 6), "four windows")
            self.assertEqual(interrupt(process, signal.SIGINT), (0, ""))
        self.assert_nothing_left()

    def test_no_browser_is_opened(self) -> None:
        with self.begun("--page", "--no-open") as process:
            address = self.page_of(process)
            self.assertIn('"name": null', self.asked(address, "GET", "/given"))
            self.assertEqual(interrupt(process, signal.SIGTERM)[0], 143)
        self.assertFalse((self.room / "opened").exists())
        self.assert_nothing_left()

    def test_what_is_installed(self) -> None:
        shutil.copytree(TOP / "docs", self.top / "docs", dirs_exist_ok=True)
        prefix = self.room / "prefix"
        self.sparc8("--install", str(prefix))
        shutil.rmtree(self.top)
        shutil.copytree(prefix, self.top)
        (self.top / "sparc8").symlink_to("bin/sparc8")
        with self.begun("--page", "--no-open", "boot.txt") as process:
            address = self.page_of(process)
            for path, due in (("/", "<title>Rubliman"), ("/main.js", "import"), ("/examples/boot.txt", "edit 1 0 13")):
                self.assertIn(due, self.asked(address, "GET", path))
            name = self.asked(address, "POST", "/open?8")
            self.assertIn("step 0 run\n", self.asked(address, "POST", f"/ask?{name}", "regs 0\n"))
            self.assertEqual(interrupt(process, signal.SIGINT)[0], 0)
        self.assertTrue((prefix / "share/doc/rubliman/PAGE.md").is_file())
        self.assertEqual(left_in(Path(self.room)), [])
