"""A server of its own for each test, requests by hand, and the page in headless Chromium."""
from __future__ import annotations

import contextlib
import http.client
import json
import os
import re
import signal
import subprocess
import sys
import tempfile
import time
import unittest
from collections.abc import Iterator, Sequence
from pathlib import Path
from urllib.parse import urlsplit

from selenium import webdriver
from selenium.webdriver.chrome.options import Options
from selenium.webdriver.chrome.service import Service
from selenium.webdriver.common.action_chains import ActionChains
from selenium.webdriver.common.by import By
from selenium.webdriver.common.keys import Keys
from selenium.webdriver.remote.webelement import WebElement

TOP = Path(__file__).resolve().parents[2]
SITE = TOP / "lib/rubliman/page/site"
CASES = TOP / "crates/sv8_cases/data"
SECONDS = 120
CHROMIUM, DRIVER = "/usr/bin/chromium", "/usr/bin/chromedriver"
_FLAGS = "--headless=new --no-sandbox --disable-gpu --disable-dev-shm-usage --no-first-run --hide-scrollbars".split()
# Resolves when the page has begun and has nothing under way.
_IDLE = """const done = arguments[0];
(async () => {
  while (!window.rubliman) await new Promise((it) => setTimeout(it, 10));
  for (let times = 0; times < 2; times++) {
    await rubliman.idle();
    await new Promise((it) => requestAnimationFrame(() => setTimeout(it, 0)));
  }
})().then(() => done(null), (problem) => done(String(problem)));"""
# Notes what the content policy stops.
_NOTES = "window.stopped = []; addEventListener('securitypolicyviolation', (it) => stopped.push(it.violatedDirective));"


def program() -> str:
    """The monitor that is asked."""
    return os.environ["SPARC8_MONITOR"]


class Server:
    """A server of the page, as a context."""

    def __init__(self, file: Path | str | None = None, windows: str = "8") -> None:
        words = [sys.executable, "-B", "-m", "rubliman.page", "--program", program(), "--windows", windows, "--no-open"]
        self._words = [*words, *([str(file)] if file else [])]

    def __enter__(self) -> Server:
        environment = {**os.environ, "PYTHONPATH": str(TOP / "lib")}
        self.process = subprocess.Popen(
            self._words, env=environment, stdout=subprocess.PIPE, stderr=subprocess.PIPE, text=True
        )
        assert self.process.stdout is not None
        self.address = self.process.stdout.readline().strip()
        assert self.address.startswith("http://127.0.0.1:"), self.address
        self.port = int(urlsplit(self.address).port or 0)
        self.token = urlsplit(self.address).fragment
        return self

    def __exit__(self, *_: object) -> None:
        self.process.terminate()
        with contextlib.suppress(ValueError):
            self.process.communicate(timeout=SECONDS)

    def runs(self) -> list[int]:
        """The processes of the monitor that it keeps."""
        found = subprocess.run(["pgrep", "-P", str(self.process.pid)], stdout=subprocess.PIPE, text=True, check=False)
        return [int(it) for it in found.stdout.split()]

    def request(
        self,
        method: str,
        path: str,
        body: bytes | None = None,
        headers: dict[str, str] | None = None,
        token: bool = True,
    ) -> tuple[int, dict[str, str], bytes]:
        """The status, the headers and the body of an answer."""
        connection = http.client.HTTPConnection("127.0.0.1", self.port, timeout=SECONDS)
        try:
            given = {**({"X-Token": self.token} if token else {}), **(headers or {})}
            connection.request(method, path, body, given)
            answer = connection.getresponse()
            return answer.status, dict(answer.getheaders()), answer.read()
        finally:
            connection.close()

    def open(self, windows: str = "8") -> str:
        """A new run's name."""
        status, _, body = self.request("POST", f"/open?{windows}", b"")
        assert status == 200, body
        return body.decode()

    def ask(self, name: str, text: str) -> tuple[int, str]:
        """What a run is answered."""
        status, _, body = self.request("POST", f"/ask?{name}", text.encode())
        return status, body.decode()


def until(holds: object, seconds: float = 30) -> bool:
    """Waits until something holds, and tells whether it does."""
    end = time.monotonic() + seconds
    while time.monotonic() < end:
        if holds():  # type: ignore[operator]
            return True
        time.sleep(0.02)
    return False


def chromium(folder: str, width: int, height: int) -> webdriver.Chrome:
    """A browser with a profile in that folder, which tells what its console and its network see."""
    options = Options()
    for it in [*_FLAGS, f"--user-data-dir={folder}", f"--window-size={width},{height}"]:
        options.add_argument(it)
    options.binary_location = CHROMIUM
    options.set_capability("goog:loggingPrefs", {"browser": "ALL", "performance": "ALL"})
    options.add_experimental_option("prefs", {"download.default_directory": f"{folder}/downloads"})
    driver = webdriver.Chrome(options=options, service=Service(DRIVER, log_path=os.devnull))
    driver.set_script_timeout(SECONDS)
    driver.execute_cdp_cmd("Page.addScriptToEvaluateOnNewDocument", {"source": _NOTES})
    return driver


class Page:
    """The page in a tab of a browser."""

    def __init__(self, driver: webdriver.Chrome, folder: str) -> None:
        self.driver, self.folder = driver, folder

    def size(self, width: int, height: int) -> None:
        """Sets the size of what is shown."""
        metrics = {"width": width, "height": height, "deviceScaleFactor": 1, "mobile": False}
        self.driver.execute_cdp_cmd("Emulation.setDeviceMetricsOverride", metrics)
        self.idle()

    def visit(self, address: str) -> None:
        """Opens an address, and waits until it is there."""
        self.driver.get(address)
        self.idle()

    def idle(self) -> None:
        """Waits until nothing is under way."""
        problem = self.driver.execute_async_script(_IDLE)
        assert problem is None, problem

    def run(self, text: str, *given: object) -> object:
        """What JavaScript gives."""
        return self.driver.execute_script(text, *given)

    def asked(self, text: str, *given: object) -> object:
        """What JavaScript gives that may wait: the body of an asynchronous function."""
        wrapped = (
            "const done = arguments[arguments.length - 1]; const given = [...arguments].slice(0, -1);"
            f"(async () => {{ {text} }})().then((it) => done([it]), (it) => done(String(it.stack)));"
        )
        found = self.driver.execute_async_script(wrapped, *given)
        assert isinstance(found, list), found
        return found[0]

    def find(self, selector: str) -> WebElement:
        """The first element of a selector."""
        return self.driver.find_element(By.CSS_SELECTOR, selector)

    def all(self, selector: str) -> list[WebElement]:
        """All elements of a selector."""
        return self.driver.find_elements(By.CSS_SELECTOR, selector)

    def text(self, selector: str) -> str:
        """The text of an element, blanks as one."""
        return " ".join(str(self.run("return document.querySelector(arguments[0]).textContent", selector)).split())

    def texts(self, selector: str) -> list[str]:
        """The same of all elements."""
        found = self.run("return [...document.querySelectorAll(arguments[0])].map((it) => it.textContent)", selector)
        return [" ".join(str(it).split()) for it in found]  # type: ignore[attr-defined]

    def click(self, selector: str, number: int = 0) -> None:
        """Clicks, and waits."""
        self.all(selector)[number].click()
        self.idle()

    def keys(self, *keys: str) -> None:
        """Presses keys, one by one, and waits for each. `Shift+`, `Alt+` and `Ctrl+` may stand in front."""
        for it in keys:
            self.press(it)
            self.idle()

    def press(self, key: str) -> None:
        """Presses a key."""
        *held, last = re.split(r"\+(?=.)", key)
        names = [{"Shift": Keys.SHIFT, "Alt": Keys.ALT, "Ctrl": Keys.CONTROL}[it] for it in held]
        chain = ActionChains(self.driver, duration=0)
        for name in names:
            chain = chain.key_down(name)
        chain = chain.send_keys(
            last if len(last) == 1 else getattr(Keys, re.sub(r"(?<=[a-z])(?=[A-Z])", "_", last).upper())
        )
        for name in reversed(names):
            chain = chain.key_up(name)
        chain.perform()

    def type(self, text: str) -> None:
        """Types text into what has the focus, in the place of what stands there."""
        self.driver.switch_to.active_element.send_keys(Keys.CONTROL, "a")
        self.driver.switch_to.active_element.send_keys(text)

    def go(self, step: int) -> None:
        """Goes to a step, by the keyboard."""
        self.press("s")
        self.type(str(step))
        self.keys("Enter")

    def step(self) -> int:
        """The step that is shown."""
        return int(self.run("return rubliman.bench.view.n"))  # type: ignore[call-overload]

    def mark(self, line: int) -> None:
        """Marks a line of the source, by the keyboard."""
        self.run("document.getElementById('lines').focus()")
        now = int(self.run("return rubliman.marked().at"))  # type: ignore[call-overload]
        self.keys(*["ArrowDown" if line > now else "ArrowUp"] * abs(line - now))

    def edit(self, line: int, text: str, opens: str = "Enter") -> None:
        """Types in the place of a line, or behind it by `o`."""
        self.mark(line)
        self.press(opens)
        self.type(text)
        self.keys("Enter")

    def example(self, name: str) -> None:
        """Opens an example."""
        self.keys("b")
        self.click(f"[data-example={name}]")

    def open_text(self, text: str, name: str = "it.txt", windows: str = "8") -> object:
        """Opens a text as a file would be, and gives what it is refused with."""
        found = self.asked(
            "return await rubliman.bench.open({ text: given[0], name: given[1], windows: given[2] });",
            text,
            name,
            windows,
        )
        self.idle()
        return found

    def memory(self, count: int) -> list[str]:
        """The first words of memory that are shown."""
        script = "return [...document.querySelectorAll('.cell')].map((it) => it.firstChild.textContent)"
        return list(self.run(script))[:count]  # type: ignore[call-overload]

    def look_up(self, address: str) -> None:
        """Shows an address of memory, by the keyboard."""
        self.press("g")
        self.type(address)
        self.keys("Enter")

    def what_ifs(self) -> list[bool]:
        """Which what-ifs are on."""
        script = "return [...document.querySelectorAll('#list [data-toggle]')].map((it) => it.checked)"
        return list(self.run(script))  # type: ignore[call-overload]

    def registers(self) -> list[str]:
        """The 32 registers that are shown, in the order of their numbers."""
        rows = self.run(
            "return [...document.querySelectorAll('#window tbody tr')].map((row) =>"
            " [...row.querySelectorAll('td')].map((it) => it.firstChild.textContent))"
        )
        return [row[column] for column in range(4) for row in rows]  # type: ignore[attr-defined]

    def console(self) -> list[str]:
        """What the browser's console told since it was asked last."""
        return [it["message"] for it in self.driver.get_log("browser")]

    def requests(self) -> list[str]:
        """The addresses that were asked for since that was asked last."""
        found = []
        for it in self.driver.get_log("performance"):
            message = json.loads(it["message"])["message"]
            if message["method"] == "Network.requestWillBeSent":
                found.append(message["params"]["request"]["url"])
            elif message["method"] == "Network.webSocketCreated":
                found.append(message["params"]["url"])
        return found


class InBrowser(unittest.TestCase):
    """A test of the page. At its end nothing was told at the console, stopped by the policy, or asked of others."""

    width, height = 1280, 720
    file: Path | str | None = None
    windows = "8"

    def setUp(self) -> None:
        self.server = self.enterContext(Server(self.file, self.windows))
        folder = self.enterContext(tempfile.TemporaryDirectory(prefix="page-test-", ignore_cleanup_errors=True))
        driver = chromium(folder, self.width, self.height)
        self.addCleanup(driver.quit)
        self.page = Page(driver, folder)
        metrics = {"width": self.width, "height": self.height, "deviceScaleFactor": 1, "mobile": False}
        driver.execute_cdp_cmd("Emulation.setDeviceMetricsOverride", metrics)
        self.page.visit(self.server.address)
        self.addCleanup(self.check_console)

    def check_console(self) -> None:
        """What must hold at the end of each test."""
        self.assertEqual(self.page.console(), [])
        self.assertEqual(self.page.run("return window.stopped"), [])
        # Those of `chrome:` are the browser's own first tab, which asks nothing of the network.
        own = (
            f"http://127.0.0.1:{self.server.port}/",
            f"ws://127.0.0.1:{self.server.port}/",
            "blob:",
            "data:",
            "chrome",
        )
        self.assertEqual([it for it in self.page.requests() if not it.startswith(own)], [])

    def assert_verdict(self, *parts: str) -> None:
        """These stand in the row of the first difference."""
        found = self.page.text("#first")
        for it in parts:
            self.assertIn(it, found)


@contextlib.contextmanager
def temporary(text: str, name: str = "it.txt") -> Iterator[Path]:
    """A file with a text."""
    with tempfile.TemporaryDirectory(prefix="page-test-") as folder:
        file = Path(folder, name)
        file.write_text(text, encoding="utf-8")
        yield file


def answers(words: Sequence[str], script: str) -> list[list[str]]:
    """The answers of a program to a script: for each command its lines and the last one."""
    done = subprocess.run(words, input=script, capture_output=True, text=True, check=True, timeout=SECONDS)
    found: list[list[str]] = [[]]
    for line in done.stdout.splitlines():
        found[-1].append(line)
        if line == "ok" or line.startswith("refused "):
            found.append([])
    return found[:-1]


def end(process: int, number: signal.Signals = signal.SIGKILL) -> None:
    """Ends a process."""
    os.kill(process, number)
