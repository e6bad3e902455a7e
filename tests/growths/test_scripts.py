"""Each growth of whole scripts is refused in turn.

One command is then answered `refused 1 OutOfMemory`, or none where the growth was of the lookaside buffer; the other
answers are those of the script without that command, and the counts are as they are due.
"""
from __future__ import annotations

import os
import re
import subprocess
import sys
import tempfile
import unittest
from dataclasses import dataclass
from pathlib import Path

from growths.support import DATA, REFUSED, TOP, built, commands, run

QUESTIONS = TOP / "tests/monitor/growths"
STEPS_BETWEEN_CHECKPOINTS = 256


@dataclass(frozen=True)
class Answer:
    """What a command answers, and the counts of the workbench after it."""

    text: bytes
    recorded: int
    worked: int


def answers_of(output: bytes) -> list[Answer]:
    """The answers that `sv8_cases FOLDER CASE` writes."""
    found = re.findall(rb"(.*?)^recorded (\d+) worked (\d+)\n", output, flags=re.DOTALL | re.MULTILINE)
    return [Answer(text, int(recorded), int(worked)) for text, recorded, worked in found]


def step_of_query(command: bytes) -> int | None:
    """The step that a query asks for; none of another command."""
    words = command.split()
    return int(words[1]) if words[0] in (b"regs", b"mem", b"out") else None


class Scripts(unittest.TestCase):
    """Scripts of the gate's cases, with the counts after each command."""

    def answers(self, script: bytes) -> list[Answer]:
        with tempfile.TemporaryDirectory() as folder:
            (Path(folder) / "script-w8.txt").write_bytes(script)
            return answers_of(run([built("sv8_cases"), folder, "script-w8"]).output)

    def each_is_kept(self, name: str) -> None:
        script = (DATA / f"{name}.txt").read_bytes()
        parts = commands(script)
        whole = self.answers(script)
        self.assertEqual(len(whole), len(parts))
        without = [self.answers(b"".join(parts[:at] + parts[at + 1 :])) for at in range(len(parts))]
        growth, refusals = 1, 0
        while (ran := run([built("sv8_cases"), DATA, name], refuse=growth)).refused:
            # Status 1: the program that writes this could not hold the texts.
            if ran.status == 0 and (found := answers_of(ran.output)) != whole:
                refusals += 1
                self.check_refusal(parts, whole, without, found, f"growth {growth}")
            growth += 1
        self.assertGreater(refusals, 0)

    def check_refusal(
        self, parts: list[bytes], whole: list[Answer], without: list[list[Answer]], found: list[Answer], about: str
    ) -> None:
        self.assertEqual(len(found), len(whole), about)
        at = next(it for it, (one, other) in enumerate(zip(found, whole)) if one != other)
        self.assertEqual(found[at].text, REFUSED, about)
        before = found[at - 1] if at else Answer(b"", 0, 0)
        step = step_of_query(parts[at])
        if step is None:
            self.assertEqual((found[at].recorded, found[at].worked), (before.recorded, before.worked), about)
            self.assertEqual(found[at + 1 :], without[at][at:], about)
        else:
            last = step - step % STEPS_BETWEEN_CHECKPOINTS
            self.assertIn(found[at].recorded, range(before.recorded, max(before.recorded, last) + 1), about)
            most = before.worked + step - min(before.recorded, last)
            self.assertIn(found[at].worked, range(before.worked, most + 1), about)
            self.assertEqual([it.text for it in found[at + 1 :]], [it.text for it in without[at][at:]], about)

    def test_page_tables(self) -> None:
        self.each_is_kept("page-table-walk-w8")

    def test_an_unread_word_poked_twice(self) -> None:
        self.each_is_kept("an-unread-word-is-poked-twice-w8")

    def test_a_byte_store_that_reads_its_word(self) -> None:
        self.each_is_kept("a-byte-store-reads-its-word-w8")

    def test_refusals(self) -> None:
        self.each_is_kept("refusals-w8")

    def test_input_in_the_past(self) -> None:
        self.each_is_kept("input-in-the-past-w8")

    def test_a_poke_over_a_store_is_cleared(self) -> None:
        self.each_is_kept("a-poke-over-a-store-is-cleared-w8")

    def test_bytes_of_an_unread_word(self) -> None:
        self.each_is_kept("bytes-of-an-unread-word-are-poked-w8")

    def test_local_labels(self) -> None:
        self.each_is_kept("local-labels-w8")

    def test_a_masked_request(self) -> None:
        self.each_is_kept("a-masked-request-and-its-clearing-w8")

    def test_a_request_above_the_mask(self) -> None:
        self.each_is_kept("a-request-above-the-mask-w8")

    def test_a_request_below_the_timer(self) -> None:
        self.each_is_kept("a-request-below-the-timer-w8")


class Program(unittest.TestCase):
    """The programs themselves, whose words and script take memory too."""

    def each_is_kept(self, program: str, script: Path) -> None:
        words = [sys.executable, TOP / "tools/refused_growths.py", os.environ[program], script]
        done = subprocess.run(words, capture_output=True, text=True, check=False)
        self.assertEqual(done.returncode, 0, done.stdout + done.stderr)

    def test_first_script(self) -> None:
        self.each_is_kept("SPARC8", DATA / "examples-first-w8.txt")

    def test_page_tables(self) -> None:
        self.each_is_kept("SPARC8", DATA / "examples-page-tables-w8.txt")

    def test_console_echo(self) -> None:
        self.each_is_kept("SPARC8", DATA / "examples-console-echo-w8.txt")

    def test_questions_of_a_boot_trap(self) -> None:
        self.each_is_kept("SPARC8_MONITOR", QUESTIONS / "boot.txt")

    def test_questions_of_what_if(self) -> None:
        self.each_is_kept("SPARC8_MONITOR", QUESTIONS / "what-if.txt")
