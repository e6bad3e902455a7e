"""The monitor answers scripts of its own as it should, and each script of the workbench as the workbench does."""
from __future__ import annotations

import re
import unittest
from pathlib import Path

from monitor.support import TOP, answers

OWN = Path(__file__).with_name("cases")
WORKBENCH = TOP / "crates/sv8_cases/data"


def windows_of(script: Path) -> int:
    """The register windows that a script is for, which stand in its name."""
    found = re.search(r"-w(\d+)", script.stem)
    assert found, script
    return int(found[1])


class Cases(unittest.TestCase):
    """Scripts whose answers come from outside."""

    def answered(self, script: Path) -> None:
        told = answers(script.read_bytes(), windows_of(script)).splitlines()
        due = script.with_suffix(".answer").read_bytes().splitlines()
        for number, (line, wanted) in enumerate(zip(told, due, strict=False), start=1):
            self.assertEqual(line, wanted, f"{script.name}, line {number} of the answer")
        self.assertEqual(len(told), len(due), script.name)

    def kind(self, kind: str) -> None:
        scripts = sorted(OWN.glob(f"{kind}-*.txt"))
        self.assertTrue(scripts)
        for script in scripts:
            with self.subTest(script=script.name):
                self.answered(script)

    def test_searches(self) -> None:
        self.kind("steps")

    def test_conditions(self) -> None:
        self.kind("conditions")

    def test_what_is_kept(self) -> None:
        self.kind("before")

    def test_what_is_shown(self) -> None:
        self.kind("shown")

    def test_hostile_lines(self) -> None:
        self.kind("hostile")

    def test_mixed(self) -> None:
        self.kind("mixed")

    def test_examples(self) -> None:
        self.kind("example")

    def test_each_file_of_the_workbench_is_read(self) -> None:
        """A file with another ending, or with no script, would be passed over without a word."""
        for file in WORKBENCH.iterdir():
            with self.subTest(file=file.name):
                name, _, ending = file.name.partition(".")
                self.assertIn(ending, ("txt", "answer", "counts", "k1.counts", "k4.counts"))
                self.assertTrue((WORKBENCH / f"{name}.txt").is_file())
                self.assertTrue((WORKBENCH / f"{name}.answer").is_file())

    def test_scripts_of_the_workbench(self) -> None:
        scripts = sorted(it for it in WORKBENCH.glob("*.txt") if it.with_suffix(".answer").exists())
        self.assertTrue(scripts)
        for script in scripts:
            with self.subTest(script=script.name):
                self.answered(script)
