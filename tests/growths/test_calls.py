"""Each growth of the calls that take memory is refused in turn.

A refused call leaves all as it was, and made once more it does its work.
"""
from __future__ import annotations

import unittest

from growths.support import built, run


class Calls(unittest.TestCase):
    """The parts of `sv8_growths`, which looks at each refused call itself."""

    def each_is_kept(self, part: str) -> None:
        program = built("sv8_growths")
        told = {f"{part} kept\n".encode(), f"{part} refused\n".encode()}
        growth = 1
        while (ran := run([program, part], refuse=growth)).refused:
            if ran.status == 0:
                self.assertIn(ran.output, told, f"growth {growth}")
            else:
                # The words of the command line could not be had.
                self.assertEqual(ran.output, b"", f"growth {growth}")
            growth += 1
        self.assertEqual(ran.output, f"{part} kept\n".encode())
        self.assertGreater(growth, 30)

    def test_timeline(self) -> None:
        self.each_is_kept("timeline")

    def test_memory(self) -> None:
        self.each_is_kept("memory")

    def test_machine(self) -> None:
        self.each_is_kept("machine")

    def test_trace(self) -> None:
        self.each_is_kept("trace")

    def test_traps(self) -> None:
        self.each_is_kept("traps")

    def test_assembler(self) -> None:
        self.each_is_kept("assembler")

    def test_queries(self) -> None:
        self.each_is_kept("queries")
