"""How long the stub takes. Other tests run beside these, so a few times what is due is allowed."""
from __future__ import annotations

import os
import time
import unittest
from pathlib import Path

from gdb.support import PROGRAMS, Packets

ALLOWED = 5
TIMER = PROGRAMS / "timer.txt"
INTERRUPT, BREAK, BEGIN = b"T02thread:1;", b"T05swbreak:;thread:1;", b"T05replaylog:begin;thread:1;"
# What GDB 13 reads from memory at each `stepi` of this program: instructions near PC, and at 8.
READ = [0, 0, -4, 0, -4, -4, 0, -4, 0]


def used(process: int) -> float:
    """The seconds that a process has worked."""
    fields = Path(f"/proc/{process}/stat").read_text().rpartition(")")[2].split()
    return (int(fields[11]) + int(fields[12])) / os.sysconf("SC_CLK_TCK")


class Speed(unittest.TestCase):
    """By packets, since GDB takes much longer."""

    def test_a_step(self) -> None:
        with Packets(TIMER) as gdb:
            gdb.command("goto 8")
            self.assertEqual(gdb.ask(b"bs"), b"T05thread:1;")
            pc, begun, count = 0x218, used(gdb.process.pid), 400
            for _ in range(count):
                following = 0x434 - pc
                for sent in (b"Z0,%x,4" % following, b"vCont;c", b"g", b"z0,%x,4" % following):
                    gdb.send(sent)
                    found = gdb.reply()
                    self.assertTrue(sent != b"vCont;c" or found == BREAK, found)
                for offset in READ:
                    gdb.ask(b"m%x,4" % (following + offset))
                for sent in (b"m8,4", b"qfThreadInfo", b"qsThreadInfo"):
                    gdb.ask(sent)
                pc = following
            self.assertLess((used(gdb.process.pid) - begun) / count, ALLOWED * 0.001)

    def test_a_million_steps(self) -> None:
        with Packets(TIMER) as gdb:
            gdb.command("end 1000000")
            gdb.ask(b"Z0,8888,4")
            for sent, due in ((b"c", INTERRUPT), (b"bc", BEGIN), (b"c", INTERRUPT)):
                begun = time.monotonic()
                self.assertEqual(gdb.ask(sent), due)
                self.assertLess(time.monotonic() - begun, ALLOWED * 0.2)
            gdb.ask(b"Z2,1a0,4")
            for sent, due in ((b"bc", BEGIN), (b"c", INTERRUPT)):
                begun = time.monotonic()
                self.assertEqual(gdb.ask(sent), due)
                self.assertLess(time.monotonic() - begun, ALLOWED * 0.4)

    def test_conditions_that_are_not_met(self) -> None:
        with Packets(TIMER) as gdb:
            gdb.command("end 40000")
            # From step 8 on, of 20 steps each 4 are the handler's and one is the interrupt.
            hits = (40_000 - 8) * 15 // 20 // 2
            # $g2 == -1; and *(int *)(0x1a0) == 0
            for code in (b"Xb,260002162022ff16081327", b"Xa,2301a019162022001327"):
                self.assertEqual(gdb.ask(b"Z0,218,4;" + code), b"OK")
                begun = time.monotonic()
                self.assertEqual(gdb.ask(b"c"), INTERRUPT)
                self.assertLess(time.monotonic() - begun, ALLOWED * hits * 0.0001)
                gdb.ask(b"vRun;")


if __name__ == "__main__":
    unittest.main()
