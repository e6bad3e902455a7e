"""GDB as editors run it, Ctrl-C, and how a session begins."""
from __future__ import annotations

import os
import signal
import subprocess
import tempfile
import time
import unittest
from pathlib import Path

from rubliman.gdb.command import SESSION, words_of_gdb

from gdb.support import COMMAND, PROGRAMS, build, environment, gdb, program, typed

BOOT, TIMER = f"{COMMAND} tests/gdb/programs/boot.txt", PROGRAMS / "timer.txt"


class Clients(unittest.TestCase):
    """Sessions of which a few lines are looked at."""

    def assert_lines(self, shown: str, *due: str) -> None:
        """These lines are among those that were shown, in this order."""
        at = 0
        for it in due:
            found = shown.find(f"\n{it}", at)
            self.assertGreaterEqual(found, 0, f"{it}\n\n{shown}")
            at = found + 1

    def test_the_beginning(self) -> None:
        shown = gdb(BOOT, [])
        self.assertTrue(shown.startswith("Remote debugging using | env PYTHONPATH=lib "), shown)
        self.assert_lines(shown, "Reading symbols from target:/workbench.elf...\nat_0 () at source.s:1\n1\t")

    def test_what_is_refused_of_a_script(self) -> None:
        with tempfile.TemporaryDirectory() as folder:
            lines = b"edit 1 0 2, mov 1, frob,bogus,regs,poke 0 400 1,poke 0 401 1,edit 1 0 2, nop".split(b",")
            Path(folder, "it.txt").write_bytes(b"\r\n".join(lines))
            shown = gdb(f"{COMMAND} it.txt", ["monitor events 0 9", "monitor list"], Path(folder))
        self.assertIn("it.txt:1: refused 6 Syntax line 1\nit.txt:4: refused 18 BadCommand\n", shown)
        self.assertIn("it.txt:7: refused 14 BadAddress\nit.txt:8: refused 18 BadCommand\n", shown)
        self.assert_lines(shown, "(gdb) poke 0 00000400 00000001\n(gdb) (gdb) ")

    def test_a_script_goes_up_to_quit(self) -> None:
        with tempfile.TemporaryDirectory() as folder:
            Path(folder, "it.txt").write_text("poke 0 400 1\nkeep\npoke 0 404 1\nlist\nquit\nbogus\n")
            shown = gdb(f"{COMMAND} it.txt", ["monitor differ", "onestep", "monitor differ"], Path(folder))
        self.assertNotIn("refused", shown)
        self.assert_lines(shown, "(gdb) no word of RAM differs at step 0", "(gdb) 00000404 00000000 00000001")

    def test_the_machine_interface(self) -> None:
        commands = [
            "-break-insert end",
            "-exec-continue",
            "-exec-step-instruction --reverse",
            "-data-write-memory-bytes 0x1c 01000000",
            "-exec-step-instruction",
            "-data-evaluate-expression $step",
            "-data-list-register-values x 8 68",
            "-data-read-memory-bytes 0x1c 4",
            '-interpreter-exec console "goto 6"',
            "-stack-list-frames",
            "-exec-continue --reverse",
            "-gdb-exit",
        ]
        shown = gdb(BOOT, commands, more=["--interpreter=mi2"])
        self.assert_lines(
            shown,
            '*stopped,frame={addr="0x00000000",func="at_0"',
            '^done,bkpt={number="1",type="breakpoint",disp="keep",enabled="y",addr="0x0000001c"',
            '*stopped,reason="breakpoint-hit",disp="keep",bkptno="1",frame={addr="0x0000001c",func="end"',
            '*stopped,reason="end-stepping-range",frame={addr="0x00001818",func="at_1810"',
            '*stopped,reason="breakpoint-hit",disp="keep",bkptno="1",frame={addr="0x0000001c",func="end"',
            '^done,value="10"',
            '^done,register-values=[{number="8",value="0x2a"},{number="68",value="0x1c"}]',
            '^done,memory=[{begin="0x0000001c",offset="0x00000000",end="0x00000020",contents="01000000"}]',
            '@"step 6\\n"',
            '^done,stack=[frame={level="0",addr="0x00000018",func="at_0",file="source.s"',
            "*stopped,frame=",
            "^exit",
        )

    def test_what_an_editor_asks_of_a_c_program(self) -> None:
        with tempfile.TemporaryDirectory() as folder:
            build(Path(folder))
            stub = f"env PYTHONPATH=lib python3 -B -m rubliman.gdb --program {program()} sum.txt"
            commands = [
                "-file-exec-and-symbols sum.elf",
                f'-interpreter-exec console "source {SESSION}"',
                f"-target-select remote | {stub}",
                '-interpreter-exec console "monitor windows on"',
                "-break-insert -f sum.c:14",
                "-exec-continue",
                "-stack-list-frames",
                "-stack-list-variables --simple-values",
                "-var-create - * list->value",
                "-exec-finish",
                '-interpreter-exec console "reverse-next"',
                "-gdb-exit",
            ]
            shown = typed(["gdb-multiarch", "-q", "-nx", "--interpreter=mi2"], commands, Path(folder))
        self.assert_lines(
            shown,
            '*stopped,frame={addr="0x00000000",func="_start"',
            "^connected",
            '^done,bkpt={number="1",type="breakpoint"',
            '*stopped,reason="breakpoint-hit",disp="keep",bkptno="1"',
            '^done,stack=[frame={level="0"',
            '^done,variables=[{name="list",arg="1",type="const struct node *",value="0x',
            '^done,name="var1",numchild="0",value="40",type="int"',
            '*stopped,reason="function-finished"',
            '*stopped,reason="breakpoint-hit",disp="keep",bkptno="1"',
            "^exit",
        )

    def test_ctrl_c(self) -> None:
        with tempfile.TemporaryDirectory() as left, subprocess.Popen(
            words_of_gdb(program(), "8", str(TIMER), ["-nx"]),
            env=environment(left),
            stdin=subprocess.PIPE,
            stdout=subprocess.PIPE,
            stderr=subprocess.STDOUT,
            text=True,
        ) as process:
            assert process.stdin is not None
            # A condition that is judged for long, so that Ctrl-C comes before the end of time.
            process.stdin.write("monitor end 1000000\nbreak loop if $g2 == -1\ncontinue\n")
            process.stdin.flush()
            time.sleep(2)
            process.send_signal(signal.SIGINT)
            begun = time.monotonic()
            shown = process.communicate("p $step\n", timeout=60)[0]
            self.assertLess(time.monotonic() - begun, 20)
            self.assertEqual(os.listdir(left), [])
        self.assert_lines(shown, "Program received signal SIGINT, Interrupt.\n", "(gdb) $1 = ")
        self.assertLess(int(shown.rpartition("$1 = ")[2].split()[0]), 1_000_000)


if __name__ == "__main__":
    unittest.main()
