"""Packets by hand, and the replies to the letter."""
from __future__ import annotations

import os
import random
import time
import unittest

from gdb.support import PROGRAMS, Packets

BOOT, TABLES, CONSOLE = (PROGRAMS / f"{it}.txt" for it in ("boot", "tables", "console"))
STOP = b"T05thread:1;"
BREAK = b"T05swbreak:;thread:1;"
BEGIN = b"T05replaylog:begin;thread:1;"
INTERRUPT = b"T02thread:1;"
END_OF_TIME = b"O" + b"step 1000000 is the end of time\n".hex().encode()
ABORT = b"T06thread:1;"
NO_REGISTERS = b"E.registers belong to the run: poke memory, edit the source, or go to another step"
ZERO, ABSENT = b"00000000", b"xxxxxxxx"
# The registers of this target by their numbers.
PC, STEP = b"p44", b"p48"


class Replies(unittest.TestCase):
    """One session for each group of packets."""

    def each(self, gdb: Packets, *pairs: tuple[bytes, bytes]) -> None:
        for sent, due in pairs:
            with self.subTest(sent=sent):
                self.assertEqual(gdb.ask(sent), due)

    def test_the_beginning(self) -> None:
        with Packets(BOOT) as gdb:
            self.assertEqual(
                gdb.ask(b"qSupported:multiprocess+;swbreak+;hwbreak+"),
                b"PacketSize=4000;QStartNoAckMode+;swbreak+;hwbreak+;ReverseStep+;ReverseContinue+;vContSupported+;"
                b"qXfer:features:read+;qXfer:exec-file:read+;error-message+;ConditionalBreakpoints+",
            )
            self.each(gdb, (b"vMustReplyEmpty", b""), (b"QStartNoAckMode", b"OK"))
            gdb.acknowledges = False
            self.each(
                gdb,
                (b"!", b"OK"),
                (b"Hg0", b"OK"),
                (b"qTStatus", b""),
                (b"?", STOP),
                (b"qfThreadInfo", b"m1"),
                (b"qsThreadInfo", b"l"),
                (b"qAttached", b"1"),
                (b"qAttached:1", b""),
                (b"Hc-1", b"OK"),
                (b"qOffsets", b""),
                (b"qC", b"QC1"),
                (b"T1", b"OK"),
                (b"qSymbol::", b""),
                (b"qSearch:memory:0;10;00", b""),
                (b"qCRC:0,10", b""),
                (b"vCont?", b"vCont;c;C;s;S"),
                (b"", b""),
            )

    def test_registers(self) -> None:
        with Packets(BOOT) as gdb:
            state = [ZERO, b"00000080", ZERO, ZERO, ZERO, b"00000004", ABSENT, ABSENT]
            self.each(
                gdb,
                (b"g", b"".join([ZERO] * 32 + [ABSENT] * 32 + state)),
                (b"p41", b"00000080"),
                (b"p47", ABSENT),
                (STEP, ZERO),
                (b"p52", ZERO),
                (b"p53", b"E01"),
                (b"pxyz", b"E01"),
                (b"p-1", b"E01"),
                (b"P3=00000001", NO_REGISTERS),
                (b"G00", NO_REGISTERS),
            )
            self.assertEqual(gdb.command("goto 9"), "")
            self.each(gdb, (STEP, b"00000009"), (PC, b"00001818"))

    def test_the_description(self) -> None:
        with Packets() as gdb:
            found, offset = b"", 0
            while True:
                part = gdb.ask(b"qXfer:features:read:target.xml:%x,200" % offset)
                self.assertLessEqual(len(part), 0x201)
                found, offset = found + part[1:], offset + len(part) - 1
                if part[:1] == b"l":
                    break
            self.assertTrue(found.startswith(b"<?xml") and found.endswith(b"</target>"), found)
            self.assertEqual(found.count(b"<reg "), 83)
            self.each(
                gdb,
                (b"qXfer:features:read:target.xml:fffff,10", b"l"),
                (b"qXfer:features:read:other.xml:0,10", b""),
                (b"qXfer:features:read:target.xml:zz", b"E01"),
            )

    def test_memory(self) -> None:
        with Packets(BOOT) as gdb:
            self.each(
                gdb,
                (b"m0,4", b"03000004"),
                (b"m1,2", b"0000"),
                (b"m0,0", b""),
                (b"mffffe,8", b"0000"),
                (b"m100000,4", b"E14"),
                (b"m80000000,4", b"E14"),
                (b"mfffffffe,8", b"E14"),
                (b"m0", b"E01"),
                (b"m0,100000000", b"E01"),
                (b"M1400,4:0000001e", b"OK"),
                (b"m1400,4", b"0000001e"),
                (b"M1401,6:0a0b0c0d0e0f", b"OK"),
                (b"m1400,8", b"000a0b0c0d0e0f00"),
                (b"M1400,4:00", b"E01"),
                (b"M1400,1:zz", b"E01"),
                (b"X1400,0:", b"OK"),
                (b"X1400,4:}\x03}\x04}\x5d\x01", b"OK"),
                (b"m1400,4", b"23247d01"),
                (b"M100000,4:00000001", b"E.refused 14 BadAddress"),
                (b"X80000008,1:A", b"E.refused 14 BadAddress"),
            )
            self.assertEqual(len(gdb.ask(b"m0,ffffffff")), 0x4000)
            # At the next step they are no pokes any more, but memory.
            bytes_behind = "".join(f"pokeb 0 0000140{it} 0{it + 9:X}\n" for it in (4, 5, 6))
            self.assertEqual(gdb.command("events 0 1"), f"poke 0 00001400 23247D01\n{bytes_behind}")
            gdb.command("goto 1")
            self.each(gdb, (b"m1400,8", b"23247d010d0e0f00"), (b"M1400,4:00000001", b"OK"))
            gdb.command("unpoke . 1400")
            self.each(gdb, (b"m1400,4", b"23247d01"))

    def test_addresses_of_the_program(self) -> None:
        with Packets(TABLES) as gdb:
            gdb.command("goto 60")
            self.each(gdb, (b"m5678,4", b"abcd1234"), (b"m20678,4", b"E14"), (b"M20678,4:00000001", b"E14"))
            # Page 6 is not mapped.
            self.assertEqual(gdb.ask(b"m5000,1001"), (ZERO * 414 + b"abcd1234" + ZERO * 609))
            self.assertEqual(gdb.command("physical on"), "")
            self.each(gdb, (b"m20678,4", b"abcd1234"))

    def test_breakpoints_and_the_way_back(self) -> None:
        with Packets(BOOT) as gdb:
            self.each(
                gdb,
                (b"bs", BEGIN),
                (b"bc", BEGIN),
                (b"Z0,18,4", b"OK"),
                (b"Z0,18,4", b"OK"),
                (b"vCont;c", BREAK),
                (STEP, b"00000006"),
                (b"z0,18,4", b"OK"),
                (b"z0,18,4", b"OK"),
                (b"Z1,1814,4", b"OK"),
                (b"c", BREAK),
                (STEP, b"00000008"),
                (b"bs", STOP),
                (STEP, b"00000007"),
                (b"vCont;s:1", STOP),
                (STEP, b"00000008"),
                (b"bc", BEGIN),
                (STEP, ZERO),
                (b"vCont;t", b""),
                (b"Z5,0,4", b""),
                (b"Z0,xyz,4", b"E01"),
                (b"Z2,0,0", b"E01"),
                (b"Z0,100000000,4", b"E01"),
            )

    def test_conditions(self) -> None:
        with Packets(CONSOLE) as gdb:
            gdb.command("end 900")
            # The instruction at 8 is that of steps 2, 6, 10 and 14, when the first byte waits, and then of step 21.
            self.each(
                gdb,
                # $step == 14
                (b"Z0,8,4;X6,260048220e1327", b"E01"),
                (b"Z0,8,4;X7,260048220e1327", b"OK"),
                (b"vCont;c", BREAK),
                (STEP, b"0000000e"),
                (PC, b"00000008"),
                # $step == 14 || $g2 == 1: one byte is left at step 21
                (b"Z0,8,4;X7,260048220e1327;X7,26000222011327", b"OK"),
                (b"vCont;c", BREAK),
                (STEP, b"00000015"),
                (b"bc", BREAK),
                (STEP, b"0000000e"),
                (b"bc", BEGIN),
                # Never, and at each step whose instruction at PC has the two highest bits 10.
                (b"Z0,8,4;X3,220027", b"OK"),
                (b"Z0,c,4;Xa,26004419221e0b22021327", b"E01"),
                (b"Z0,c,4;Xb,26004419221e0b22021327", b"OK"),
                (b"vCont;c", INTERRUPT),
                (STEP, b"00000384"),
                (b"Z0,8,4;Xb,26004419221e0b22021327", b"OK"),
                (b"bc", BREAK),
                (PC, b"00000008"),
            )

    def test_a_condition_that_is_gdbs_to_judge(self) -> None:
        with Packets(BOOT) as gdb:
            for code in (b"X2,0c27", b"X6,2400200000" + b"19", b"X5,2600471327"):
                self.each(gdb, (b"vRun;", STOP), (b"Z0,18,4;" + code, b"OK"), (b"c", BREAK), (STEP, b"00000006"))

    def test_error_mode(self) -> None:
        with Packets(BOOT) as gdb:
            for line in ("edit 4 4 1", "        mov     0xf80, %psr", "goto 0", "end 2000"):
                gdb.command(line)
            self.each(
                gdb,
                (b"c", STOP),
                (b"c", ABORT),
                (STEP, b"00000007"),
                (b"vCont;C06:1;c", ABORT),
                (b"s", ABORT),
                (STEP, b"00000007"),
                (b"bs", STOP),
                (STEP, b"00000006"),
                (b"bc", BEGIN),
            )
            gdb.command("goto 2000")
            self.each(gdb, (b"bs", STOP), (b"bs", STOP), (STEP, b"00000006"))

    def test_the_end_of_time(self) -> None:
        with Packets(BOOT) as gdb:
            self.assertEqual(gdb.command("end 12"), "step 0 of 12\n")
            self.each(gdb, (b"c", INTERRUPT), (STEP, b"0000000c"), (b"c", INTERRUPT), (b"s", INTERRUPT))
            self.assertEqual(gdb.said.decode(), "step 0 of 12\n" + "step 12 is the end of time\n" * 3)
            self.each(gdb, (b"bs", STOP), (b"s", INTERRUPT), (STEP, b"0000000c"))
            self.assertEqual(gdb.command("end 1000001"), "step 12 of 1000000\n")
            self.assertEqual(gdb.command("end 3"), "step 12 of 12\n")

    def test_watchpoints(self) -> None:
        with Packets(TABLES) as gdb:
            # The handler stores the entry at step 43; the walk of step 46 marks it.
            self.each(
                gdb,
                (b"Z2,1914,4", b"OK"),
                (b"c", b"T05watch:1914;thread:1;"),
                (STEP, b"0000002c"),
                (b"c", b"T05watch:1914;thread:1;"),
                (STEP, b"0000002f"),
                (b"bc", b"T05watch:1914;thread:1;"),
                (STEP, b"0000002e"),
                (b"bc", b"T05watch:1914;thread:1;"),
                (STEP, b"0000002b"),
                (b"bc", BEGIN),
                (b"z2,1914,4", b"OK"),
            )

    def test_watchpoints_of_an_address_that_comes_to_lead_somewhere(self) -> None:
        with Packets(TABLES) as gdb:
            # At step 44 it leads to 20678, where step 46 stores.
            self.each(
                gdb,
                (b"Z2,5678,4", b"OK"),
                (b"c", b"T05watch:5678;thread:1;"),
                (STEP, b"00000016"),
                (b"c", b"T05watch:5678;thread:1;"),
                (STEP, b"0000002c"),
                (b"c", b"T05watch:5678;thread:1;"),
                (STEP, b"0000002f"),
                (b"bc", b"T05watch:5678;thread:1;"),
                (STEP, b"0000002e"),
                (b"bc", b"T05watch:5678;thread:1;"),
                (STEP, b"0000002b"),
                (b"bc", b"T05watch:5678;thread:1;"),
                (STEP, b"00000015"),
                (b"bc", BEGIN),
            )

    def test_watchpoints_of_loads_and_stores(self) -> None:
        with Packets(TABLES) as gdb:
            # Step 46 stores a word at 5678, step 47 loads its second half.
            self.each(
                gdb,
                (b"Z3,5679,2", b"OK"),
                (b"c", b"T05rwatch:5679;thread:1;"),
                (STEP, b"00000030"),
                (b"bc", b"T05rwatch:5679;thread:1;"),
                (STEP, b"0000002f"),
                (b"bc", BEGIN),
                (b"z3,5679,2", b"OK"),
                (b"Z4,5679,2", b"OK"),
                (b"c", b"T05awatch:5679;thread:1;"),
                (STEP, b"0000002f"),
                (b"c", b"T05awatch:5679;thread:1;"),
                (STEP, b"00000030"),
                (b"bs", b"T05awatch:5679;thread:1;"),
                (STEP, b"0000002f"),
            )

    def test_a_watched_poke(self) -> None:
        with Packets(BOOT) as gdb:
            gdb.command("poke 4 1400 1e")
            self.each(
                gdb,
                (b"Z2,1400,4", b"OK"),
                (b"c", b"T05watch:1400;thread:1;"),
                (STEP, b"00000004"),
                (b"m1400,4", b"0000001e"),
                (b"bs", STOP),
                (b"m1400,4", ZERO),
                (b"vRun;;37", STOP),
                (b"Z2,1400,4", b"OK"),
                (b"bc", b"T05watch:1400;thread:1;"),
                (STEP, b"00000003"),
                (b"bc", BEGIN),
            )

    def test_run_again(self) -> None:
        with Packets(BOOT) as gdb:
            self.each(
                gdb,
                (b"Z0,18,4", b"OK"),
                (b"vRun;;39", STOP),
                (STEP, b"00000009"),
                (b"bc", BEGIN),
                (b"vRun;;zz", b"E01"),
                (b"vRun;;3939393939393939", STOP),
                (STEP, ZERO),
                (b"vRun;;39", STOP),
                (b"vRun;", STOP),
                (STEP, ZERO),
                (b"vKill;1", b"OK"),
            )
            gdb.command("goto 5")
            gdb.send(b"R00")
            self.each(gdb, (STEP, ZERO), (b"?", STOP))

    def test_the_symbol_file(self) -> None:
        with Packets(BOOT) as gdb:
            name = b"/workbench.elf".hex().encode()
            self.each(
                gdb,
                (b"qXfer:exec-file:read:1:0,20", b"l/workbench.elf"),
                (b"vFile:setfs:0", b"F0"),
                (b"vFile:open:%s,0,0" % b"/etc/passwd".hex().encode(), b"F-1,2"),
                (b"vFile:open:zz,0,0", b"F-1,16"),
                (b"vFile:open:%s,0,0" % name, b"F3"),
                (b"vFile:pread:3,4,0", b"F4;\x7fELF"),
                (b"vFile:pread:3,4,ffffff", b"F0;"),
                (b"vFile:pread:3,4", b"F-1,16"),
                (b"vFile:pread:3,-1,0", b"F-1,16"),
                (b"vFile:pread:4,4,0", b"F-1,9"),
                (b"vFile:pread:x", b"F-1,16"),
            )
            before = gdb.ask(b"vFile:fstat:3")
            # A file to be read, and the last time that a file can have but for those of edits.
            self.assertEqual((before[:16], before[-8:-4]), (b"F40;" + bytes(8) + b"\0\0\x81\x24", b"\x7f\xff\0\1"))
            gdb.command("edit 1 0 1")
            gdb.command("top:")
            self.assertEqual(gdb.ask(b"vFile:fstat:3")[-8:-4], b"\x7f\xff\0\2")
            self.each(
                gdb,
                (b"vFile:close:3", b"F0"),
                (b"vFile:close:3", b"F-1,9"),
                (b"vFile:unlink:%s" % name, b""),
            )


class Commands(unittest.TestCase):
    """What the user is told behind `monitor`."""

    def test_those_of_the_stub(self) -> None:
        with Packets(BOOT) as gdb:
            for line, due in (
                ("step", "step 0 of 100000\n"),
                ("  goto   +7 ", ""),
                ("step", "step 7 of 100000\n"),
                ("goto -8", "goto N, goto +N or goto -N: steps are from 0 to 100000\n"),
                ("goto 100001", "goto N, goto +N or goto -N: steps are from 0 to 100000\n"),
                ("goto $arg0", "goto N, goto +N or goto -N: steps are from 0 to 100000\n"),
                ("onestep", ""),
                ("goto -1", ""),
                ("end 10", "step 7 of 10\n"),
                ("quit", "quit is GDB's\n"),
                ("", ""),
            ):
                with self.subTest(line=line):
                    self.assertEqual(gdb.command(line), due)
            self.assertIn("goto N", gdb.command("help"))

    def test_those_of_the_monitor(self) -> None:
        with Packets(BOOT) as gdb:
            gdb.command("end 2000")
            for line, due in (
                ("bogus", "refused 18 BadCommand\n"),
                ("mem . 0 1", "00000000 03000004\n"),
                ("regs 2\nregs 3", "refused 18 BadCommand\n"),
                ("before list", ""),
                ("keep", ""),
                ("part", "now and before are the same machine up to step 2000\n"),
                ("differ", "no word of RAM differs at step 0\n"),
                ("edit 5 5 4000000000", "refused 3 TooManyLines\n"),
                ("edit 5 5 4294967296", "refused 18 BadCommand\n"),
                ("edit . 5 1", "lines to follow, each behind `monitor`: 1\n"),
                ("nop", "refused 2 NoSuchLine\n"),
                ("edit 5 5 1", "lines to follow, each behind `monitor`: 1\n"),
                (" mov 77, %o0\n nop", "refused 6 Syntax line 5\n"),
                ("edit 5 5 1", "lines to follow, each behind `monitor`: 1\n"),
                (" mov 77, %o0", ""),
                ("part", "step 6\n"),
                ("differ", "00000014 90102029 9010204D\n"),
                ("goto 6", ""),
                ("edit 5 5 1", "lines to follow, each behind `monitor`: 1\n"),
                (" mov 78, %o0", "step 6 is another one now; GDB shows it when the machine is resumed\n"),
                ("irq . 15", ""),
                ("events 0 .", "irq 6 15\n"),
            ):
                with self.subTest(line=line):
                    self.assertEqual(gdb.command(line), due)
            self.assertEqual((gdb.ask(b"c"), gdb.ask(STEP), gdb.ask(b"p8")), (STOP, b"00000006", b"0000004e"))

    def test_what_is_caught(self) -> None:
        with Packets(BOOT) as gdb:
            self.assertEqual(gdb.command("catch 81 5"), "")
            self.assertEqual((gdb.ask(b"c"), gdb.ask(STEP)), (INTERRUPT, b"00000007"))
            self.assertEqual(gdb.said, b"step 6: trap 81 trap instruction 1, PC 00000018\n")
            self.assertEqual((gdb.ask(b"bc"), gdb.ask(STEP)), (INTERRUPT, b"00000006"))
            gdb.command("catch none")
            self.assertEqual(gdb.ask(b"bc"), BEGIN)
            gdb.command("catch all")
            self.assertEqual((gdb.ask(b"c"), gdb.ask(STEP)), (INTERRUPT, b"00000007"))
            self.assertEqual(gdb.ask(b"bs"), INTERRUPT)

    def test_the_console(self) -> None:
        with Packets(CONSOLE) as gdb:
            gdb.command("end 100")
            gdb.said = b""
            self.assertEqual(gdb.ask(b"c"), INTERRUPT)
            self.assertEqual(gdb.said, b"Hi\nstep 100 is the end of time\n")
            gdb.command("console off")
            gdb.command("catch out")
            self.assertEqual(gdb.ask(b"bc"), INTERRUPT)
            self.assertEqual(gdb.said, b"step 26 puts out 69\n")
            self.assertEqual((gdb.ask(STEP), gdb.ask(b"bc"), gdb.ask(STEP)), (b"0000001a", INTERRUPT, b"00000013"))
            gdb.command("console on")
            self.assertEqual((gdb.ask(b"c"), gdb.ask(STEP)), (INTERRUPT, b"00000014"))
            self.assertEqual(gdb.said, b"H\nstep 19 puts out 48\n")
            gdb.command("catch noout")
            self.assertEqual((gdb.ask(b"bc"), gdb.said), (BEGIN, b""))


class Hostile(unittest.TestCase):
    """Bytes that no GDB sends: there is an answer, or a clean end."""

    def test_a_bad_checksum_and_a_packet_asked_for_again(self) -> None:
        with Packets() as gdb:
            gdb.write(b"$qC#00")
            self.assertEqual(gdb.read(), b"-")
            gdb.write(b"$qC#zz")
            self.assertEqual(gdb.read(), b"-")
            self.assertEqual(gdb.ask(b"qC"), b"QC1")
            gdb.write(b"-")
            self.assertEqual(gdb.reply(), b"QC1")
            gdb.write(b"$QStartNoAckMode#B0")
            self.assertEqual(gdb.reply(), b"OK")
            gdb.acknowledges = False
            gdb.write(b"-$qC#00-")
            self.assertEqual(gdb.ask(b"qC"), b"QC1")

    def test_packets_that_break_off(self) -> None:
        with Packets() as gdb:
            gdb.write(b"$qfThre")
            time.sleep(0.05)
            gdb.write(b"$qC#b4")
            self.assertEqual(gdb.reply(), b"QC1")
            gdb.write(b"\x03\x03garbage}#12$")
            time.sleep(0.05)
            gdb.write(b"qC#")
            time.sleep(0.05)
            gdb.write(b"b4")
            self.assertEqual(gdb.reply(), b"QC1")
            for body in (b"}", b"qC}", b"m}}0", b"}\x51C"):
                gdb.ask(body)
            self.assertEqual(gdb.ask(b"}\x51C"), b"QC1")

    def test_long_ones(self) -> None:
        with Packets() as gdb:
            self.assertEqual(gdb.ask(b"z" * 65_536), b"")
            self.assertEqual(gdb.ask(b"M0,1000:" + b"00" * 0x1000), b"OK")
            self.assertEqual(gdb.ask(b"M0,10000:" + b"0" * 65_536), b"E01")
            gdb.write(b"$" + b"a" * 3_000_000)
            self.assertEqual(gdb.ask(b"qC"), b"QC1")

    def test_too_much(self) -> None:
        with Packets() as gdb:
            self.assertEqual({gdb.ask(b"Z0,%x,4" % it) for it in range(4096)}, {b"OK"})
            self.assertEqual((gdb.ask(b"Z0,9999,4"), gdb.ask(b"Z0,0,4")), (b"E01", b"OK"))
            name = b"/workbench.elf".hex().encode()
            opened = [gdb.ask(b"vFile:open:%s,0,0" % name) for _ in range(10)]
            self.assertEqual(opened, [b"F%x" % it for it in range(3, 11)] + [b"F-1,2"] * 2)

    def test_random_packets(self) -> None:
        choose = random.Random(os.urandom(4))
        heads = b"m M X Z z p vFile: vFile:pread: vCont; vRun; qXfer:features:read:target.xml: qRcmd, H q Q ? b g"
        with Packets(BOOT) as gdb:
            gdb.command("end 500")
            for _ in range(500):
                tail = bytes(choose.choice(b"0123456789abcdef,;:=X\x80\xff") for _ in range(choose.randrange(12)))
                gdb.ask(choose.choice(heads.split()) + tail)
            self.assertEqual(gdb.ask(b"qC"), b"QC1")


class Ends(unittest.TestCase):
    """However it ends, nothing is left: no process, and no file."""

    def assert_ended(self, gdb: Packets, child: int, status: int = 0) -> None:
        self.assertEqual(gdb.process.wait(timeout=10), status)
        self.assertFalse(os.path.exists(f"/proc/{child}"))

    def test_closed_pipes(self) -> None:
        with Packets(BOOT) as gdb:
            assert gdb.process.stdin is not None
            child = gdb.child()
            gdb.process.stdin.close()
            self.assert_ended(gdb, child)

    def test_a_pipe_closed_while_the_machine_runs(self) -> None:
        with Packets(BOOT) as gdb:
            assert gdb.process.stdin is not None
            gdb.command("end 1000000")
            child = gdb.child()
            gdb.send(b"c")
            gdb.process.stdin.close()
            self.assert_ended(gdb, child)

    def test_a_pipe_that_nobody_reads(self) -> None:
        with Packets(BOOT) as gdb:
            assert gdb.process.stdout is not None
            child = gdb.child()
            gdb.process.stdout.close()
            gdb.send(b"g")
            self.assert_ended(gdb, child)

    def test_killed_and_detached(self) -> None:
        for packet in (b"k", b"D", b"D;1"):
            with Packets(BOOT) as gdb:
                child = gdb.child()
                gdb.send(packet)
                self.assert_ended(gdb, child)

    def test_a_signal(self) -> None:
        with Packets(BOOT) as gdb:
            child = gdb.child()
            gdb.process.terminate()
            self.assert_ended(gdb, child, 143)

    def test_a_monitor_that_goes(self) -> None:
        with Packets(BOOT) as gdb:
            os.kill(gdb.child(), 9)
            gdb.send(b"g")
            self.assertEqual(gdb.process.wait(timeout=10), 1)
            self.assertEqual(gdb.errors(), "the monitor has ended\n")

    def test_ctrl_c(self) -> None:
        with Packets(BOOT) as gdb:
            gdb.command("end 1000000")
            for way in (b"c", b"bc"):
                gdb.send(way)
                time.sleep(0.2)
                gdb.write(b"+\x03")
                begun = time.monotonic()
                found = gdb.reply()
                # The proved program may have come to the end of time before. A text in front of the stop tells of it.
                if found == END_OF_TIME:
                    found = gdb.reply()
                self.assertRegex(found, rb"^T02thread:1;$|^T05(replaylog:begin;)?thread:1;$")
                self.assertLess(time.monotonic() - begun, 5)
            self.assertEqual(gdb.ask(b"qC"), b"QC1")


if __name__ == "__main__":
    unittest.main()
