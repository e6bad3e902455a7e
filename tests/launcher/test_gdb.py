"""`./sparc8 --gdb` and `--gdb-stub`: which words go where, and that nothing is left behind."""
from __future__ import annotations

import os
import shutil

from .support import PROVES, TOP, InRepository

GDB = '#!/bin/sh\nfor it; do echo "$it"; done\n'
SCRIPT = TOP / "tests/gdb/programs/boot.txt"


class Gdb(InRepository):
    """Runs in a repository that is proved by a fake, with the monitor that SPARC8_MONITOR names."""

    def setUp(self) -> None:
        super().setUp()
        shutil.copyfile(os.environ["SPARC8_MONITOR"], self.room / "program")
        shutil.copyfile(SCRIPT, self.room / "boot.txt")
        self.fake(PROVES)
        self.path = super().environment()["PATH"]

    def environment(self) -> dict[str, str]:
        """That of the others, and a PATH of the test's own."""
        return {**super().environment(), "PATH": self.path}

    def put_gdb(self) -> None:
        """A fake of GDB, which prints its words."""
        made = self.bin / "gdb-multiarch"
        made.write_text(GDB, encoding="utf-8")
        made.chmod(0o755)

    def test_no_gdb(self) -> None:
        self.path = str(self.bin)
        done = self.sparc8("--gdb", "boot.txt")
        said = "sparc8: GDB is not there: run tests/install, or apt-get install gdb-multiarch\n"
        self.assertEqual((done.returncode, done.stdout, done.stderr), (1, "", said))
        self.assertEqual(self.calls(), [], "nothing is proved for it")
        self.assert_nothing_left()

    def test_wrong_words_are_answered_as_ever(self) -> None:
        for words in (["--windows", "3"], ["a", "b"], ["nowhere"], ["--bogus"], ["--help"], ["--windows"]):
            with self.subTest(words=words):
                due = self.sparc8(*words)
                for word in ("--gdb", "--gdb-stub"):
                    done = self.sparc8(word, *words)
                    found = (done.returncode, done.stdout, done.stderr)
                    self.assertEqual(found, (due.returncode, due.stdout, due.stderr))
        self.assertEqual(self.sparc8("--gdb", "nowhere", "--", "a", "b").stderr, "sparc8: cannot open script\n")
        self.assertIn("\n  --gdb ", self.sparc8("--help").stdout)
        self.assertEqual(self.calls(), [])

    def test_the_words_of_gdb(self) -> None:
        self.put_gdb()
        session = self.top / "lib/rubliman/gdb/session.gdb"
        self.sparc8("--program")
        program = self.sparc8("--program").stdout.strip() + "_monitor"
        done = self.sparc8("--gdb", "--windows", "4", "boot.txt", "--", "-tui", "it.elf")
        *words, target, tui, elf = done.stdout.splitlines()
        self.assertEqual((words, tui, elf), (["-q", "-x", str(session), "-ex"], "-tui", "it.elf"))
        self.assertRegex(target, r"^target extended-remote \| env PYTHONPATH=\S+/lib \S+ -B -m rubliman\.gdb --")
        self.assertTrue(target.endswith(f" --program {program} --windows 4 -- boot.txt"), target)
        self.assertTrue(self.sparc8("--gdb").stdout.endswith(f" --program {program} --windows 8\n"))
        self.assertEqual(done.stderr, "")

    def test_a_session(self) -> None:
        words = ["-nx", "-batch", "-ex", "break end", "-ex", "continue", "-ex", "p $o0"]
        done = self.sparc8("--gdb", "boot.txt", "--", *words)
        self.assertEqual(done.returncode, 0, done.stderr)
        self.assertIn("\nBreakpoint 1, end () at source.s:7\n7\tend:    ba      end\n$1 = 42\n", done.stdout)
        self.assert_nothing_left()

    def test_the_stub_alone(self) -> None:
        done = self.sparc8("--gdb-stub", "boot.txt")
        self.assertEqual((done.returncode, done.stdout, done.stderr.count("\n")), (1, "", 1))
        self.assertIn("./sparc8 --program proves it", done.stderr)
        self.sparc8("--program")
        # pC and p48 are asked, and then it is to end.
        done = self.sparc8("--gdb-stub", "--windows", "4", "boot.txt", given="$p44#d8+$p48#dc+$k#6b")
        self.assertEqual((done.returncode, done.stdout, done.stderr), (0, "+$00000000#80+$00000000#80+", ""))
        self.assert_nothing_left()

    def test_what_is_installed(self) -> None:
        shutil.copytree(TOP / "docs", self.top / "docs", dirs_exist_ok=True)
        prefix = self.room / "prefix"
        self.sparc8("--install", str(prefix))
        shutil.rmtree(self.top)
        command = prefix / "bin/sparc8"
        done = self.sparc8("--gdb", "boot.txt", "--", "-nx", "-batch", "-ex", "p/x $psr", command=command)
        self.assertTrue(done.stdout.splitlines()[-2].endswith("= 0x80"), done)
        self.assertEqual(self.sparc8("--gdb-stub", given="$k#6b", command=command).stdout, "+")
        self.assertTrue((prefix / "share/doc/rubliman/GDB.md").is_file())
        self.path = str(self.bin)
        said = "sparc8: GDB is not there: apt-get install gdb-multiarch\n"
        self.assertEqual(self.sparc8("--gdb", command=command).stderr, said)
        self.assert_nothing_left()
