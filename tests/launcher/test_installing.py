"""What is installed runs without the repository and the toolchain."""
from __future__ import annotations

import os
import shutil
import subprocess
import unittest
from pathlib import Path

from .support import PROVES, TOP, InRepository

SCRIPT = "edit 1 0 1\nadd %g1, 1, %g1\nlist\n"
ANSWER = "ok\n1 00000000 82006001 |add %g1, 1, %g1\nok\n"


class Installing(InRepository):
    """`./sparc8 --install` of the program that SPARC8 names, as if the toolchain had just proved it."""

    def setUp(self) -> None:
        super().setUp()
        shutil.copytree(TOP / "docs", self.top / "docs", dirs_exist_ok=True)
        shutil.copyfile(os.environ["SPARC8"], self.room / "program")
        self.fake(PROVES)
        self.prefix = self.room / "prefix"

    def install(self) -> None:
        """Installs, and then takes the repository, what was kept and the toolchain away."""
        done = self.sparc8("--install", str(self.prefix))
        self.assertEqual(done.returncode, 0, done.stderr)
        for it in (self.top, self.cache, self.bin):
            shutil.rmtree(it)

    def test_a_script(self) -> None:
        self.install()
        done = self.sparc8("--windows", "2", given=SCRIPT, command=self.prefix / "bin/sparc8")
        self.assertEqual((done.returncode, done.stdout, done.stderr), (0, ANSWER, ""))

    def test_words(self) -> None:
        self.install()
        command = self.prefix / "bin/sparc8"
        self.assertEqual(self.sparc8("--windows", "3", command=command).returncode, 2)
        self.assertEqual(self.sparc8("nowhere", command=command).stderr, "sparc8: cannot open script\n")
        self.assertIn("\n  --import", self.sparc8("--help", command=command).stdout)
        self.assertEqual(
            self.sparc8("--program", command=command).stdout, f"{self.prefix}/lib/rubliman/program/sparc8\n"
        )
        for words in (["--unproved"], ["--install", "elsewhere"]):
            done = self.sparc8(*words, command=command)
            self.assertEqual((done.returncode, done.stderr.count("\n")), (2, 1))

    def test_the_monitor(self) -> None:
        self.install()
        done = self.sparc8("--windows", "2", given=SCRIPT, command=self.prefix / "bin/sparc8_monitor")
        self.assertEqual((done.returncode, done.stdout, done.stderr), (0, ANSWER, ""))

    def test_an_import(self) -> None:
        self.install()
        (self.room / "it").write_bytes(bytes.fromhex("82006001 10BFFFFF 01000000"))
        done = self.sparc8("--import", "it", "--check", "--run", "--steps", "10", command=self.prefix / "bin/sparc8")
        self.assertEqual((done.returncode, done.stdout), (0, ""), done.stderr)
        self.assertIn("it: 4 lines, 12 bytes: the workbench's image is that of the file\n", done.stderr)
        self.assertIn("it: still runs after 10 steps", done.stderr)

    def test_a_link_to_the_command(self) -> None:
        self.install()
        (self.room / "link").symlink_to(self.prefix / "bin/sparc8")
        self.assertEqual(self.sparc8(given=SCRIPT, command=self.room / "link").stdout, ANSWER)

    def test_where_things_are(self) -> None:
        self.install()
        for it in (
            "share/man/man1/sparc8.1",
            "share/man/man1/sparc8_monitor.1",
            "share/man/man5/sparc8.5",
            "share/doc/rubliman/COMMANDS.md",
            "lib/rubliman/runtime/crt0.S",
        ):
            self.assertTrue((self.prefix / it).is_file(), it)
        named = [it for it in self.prefix.rglob("*") if it.is_file() and str(self.top).encode() in it.read_bytes()]
        self.assertEqual(named, [], "nothing names the repository")

    def test_what_stands_is_told(self) -> None:
        self.install()
        told = self.sparc8("--check", command=self.prefix / "bin/sparc8")
        self.assertRegex(
            told.stdout, rf"(?s)version    \d.*installed in {self.prefix}\nproved     yes, by rt ci of kit-1, at "
        )

    def test_again_over_what_is_installed(self) -> None:
        self.sparc8("--install", str(self.prefix))
        (self.prefix / "lib/rubliman/left").touch()
        self.install()
        self.assertFalse((self.prefix / "lib/rubliman/left").exists())
        self.assertEqual([it.name for it in (self.prefix / "lib").iterdir()], ["rubliman"])

    def test_a_place_that_cannot_be_written(self) -> None:
        (self.room / "file").touch()
        done = self.sparc8("--install", str(self.room / "file/below"))
        self.assertEqual(done.returncode, 1)
        self.assertIn("cannot be installed below", done.stderr)

    def test_the_repository_is_no_place(self) -> None:
        before = sorted(self.top.rglob("*"))
        self.assertEqual(self.sparc8("--install", str(self.top)).returncode, 2)
        self.assertEqual(sorted(self.top.rglob("*")), before)

    def test_the_manual_pages_have_no_mistakes(self) -> None:
        if shutil.which("man") is None:
            return
        for page in Path(TOP / "docs/man").iterdir():
            done = subprocess.run(
                ["man", "--warnings", "-l", page],
                stdout=subprocess.DEVNULL,
                stderr=subprocess.PIPE,
                text=True,
                check=False,
                env={"PATH": os.environ["PATH"], "LANG": "C.UTF-8", "MANWIDTH": "100"},
            )
            self.assertEqual((done.returncode, done.stderr), (0, ""), page)


if __name__ == "__main__":
    unittest.main()
