"""The command line: its words, what it writes, and its status."""
from __future__ import annotations

import os
import subprocess
import unittest

from .support import TOP, InFolder


class Command(InFolder):
    """Runs of the command."""

    def refused(self, status: int, said: str, *words: str, **more: str) -> None:
        """The command tells just this one line on standard error, and nothing else."""
        done = self.command(*words, **more)
        self.assertEqual((done.returncode, done.stderr, done.stdout), (status, f"{said}\n", ""))

    def test_wrong_words(self) -> None:
        see = ": see ./sparc8 --import --help"
        for words, said in (
            ((), "--import names no file"),
            (("--import",), "--import names no file"),
            (
                ("--import", "it", "--windows", "3"),
                "argument --windows: invalid choice: 3 (choose from 2, 4, 8, 16, 32)",
            ),
            (("--import", "it", "--base", "x"), "argument --base: x is no number: write 16384 or 0x4000"),
            (("--import", "it", "--base", "-4"), "argument --base: -4 is below 0"),
            (
                ("--import", "it", "--steps", "1000001"),
                "argument --steps: 1000001 is above 1000000, the last step that there is",
            ),
            (
                ("--import", "it", "--addr2line", "1000001"),
                "argument --addr2line: 1000001 is neither a step (0 to 1000000) nor an address (0x..)",
            ),
            (("--import", "it", "--nonsense"), "unrecognized arguments: --nonsense"),
        ):
            with self.subTest(words=words):
                self.refused(2, f"sparc8: {said}{see}", *words)

    def test_a_file_that_is_not_there(self) -> None:
        self.refused(1, "it: it cannot be read (No such file or directory): name a file", "--import", "it")

    def test_a_file_that_cannot_be_written(self) -> None:
        self.write("it", "xxxx")
        done = self.command("--import", "it", "-o", "no/where")
        self.assertEqual((done.returncode, done.stdout), (1, ""))
        self.assertEqual(
            done.stderr.splitlines()[-1],
            "it: no/where cannot be written (No such file or directory): name another file by -o",
        )

    def test_a_program_that_is_not_there(self) -> None:
        self.write("it", "xxxx")
        done = self.command("--import", "it", "--check", SPARC8="/nowhere")
        said = "it: the program /nowhere cannot be run (No such file or directory): name another by SPARC8="
        self.assertEqual((done.returncode, done.stderr.splitlines()[-1]), (1, said))

    def test_what_is_printed_and_what_is_written(self) -> None:
        self.write("it", "xxxx")
        printed = self.command("--import", "it")
        self.assertEqual(printed.returncode, 0)
        self.command("--import", "it", "-o", "text", "--check")
        self.assertEqual((self.folder / "text").read_text(encoding="ascii"), printed.stdout)
        self.assertEqual(self.command("--import", "it", "--check").stdout, "")
        script = self.command("--import", "it", "--script", "list; regs 0 ;;").stdout
        self.assertEqual(script, f"edit 1 0 {len(printed.stdout.splitlines())}\n{printed.stdout}list\nregs 0\nquit\n")

    def test_a_package_that_is_not_there(self) -> None:
        (self.folder / "elftools").mkdir()
        self.write("elftools/__init__.py", "raise ModuleNotFoundError\n")
        done = subprocess.run(
            [TOP / "sparc8", "--import", "it"],
            cwd=self.folder,
            capture_output=True,
            text=True,
            check=False,
            env={**os.environ, "PYTHONPATH": str(self.folder)},
        )
        said = "sparc8: Python's elftools is not there: run tests/install, or apt-get install python3-pyelftools\n"
        self.assertEqual((done.returncode, done.stderr), (1, said))

    def test_the_wrapper_finds_it(self) -> None:
        self.write("it", "xxxx")
        done = subprocess.run(
            [TOP / "sparc8", "--windows", "4", "--import", "it", "--check"],
            cwd=self.folder,
            capture_output=True,
            text=True,
            check=False,
            env={**os.environ, "PYTHONPATH": ""},
        )
        self.assertEqual(
            (done.returncode, done.stderr.splitlines()[-1]),
            (0, "it: 1 line, 4 bytes: the workbench's image is that of the file"),
        )

    def test_an_output_that_is_closed(self) -> None:
        self.write("it", "xxxx" * 50_000)
        done = subprocess.run(
            f"{TOP}/sparc8 --import it 2>/dev/null | head -n 1",
            shell=True,
            cwd=self.folder,
            capture_output=True,
            text=True,
            check=True,
        )
        self.assertEqual((done.stdout.count("\n"), done.stderr), (1, ""))


if __name__ == "__main__":
    unittest.main()
