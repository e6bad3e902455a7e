"""Each example and each program of the tests, built in every way.

Its image is that of the file, and its output that of the host.
"""
from __future__ import annotations

import unittest
from pathlib import Path

from .support import EXAMPLES, PROGRAMS, InFolder, workbench

LEVELS = ("-O0", "-O2", "-Os")
WINDOWS = (4, 8, 32)
ON_MACHINE_ALONE = {"kernel"}
STEPS = 100_000
"""More than a small program takes."""
INSERTED = ("        nop", "        mov %g0, %g0", "        nop")


class Built(InFolder):
    """One test for each program and level: `test_SOURCE_LEVEL`."""

    def expected(self, source: Path) -> bytes:
        """What the program has to print: what it prints on the host, or what stands beside it."""
        beside = source.with_suffix(".out")
        if source.stem in ON_MACHINE_ALONE:
            return beside.read_bytes()
        on_host = self.host_output(source)
        if beside.exists():
            self.assertEqual(on_host, beside.read_bytes())
        return on_host

    def image_and_output(self, source: Path, level: str) -> None:
        """With and without relocations, for several numbers of windows."""
        expected = self.expected(source)
        for keeps_relocations in (True, False):
            imported = self.built([source], (level, "-g"), keeps_relocations)
            for windows in WINDOWS:
                with self.subTest(relocations=keeps_relocations, windows=windows), workbench(windows) as opened:
                    imported.enter(opened)
                    self.assertIn("the workbench's image is that of the file", imported.check(opened))
                    self.assertEqual(opened.output(), expected)
            self.assertEqual(
                any("stand as numbers" in it for it in imported.notes), not keeps_relocations, imported.notes
            )

    def lines_put_in(self, source: Path, level: str) -> None:
        """Three lines put into `main` move all behind it, and the output stays."""
        expected = self.expected(source)
        imported = self.built([source], (level, "-g"))
        place = imported.text.texts().index("main:") + 2
        with workbench() as opened:
            imported.enter(opened)
            before = opened.listing()
            opened.edit(place, place - 1, INSERTED)
            after = opened.listing()
            moved = [
                (old.address, new.address) for old, new in zip(before[place - 1 :], after[place + 2 :]) if old.data
            ]
            self.assertTrue(moved and all(old < new for old, new in moved))
            self.assertEqual(opened.output(), expected)


def _add(source: Path, level: str) -> None:
    name = f"{source.stem}_{level.strip('-')}"
    setattr(Built, f"test_{name}_image_and_output", lambda self: self.image_and_output(source, level))
    setattr(Built, f"test_{name}_lines_put_in", lambda self: self.lines_put_in(source, level))


for _source in sorted([*EXAMPLES.glob("*.c"), *PROGRAMS.glob("*.c")]):
    for _level in LEVELS:
        _add(_source, _level)


class Runtime(InFolder):
    """What the runtime does besides running programs."""

    def printed(self, text: str, windows: int = 8, before: str = "") -> str:
        """What a C program prints."""
        imported = self.built([self.write("it.c", text)])
        with workbench(windows) as opened:
            imported.enter(opened)
            if before:
                opened.ask(before)
            return opened.output(STEPS).decode("latin-1")

    def test_a_trap_without_a_handler_is_told(self) -> None:
        text = "int main(void) { volatile int zero = 0, nine = 9; return nine / zero; }"
        self.assertRegex(self.printed(text), r"^trap 2A at [0-9A-F]{8}\n$")

    def test_headers_are_found(self) -> None:
        names = ("limits", "sparc8", "stdarg", "stdbool", "stddef", "stdint", "stdio", "stdlib", "string")
        text = "\n".join(f"#include <{it}.h>" for it in names)
        text += (
            '\nint main(void) { printf("%x %d %x\\n", (unsigned)(UINT64_MAX >> 40), INT_MIN, UCHAR_MAX); return 0; }'
        )
        self.assertEqual(self.printed(text), "ffffff -2147483648 ff\n")

    def test_two_windows_are_too_few(self) -> None:
        self.assertEqual(self.printed("int main(void) { return 0; }", 2), "this program needs 4 register windows\n")

    def test_input_is_read(self) -> None:
        text = (
            "#include <stdio.h>\nint main(void) { int it; while ((it = getchar()) != EOF) putchar(it + 1); return 0; }"
        )
        self.assertEqual(self.printed(text, before="input 0 484148"), "IBI")

    def test_registers_and_windows_outlast_traps_at_every_depth(self) -> None:
        text = """
            #include <sparc8.h>
            #include <stdio.h>
            static volatile unsigned count;
            static unsigned deep(unsigned n)
            {
                volatile unsigned kept = n * 3;
                __asm__ volatile("ta 1" : : : "memory");
                return n ? deep(n - 1) + kept : kept;
            }
            static unsigned wide(unsigned n) { return n < 2 ? n : wide(n - 1) + wide(n - 2); }
            static void on_call(struct trap *trap) { count += wide(6) / 8; sparc8_pass_over(trap); }
            int main(void) {
                trap_handlers[0x81] = on_call;
                unsigned sum = deep(20);
                printf("%u %u\\n", sum, count);
                return 0;
            }"""
        for windows in (4, 8, 16, 32):
            with self.subTest(windows=windows):
                self.assertEqual(self.printed(text, windows), "630 21\n")


if __name__ == "__main__":
    unittest.main()
