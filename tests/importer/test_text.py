"""How a text is written: names, sections, data, and that it can be edited."""
from __future__ import annotations

import unittest
from collections.abc import Sequence
from pathlib import Path

from rubliman.importer import Imported, Settings, import_file
from rubliman.importer.data import data_statements

from .support import InFolder, workbench


class Texts(InFolder):
    """Texts of small sources."""

    def text(self, source: str, *words: str, name: str = "it.s", keeps_relocations: bool = True) -> list[str]:
        """The lines of the text without its remarks; the image is that of the file."""
        imported = import_file([self.linked(self.write(name, source), *words, keeps_relocations=keeps_relocations)])
        self.check(imported)
        return self.lines(imported)

    def lines(self, imported: Imported) -> list[str]:
        """The lines, without remarks, and with single spaces."""
        return [
            " ".join(it.partition("!")[0].split()) if '"' not in it else it.strip()
            for it in imported.text.texts()
            if not it.startswith("!")
        ]

    def has(self, lines: Sequence[str], *wanted: str) -> None:
        """These lines stand in the text, one behind the other."""
        joined = "\n".join(lines) + "\n"
        self.assertIn("\n".join(wanted) + "\n", joined)

    def test_names_of_code(self) -> None:
        lines = self.text(
            ".global _start\n_start: cmp %g1, 5\nbe,a over\n nop\ncall far\n nop\n"
            "over: ba _start\n nop\nfar: retl\n nop\n",
            "-Ttext=0",
        )
        self.has(
            lines,
            "_start:",
            "cmp %g1, 5",
            "be,a over",
            "nop",
            "call far",
            "nop",
            "over:",
            "ba _start",
            "nop",
            "far:",
            "retl",
            "nop",
        )

    def test_targets_without_names(self) -> None:
        lines = self.text(".global _start\n_start: ba 1f\n nop\n1: ba 1b\n nop\n", "-Ttext=0")
        self.has(lines, "_start:", "ba L8", "nop", "L8:", "ba L8", "nop")

    def test_targets_outside(self) -> None:
        lines = self.text(".global _start\n_start: .word 0x10bffffe, 0x7ffffff0, 0x10800010\n", "-Ttext=0")
        self.has(lines, "_start:", "ba -0x8", "call 0xffffffc4", "ba 0x48")

    def test_names_of_addresses(self) -> None:
        source = """
            .global _start
            _start: sethi %hi(table), %g1
            ld [%g1 + %lo(table)], %g2
            set table + 8, %g3
            set table - 4, %g4
            mov low, %g5
            sethi place, %g6
            .word _start, _start + 8, table + 4
            low: nop
            place = 0x123
            .data
            .global table
            table: .word 1, table, 3
            """
        lines = self.text(source, "-Ttext=0", "-Tdata=0x2000")
        self.has(
            lines,
            "_start:",
            "sethi %hi(table), %g1",
            "ld [%g1+%lo(table)], %g2",
            "L8:",
            "sethi %hi(table+8), %g3",
            "or %g3, %lo(table+8), %g3",
            "sethi %hi(table-4), %g4",
            "or %g4, %lo(table-4), %g4",
            "mov low, %g5",
            "sethi %hi(0x48c00), %g6",
            ".word _start",
            ".word L8",
            ".word table+4",
            "low:",
            "nop",
        )
        self.has(lines, "table:", ".word 0x00000001", ".word table", ".word 0x00000003")

    def test_without_relocations_addresses_are_numbers(self) -> None:
        source = ".global _start\n_start: set table, %g3\nba _start\n nop\n.data\ntable: .word table\n"
        lines = self.text(source, "-Ttext=0", "-Tdata=0x2004", keeps_relocations=False)
        self.has(
            lines,
            "_start:",
            "sethi %hi(0x2000), %g3",
            "or %g3, 4, %g3",
            "ba _start",
            "nop",
            ".org 0x2004",
            "table:",
            ".word 0x00002004",
        )

    def test_sections_follow_by_alignment(self) -> None:
        source = (
            ".global _start\n_start: set it, %g1\n.section .rodata\n.align 16\n.byte 7\n"
            ".data\n.align 64\nit: .word 5\n.section .bss\n.align 8\nroom: .skip 100\n"
        )
        script = self.write(
            "script.ld",
            "SECTIONS { .text 0 : { *(.text) } .rodata : { *(.rodata) } .data : { *(.data) } .bss : { *(.bss) } }",
        )
        lines = self.text(source, "-T", str(script))
        self.has(
            lines, ".align 16", ".byte 0x07", ".align 64", "it:", ".word 0x00000005", ".align 8", "room:", ".skip 0x64"
        )

    def test_static_names_that_stand_twice(self) -> None:
        first = self.write(
            "one.c",
            "static __attribute__((noinline)) int f(int it) { return it + 1; }\n"
            "int g(int);\nint main(void) { return f(g(3)); }",
        )
        second = self.write(
            "two.c",
            "static __attribute__((noinline)) int f(int it) { return it * 3; }\nint g(int it) { return f(it); }",
        )
        imported = self.built([first, second], ("-O1",))
        self.check(imported)
        names = [it for it in self.lines(imported) if it.startswith("f") and it.endswith(":")]
        self.assertEqual(len(names), 2)
        self.assertRegex(names[1], r"^f\.[0-9A-F]+:$")

    def test_position_independence_is_left_out(self) -> None:
        source = self.write("it.c", "int table[3] = {1, 2, 3};\nint main(void) { return table[1]; }")
        imported = self.built([source], ("-O2", "-fPIC"))
        self.assertEqual(imported.notes, [])
        self.check(imported)

    def test_strange_names(self) -> None:
        lines = self.text('.global _start\n_start: ba "a-b c"\n nop\n"a-b c": nop\n"1st": nop\n', "-Ttext=0")
        self.has(lines, "_start:", "ba a_b_c", "nop", "a_b_c:", "nop", "_1st:", "nop")

    def test_a_table_of_switch_in_code(self) -> None:
        cases = " ".join(f"case {it}: return {value};" for it, value in enumerate((7, 70, 9, 5, 12, 88)))
        file = self.write("it.c", f"int _start(int it) {{ switch (it) {{ {cases} }} return 1; }}")
        imported = import_file([self.linked(file, "-Ttext=0")])
        self.check(imported)
        self.assertGreaterEqual(sum(it.startswith(".word L") for it in self.lines(imported)), 6)

    def test_labels_within_words_of_code(self) -> None:
        lines = self.text(
            ".global _start\n_start: nop\n.byte 1\nodd: .byte 2\n.half 3\nnop\n.data\n.word odd\n",
            "-Ttext=0",
            "-Tdata=0x100",
        )
        self.has(lines, "_start:", "nop", ".byte 0x01", "odd:", ".byte 0x02, 0x00, 0x03", "nop")

    def test_a_stripped_file(self) -> None:
        linked = self.linked(
            self.write("it.c", "int f(int it) { return it ? it * 3 : 5; } int _start(void) { return f(9); }"),
            "-Ttext=0",
        )
        self.cross("strip", linked)
        imported = import_file([linked])
        self.check(imported)
        self.assertTrue(any(it.startswith("call L") for it in self.lines(imported)))

    def test_a_file_without_sections(self) -> None:
        linked = self.linked(
            self.write("it.c", "int table[3] = {1, 2, 3}; int _start(void) { return table[1]; }"), "-N", "-Ttext=0"
        )
        data = bytearray(linked.read_bytes())
        data[32:36], data[46:52] = bytes(4), bytes(6)
        bare = self.folder / "bare"
        bare.write_bytes(data)
        imported = import_file([bare])
        self.check(imported)
        self.assertEqual(imported.program.image(), import_file([linked]).program.image())

    def test_a_raw_image(self) -> None:
        linked = self.linked(
            self.write("it.s", ".global _start\n_start: mov 7, %g1\nba _start\n nop\n.byte 1, 2\n"), "-Ttext=0x4000"
        )
        image = self.folder / "it.bin"
        self.cross("objcopy", "-O", "binary", "-j", ".text", linked, image)
        imported = import_file([image], Settings(base=0x4000))
        self.check(imported)
        self.assertEqual(
            self.lines(imported),
            ["ba L4000", "nop", ".org 0x4000", "L4000:", "mov 7, %g1", "ba L4000", "nop", ".byte 0x01, 0x02"],
        )

    def test_the_machine_comes_to_an_entry_that_is_not_0(self) -> None:
        source = ".global _start\n_start: sethi %hi(0x80000000), %g1\nmov 65, %g2\nst %g2, [%g1 + 8]\n1: ba 1b\n nop\n"
        imported = import_file([self.linked(self.write("it.s", source), "-N", "-Ttext=0x4000")])
        with workbench() as opened:
            imported.enter(opened)
            self.assertEqual(opened.output(100), b"A")

    def test_assembler_sources(self) -> None:
        source = """
            #define CONSOLE 0x80000000
            .macro put character
            mov \\character, %g2
            st %g2, [%g1 + 8]
            .endm
            .section .rodata
            text: .asciz "two\\n"
            .text
            .global _start
            _start: set CONSOLE, %g1
            .rept 3
            put 'x'
            .endr
            set text, %g3
            1: ldub [%g3], %g2
            tst %g2
            be 2f
            inc %g3
            ba 1b
            st %g2, [%g1 + 8]
            2: ba 2b
            nop
            """
        imported = import_file([self.write("it.S", source)])
        with workbench() as opened:
            imported.enter(opened)
            imported.check(opened)
            self.assertEqual(opened.output(1000), b"xxxtwo\n")
        self.assertIn("! it.S:11 _start: set CONSOLE, %g1", imported.text.texts())

    def test_sources_of_several_kinds(self) -> None:
        assembly = self.write("add.S", "! int add(int, int)\n.global add\nadd: retl\n add %o0, %o1, %o0\n")
        program = '#include <stdio.h>\nint add(int, int);\nint main(void) { printf("%d\\n", add(40, 2)); return 0; }'
        imported = self.built([self.write("it.c", program), assembly])
        with workbench() as opened:
            imported.enter(opened)
            imported.check(opened)
            self.assertEqual(opened.output(), b"42\n")


class Data(unittest.TestCase):
    """Statements for data."""

    def statements(self, data: bytes, at: int = 0) -> list[str]:
        """The statements, which take all the bytes."""
        found = list(data_statements(data, at))
        self.assertEqual(sum(count for count, _ in found), len(data))
        return [text for _, text in found]

    def test_words_and_bytes(self) -> None:
        self.assertEqual(
            self.statements(bytes(range(1, 10)), 2), [".byte 0x01, 0x02", ".word 0x03040506", ".byte 0x07, 0x08, 0x09"]
        )
        self.assertEqual(self.statements(b"\1", 1), [".byte 0x01"])
        self.assertEqual(len(self.statements(bytes(range(1, 129)))), 4)

    def test_strings(self) -> None:
        self.assertEqual(self.statements(b'say "it\\"\n\0\1'), ['.ascii "say \\"it\\\\\\"\\n\\0"', ".byte 0x01"])

    def test_long_strings(self) -> None:
        piece, last = '.ascii "' + '\\"' * 110 + '"', '.ascii "' + '\\"' * 30 + '\\0"'
        self.assertEqual(self.statements(b'"' * 250 + b"\0"), [piece, piece, last])
        self.assertLessEqual(max(map(len, self.statements(b"\n" * 5000))), 240)

    def test_zeros(self) -> None:
        self.assertEqual(self.statements(b"\1\2\3\4" + bytes(40)), [".word 0x01020304", ".skip 0x28"])
        self.assertEqual(self.statements(bytes(8)), [".word 0x00000000, 0x00000000"])


class Folder(InFolder):
    """The importer as a function."""

    def test_it_leaves_nothing_behind(self) -> None:
        before = set(Path(self.folder).iterdir())
        source = self.write("it.c", "int main(void) { return 0; }")
        import_file([source])
        self.assertEqual(set(Path(self.folder).iterdir()) - before, {source})


if __name__ == "__main__":
    unittest.main()
