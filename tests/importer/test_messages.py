"""What is said of each thing that cannot be had, and of what a user has to know of a text."""
from __future__ import annotations

import os
import subprocess
import unittest
from pathlib import Path

from rubliman.importer import Problem, Settings, import_file
from rubliman.importer.cross import CrossTools
from rubliman.importer.limits import MOST_LINES
from rubliman.importer.text import Line
from rubliman.importer.workbench import Workbench

from .support import InFolder, workbench

START = ".global _start\n_start: nop\nba _start\n nop\n"


class Refused(InFolder):
    """What cannot be imported."""

    def refused(self, paths: Path | list[Path], said: str, settings: Settings = Settings()) -> None:
        """The import ends with just these words."""
        with self.assertRaises(Problem) as caught:
            import_file(paths if isinstance(paths, list) else [paths], settings)
        self.assertNotIn("\n", str(caught.exception))
        self.assertEqual(str(caught.exception), said)

    def gcc(self, source: Path, *words: str) -> Path:
        """A file made of a source by the cross compiler alone."""
        made = self.folder / "made"
        self.cross("gcc", "-nostdlib", *words, "-o", made, source)
        return made

    def test_outside_ram(self) -> None:
        linked = self.linked(self.write("it.s", START), "-Ttext=0x40000000")
        self.refused(
            linked,
            "what is loaded at 40000000 to 4000000B lies outside RAM (00000000 to 000FFFFF): "
            "link it below, with a linker script or -Ttext=0",
        )

    def test_64_bit(self) -> None:
        self.refused(
            self.gcc(self.write("it.s", START), "-static"),
            "a 64-bit big-endian file: the machine is 32-bit and big-endian, "
            "so build it by gcc -m32 and ld -m elf32_sparc",
        )

    def test_little_endian(self) -> None:
        made = self.folder / "host.o"
        subprocess.run(["gcc", "-c", "-o", made, self.write("it.c", "int it;")], check=True)
        self.refused(
            made,
            "a 64-bit little-endian file: the machine is 32-bit and big-endian, "
            "so build it by gcc -m32 and ld -m elf32_sparc",
        )

    def test_another_machine(self) -> None:
        data = bytearray(self.linked(self.write("it.s", START), "-Ttext=0").read_bytes())
        data[18:20] = (20).to_bytes(2, "big")
        other = self.folder / "other"
        other.write_bytes(data)
        self.refused(other, "a file for EM_PPC: build it for SPARC V8 (gcc -m32 -mcpu=v8)")

    def test_not_linked(self) -> None:
        self.linked(self.write("it.s", START), "-Ttext=0")
        self.refused(
            self.folder / "it.o",
            "an object file that is not linked: link it at 0, with ld -m elf32_sparc -static -q -T SCRIPT",
        )

    def test_position_independent(self) -> None:
        source = self.write("it.s", START)
        self.linked(source, "-Ttext=0")
        self.cross(
            "ld", "-m", "elf32_sparc", "-pie", "--no-dynamic-linker", "-o", self.folder / "pie", self.folder / "it.o"
        )
        self.refused(self.folder / "pie", "position independent: link it with -static and without -pie")

    def test_shared(self) -> None:
        linked = self.linked(self.write("it.s", START), "-Ttext=0")
        library, shared = self.folder / "shared.so", self.folder / "shared"
        self.cross("ld", "-m", "elf32_sparc", "-shared", "-o", library, self.folder / "it.o")
        self.cross(
            "ld", "-m", "elf32_sparc", "-dynamic-linker", "/lib/ld.so", "-o", shared, linked.with_suffix(".o"), library
        )
        self.refused(shared, "linked to shared libraries: link it with -static")

    def test_loaded_elsewhere(self) -> None:
        script = self.write("script.ld", "SECTIONS { .text 0x8000 : AT(0x4000) { *(.text) } }")
        self.refused(
            self.linked(self.write("it.s", START), "-N", "-T", str(script)),
            "what runs at 00008000 is loaded at 00004000: import it as a raw image (objcopy -O binary, then --base)",
        )

    def test_nothing_loaded(self) -> None:
        self.refused(
            self.linked(self.write("it.s", "\n"), "-Ttext=0", "-e", "0"),
            "nothing is loaded by it: link it with its code in sections that are loaded",
        )

    def test_damaged(self) -> None:
        source = self.write("it.c", "int table[100] = {1}; int _start(void) { return table[5]; }")
        whole = self.linked(source, "-Ttext=0x100").read_bytes()
        cut = self.folder / "cut"
        for size in range(4, len(whole), max(1, len(whole) // 150)):
            cut.write_bytes(whole[:size])
            with self.assertRaises(Problem) as caught:
                import_file([cut])
            self.assertNotIn("\n", str(caught.exception))

    def test_any_byte_changed(self) -> None:
        source = self.write("it.c", "int table[9] = {1}; int _start(void) { return table[5]; }")
        whole = bytearray(self.linked(source, "-Ttext=0x100").read_bytes())
        file = self.folder / "changed"
        for at in [*range(16, 0x54), *range(0x54, len(whole), 101)]:
            for value in (0xFF, whole[at] ^ 1):
                file.write_bytes(whole[:at] + bytes([value]) + whole[at + 1 :])
                try:
                    import_file([file])
                except Problem as problem:
                    self.assertNotIn("\n", str(problem))

    def test_raw(self) -> None:
        empty, small = self.folder / "empty", self.folder / "small"
        empty.write_bytes(b"")
        small.write_bytes(bytes(8))
        self.refused(empty, "the file is empty: nothing can be imported of it")
        self.refused(
            small, "--base 0x6 is no multiple of 4: instructions stand at such addresses alone", Settings(base=6)
        )
        self.refused(
            small,
            "8 bytes at 0xffffc do not fit: RAM has 1,048,576 bytes from 0, "
            "so choose a lower --base or a shorter image",
            Settings(base=0xFFFFC),
        )

    def test_files(self) -> None:
        one, other = self.write("one", "x"), self.write("other", "x")
        source = self.write("it.c", "int main(void) { return 0; }")
        self.refused(
            self.folder / "none", f"{self.folder}/none cannot be read (No such file or directory): name a file"
        )
        self.refused(self.folder / "none.c", f"{self.folder}/none.c is not there: name a file")
        self.refused(
            [one, other],
            f"{other} is one file too many: only sources (.c, .S, .s) may be several, and are linked together",
        )
        self.refused([source, other], f"{other} is no source: import it alone, or name sources alone (.c, .S, .s)")

    def test_a_function_that_is_not_there(self) -> None:
        self.refused(
            self.linked(self.write("it.s", START), "-Ttext=0"),
            "it has no function f, which --only chooses: "
            "the compiler may have put it into another, so see the names in the text",
            Settings(only=frozenset({"f", "_start"})),
        )

    def test_tools(self) -> None:
        with self.assertRaises(Problem) as caught:
            CrossTools.find({"PATH": str(self.folder)})
        self.assertEqual(
            str(caught.exception),
            "no cross tools for SPARC are found: install gcc-sparc64-linux-gnu, "
            "or name others by CROSS=, the part before gcc",
        )
        with self.assertRaises(Problem) as caught:
            CrossTools.find({"PATH": os.environ["PATH"], "CROSS": "mips-"})
        self.assertEqual(
            str(caught.exception),
            "CROSS=mips- names no cross tools (mips-gcc and mips-ld are wanted): give the part before gcc",
        )
        chosen = CrossTools.find({"PATH": os.environ["PATH"], "CROSS": "/usr/bin/sparc64-linux-gnu-"})
        self.assertEqual(chosen.prefix, "/usr/bin/sparc64-linux-gnu-")

    def test_sources_that_are_refused(self) -> None:
        for name, text, said in (
            (
                "it.c",
                "int main(void) { return 0 }",
                "it.c is refused by the compiler: .*it.c:1:.*error: expected ';'.*",
            ),
            ("it.s", "main: nop\n nonsense %g1\n", "it.s is refused by the compiler: .*it.s:2: Error: .*nonsense.*"),
            (
                "it.c",
                "int f(void); int main(void) { return f(); }",
                r"it.c cannot be linked: .*it.c:1: undefined reference to `f'",
            ),
            (
                "it.c",
                "int main(void) { volatile double a = 3; return a * 2 > 5; }",
                r"it.c cannot be linked: .*it.c:1: undefined reference to "
                r"`__\w+' \(floating point in C needs GCC's own library for 32 bits, which these tools lack\)",
            ),
            (
                "it.c",
                "#include <assert.h>\n",
                "it.c is refused by the compiler: .*it.c:1:.*assert.h: No such file or directory",
            ),
            (
                "it.c",
                "char it[1 << 21]; int main(void) { return it[5]; }",
                "it.c cannot be linked: .*overflowed by .* bytes",
            ),
        ):
            with self.subTest(text=text), self.assertRaisesRegex(Problem, f"^{said}$"):
                import_file([self.write(name, text)])


class Told(InFolder):
    """What is told of an import that is had."""

    def notes(self, source: str, *words: str, name: str = "it.s", keeps_relocations: bool = True) -> list[str]:
        """What is told of a source that is linked by these words; its image is that of the file."""
        imported = import_file([self.linked(self.write(name, source), *words, keeps_relocations=keeps_relocations)])
        self.check(imported)
        return imported.notes

    def test_nothing(self) -> None:
        self.assertEqual(self.notes(START, "-Ttext=0"), [])

    def test_the_entry(self) -> None:
        self.assertEqual(
            self.notes(START, "-N", "-Ttext=0x1000"),
            ["the machine starts at 0, and the entry is 00001000: a branch to it is put at 0"],
        )
        told = (
            "its entry is 00000004, but the machine starts at 0, where other code lies: "
            "that is taken for the reset code"
        )
        self.assertEqual(self.notes("nop\n" + START, "-Ttext=0"), [told])

    def test_numbers(self) -> None:
        self.assertEqual(
            self.notes(START, "-Ttext=0", keeps_relocations=False),
            ["addresses stand as numbers: lines may be replaced, but put none in (link with -q for names)"],
        )
        odd = START + "set it, %g1\n.data\n.byte 1\nit: .uaword it\n"
        self.assertEqual(
            self.notes(odd, "-Ttext=0", "-Tdata=0x100"),
            [
                "addresses that stand as numbers: 1, the first at 00000101; "
                "lines may be replaced, but put none in before what they name",
                ".data stands at a fixed address (.org): lines that are put in before it need room there",
            ],
        )

    def test_words_without_a_form(self) -> None:
        text = START + ".word 0x81A00840, 0x81A00840, 0x81B00000, 0x12345, 0x81C00020\n"
        self.assertEqual(
            self.notes(text, "-Ttext=0"),
            [
                "words of code that stand as .word: 1 (coprocessor, which traps as cp_disabled)",
                "words of code that stand as .word: 1 (data, or unimp)",
                "words of code that stand as .word: 2 (floating point, which traps as fp_disabled)",
                "words of code that stand as .word: 1 (no instruction of V8 without reserved bits)",
            ],
        )

    def test_v8_plus(self) -> None:
        linked = self.linked(self.write("it.s", START), "-Ttext=0")
        data = bytearray(linked.read_bytes())
        data[18:20] = (18).to_bytes(2, "big")
        linked.write_bytes(data)
        self.assertEqual(import_file([linked]).notes, ["built for V8+: instructions of V9 trap as illegal ones"])

    def test_headers(self) -> None:
        script = self.write(
            "script.ld",
            "PHDRS { all PT_LOAD FILEHDR PHDRS; } SECTIONS { . = SIZEOF_HEADERS; .text : { *(.text) } :all }",
        )
        notes = self.notes(START, "-T", str(script))
        self.assertEqual(notes[0], "the headers of the file, which ld puts at 00000000, are left out")

    def test_lines_of_origin_that_cannot_be_read(self) -> None:
        linked = self.linked(self.write("it.c", "int _start(void) { return 5; }"), "-Ttext=0")
        sections = self.cross("readelf", "-SW", linked).replace("[ ", "[").splitlines()
        section = next(line.split() for line in sections if ".debug_line " in line)
        data = bytearray(linked.read_bytes())
        offset, size = int(section[4], 16), int(section[5], 16)
        data[offset : offset + size] = b"\xff" * size
        linked.write_bytes(data)
        imported = import_file([linked])
        self.assertEqual(len(imported.notes), 1, imported.notes)
        self.assertRegex(
            imported.notes[0],
            r"^its line information cannot be read \(.*\): build it with -gdwarf-4 for lines of origin$",
        )


class TooManyLines(InFolder):
    """Programs of more lines than the workbench takes."""

    def large(self, functions: int, words: int = 100) -> str:
        """A source of so many functions, of `words` and some instructions each."""
        body = "\n".join(f"add %g1, {it % 4000}, %g2" for it in range(words))
        return "".join(
            f".global f{it}\n.type f{it}, #function\n"
            f"f{it}: set f{(it + 1) % functions}, %g3\ncall f{it * 7 % functions}\nnop\n{body}\n"
            f".size f{it}, .-f{it}\n"
            for it in range(functions)
        )

    def imported(self, functions: int, settings: Settings = Settings()) -> list[str]:
        """What is told of the import of that source; the image is that of the file."""
        imported = import_file(
            [self.linked(self.write("it.s", self.large(functions)), "-Ttext=0", "-e", "f0")], settings
        )
        self.assertLessEqual(len(imported.text.lines), MOST_LINES)
        self.text = imported.text.texts()
        self.check(imported)
        return imported.notes

    def test_lines_of_origin_are_left_out(self) -> None:
        notes = self.imported(400)
        self.assertRegex(notes[0], r"^[\d,]+ lines, and 65,536 are the most: lines of origin are left out$")
        self.assertEqual(len(notes), 1)

    def test_code_as_data(self) -> None:
        notes = self.imported(700)
        self.assertRegex(
            notes[1], r"^[\d,]+ lines, and 65,536 are the most: code is written as data; choose functions by --only$"
        )
        self.assertEqual(len(notes), 2)

    def test_code_as_data_without_names(self) -> None:
        source = ".global _start\n_start: nop\n.rept 40000\ncall _start\nnop\n.endr\n"
        imported = import_file([self.linked(self.write("it.s", source), "-Ttext=0")])
        self.check(imported)
        self.assertRegex(
            imported.notes[-2], r"^[\d,]+ lines, and 65,536 are the most: code is written as data without names$"
        )
        self.assertEqual(imported.notes[-1], "addresses stand as numbers: lines may be replaced, but put none in")

    def test_functions_chosen(self) -> None:
        self.assertEqual(self.imported(700, Settings(only=frozenset({"f3", "f8"}))), [])
        self.assertEqual(sum(it.split("!")[0].strip().startswith("add ") for it in self.text), 200)

    def test_functions_chosen_can_be_edited(self) -> None:
        text = """
            #include <stdio.h>
            static __attribute__((noinline)) int twice(int it) { return it * 2; }
            static __attribute__((noinline)) int sum(int it) { int all = 0; while (it) all += twice(it--); return all; }
            int main(void) { printf("%d\\n", sum(10)); puts("end"); return 0; }"""
        imported = import_file([self.write("it.c", text)], Settings(only=frozenset({"main"})))
        lines = imported.text.texts()
        place = lines.index("main:") + 2
        with workbench() as opened:
            imported.enter(opened)
            imported.check(opened)
            opened.edit(place, place - 1, ["nop", "nop", "nop"])
            self.assertEqual(opened.output(), b"110\nend\n")


class ByTheWorkbench(InFolder):
    """What is said of what the program refuses, or answers otherwise."""

    def setUp(self) -> None:
        super().setUp()
        self.imported = import_file(
            [self.linked(self.write("it.c", "int _start(void)\n{\n    return 77;\n}\n"), "-Ttext=0")]
        )
        self.place = next(it for it, line in enumerate(self.imported.text.lines) if "mov 0x4d" in line.text)

    def changed(self, text: str) -> None:
        """Another text at that line."""
        self.imported.text.lines[self.place] = Line(text, self.imported.text.lines[self.place].address)

    def test_a_refusal_names_line_text_and_origin(self) -> None:
        for text, why in (
            ("mov nowhere, %g1", "7 UnknownName"),
            ("mov 0x4d %g1", "6 Syntax"),
            ("mov 5000, %g1", "9 OutOfRange"),
        ):
            self.changed(text)
            with self.assertRaises(Problem) as caught:
                self.check(self.imported)
            self.assertEqual(
                str(caught.exception), f"the workbench refuses line {self.place + 1} (from it.c:3) by {why}: {text}"
            )

    def test_another_image_is_told(self) -> None:
        self.changed("mov 0x4c, %g1")
        with self.assertRaises(Problem) as caught:
            self.check(self.imported)
        self.assertRegex(
            str(caught.exception),
            r"^the workbench's image differs first at [0-9A-F]{8} \(from it.c:3\), .* for .*, "
            r"by line \d+: mov 0x4c, %g1$",
        )

    def test_a_program_that_does_not_run(self) -> None:
        for command, said in (
            ("/nowhere", "the program /nowhere cannot be run (No such file or directory): name another by SPARC8="),
            ("/bin/false", "the program /bin/false ended without an answer: see whether it runs by itself"),
        ):
            with self.assertRaises(Problem) as caught, Workbench(command) as opened:
                self.imported.enter(opened)
            self.assertEqual(str(caught.exception), said)

    def test_a_program_that_complains(self) -> None:
        complaining = self.write("complaining", "#!/bin/sh\necho first >&2\necho no memory >&2\nexit 3\n")
        complaining.chmod(0o755)
        with self.assertRaises(Problem) as caught, Workbench(str(complaining)) as opened:
            self.imported.enter(opened)
        self.assertEqual(
            str(caught.exception),
            f"the program {complaining} ended without an answer: no memory: see whether it runs by itself",
        )

    def test_limits_are_those_of_the_program(self) -> None:
        with workbench() as opened:
            opened.enter([".skip 0x100000"])
        for lines, name in (
            ([".skip 0x100001"], "ImageTooLarge"),
            (["! " + "x" * 254], "LineTooLong"),
            ([".align 8192"], "OutOfRange"),
            ([""] * (MOST_LINES + 1), "TooManyLines"),
        ):
            self.imported.text.lines = [Line(it) for it in lines]
            with self.subTest(name=name), self.assertRaisesRegex(Problem, f" {name}"):
                self.check(self.imported)


if __name__ == "__main__":
    unittest.main()
