"""The lines of origin: as remarks, and the way back from steps and addresses."""
from __future__ import annotations

import unittest
from pathlib import Path

from rubliman.importer import Settings, import_file

from .support import InFolder, workbench

SOURCE = """#include <stdio.h>

static __attribute__((noinline)) int twice(int it)
{
    return it * 2;
}

int main(void)
{
    printf("%d\\n", twice(21));
    return 0;
}
"""


class Remarks(InFolder):
    """Lines of origin in the text."""

    def test_each_version_of_dwarf(self) -> None:
        source = self.write("it.c", SOURCE)
        for version in (2, 3, 4, 5):
            with self.subTest(version=version):
                texts = self.built([source], ("-O1", f"-gdwarf-{version}")).text.texts()
                place = texts.index("twice:")
                self.assertEqual(texts[place + 1 : place + 3], ["! it.c:4 {", "! it.c:5 return it * 2;"])

    def test_none_without_debug_information(self) -> None:
        texts = self.built([self.write("it.c", SOURCE)], ("-O1",)).text.texts()
        self.assertFalse([it for it in texts if it.startswith("! it.c")])

    def test_they_agree_with_another_reader(self) -> None:
        source = (
            "int f(int it)\n{\n    if (it)\n        return 3;\n    return it + 7;\n}\n"
            "int _start(void)\n{\n    return f(4);\n}\n"
        )
        linked = self.linked(self.write("it.c", source), "-Ttext=0")
        origins = import_file([linked]).origins
        addresses = range(0, import_file([linked]).program.sections[0].end, 4)
        told = [it for it in self.cross("addr2line", "-e", linked, *map(hex, addresses)).split() if ":" in it]
        self.assertEqual([f"{it.path}:{it.line}" for it in map(origins.at, addresses)], told)

    def test_files_that_lie_elsewhere(self) -> None:
        linked = self.linked(self.write("it.c", "int _start(void)\n{\n    return 5;\n}\n"), "-Ttext=0")
        (self.folder / "moved").mkdir()
        (self.folder / "it.c").rename(self.folder / "moved" / "it.c")
        self.assertIn("! it.c:3", import_file([linked]).text.texts())
        self.assertIn(
            "! it.c:3 return 5;", import_file([linked], Settings(sources=(self.folder / "moved",))).text.texts()
        )

    def test_strange_characters(self) -> None:
        source = self.write(
            "it.c", 'const char *text = "\u00e9\u4e2d";\nint _start(void)\n{\n\treturn  text[0];   /* \u00fc */ }\n'
        )
        remarks = [
            it for it in import_file([self.linked(source, "-Ttext=0")]).text.texts() if it.startswith("! it.c:4")
        ]
        self.assertTrue(remarks)
        for it in remarks:
            self.assertRegex(it, r"^! it\.c:4 return text\[0\]; /\* \?+ \*/ }$")


class WayBack(InFolder):
    """`--addr2line`."""

    def test_steps_and_addresses(self) -> None:
        source = self.write("it.c", SOURCE)
        imported = self.built([source], ("-O0", "-g"))
        address = next(it.address for it in imported.program.symbols if it.name == "twice")
        inside = imported.text.lines[imported.text.texts().index("! it.c:5 return it * 2;") + 1].address
        self.assertEqual(imported.place(address), f"{address:08X} twice {source}:4 {{")
        self.assertEqual(imported.place(inside), f"{inside:08X} twice+{inside - address:#x} {source}:5 return it * 2;")
        self.assertEqual(imported.place(0xFFFF0), "000FFFF0 ?")
        with workbench() as opened:
            imported.enter(opened)
            step = next(it for it in range(200) if opened.state(it).pc == inside)
        told = self.command("--import", source.name, "--addr2line", str(step), f"0x{address:x}", CFLAGS="-O0 -g")
        self.assertEqual(
            told.stdout, f"step {step}: {imported.place(inside)}\n{imported.place(address)}\n", told.stderr
        )

    def test_without_a_symbol(self) -> None:
        image = Path(self.folder, "it.bin")
        image.write_bytes(b"\x10\x80\x00\x00\x01\x00\x00\x00")
        told = self.command("--import", "it.bin", "--addr2line", "0", "0x4")
        self.assertEqual(told.stdout, "step 0: 00000000 ?\n00000004 ?\n", told.stderr)


if __name__ == "__main__":
    unittest.main()
