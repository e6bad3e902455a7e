"""Scripts at the limits of the workbench, which are answered where there is memory enough."""
from __future__ import annotations

import os
import subprocess
import unittest

OK = "ok\n"


def answers(script: str) -> str:
    """What the proved program writes."""
    done = subprocess.run([os.environ["SPARC8"]], input=script.encode(), capture_output=True, timeout=300, check=True)
    return done.stdout.decode()


def edit(lines: list[str]) -> str:
    """The command that puts lines into an empty source."""
    return f"edit 1 0 {len(lines)}\n" + "".join(f"{line}\n" for line in lines)


def words(first: int, values: list[int]) -> str:
    """The lines of `mem`."""
    return "".join(f"{first + 4 * at:08X} {value:08X}\n" for at, value in enumerate(values))


class Limits(unittest.TestCase):
    """The most that a command may ask for, or a source and a timeline may hold."""

    def test_all_of_ram(self) -> None:
        self.assertEqual(answers("mem 0 0 262144\n"), words(0, [0] * 262_144) + OK)

    def test_five_thousand_words(self) -> None:
        source = edit([".skip 0x1000", *(f".word {at}" for at in range(5_000))])
        self.assertEqual(answers(source + "mem 0 1000 5000\n"), OK + words(0x1000, list(range(5_000))) + OK)

    def test_a_megabyte_of_output(self) -> None:
        stores = 60_000
        store = "st %g2, [%g1+8]"
        source = edit(["sethi 0x200000, %g1", "mov 0x41, %g2", "loop:", *[store] * stores, "ba loop", store])
        turn = stores + 2
        put_out = sum((step - 2) % turn != stores for step in range(2, 1_000_000))
        full, rest = divmod(put_out, 32)
        due = ("41" * 32 + "\n") * full + ("41" * rest + "\n" if rest else "")
        self.assertGreater(put_out, 999_000)
        self.assertEqual(answers(source + "out 1000000\n"), OK + due + OK)

    def test_all_lines(self) -> None:
        source = edit(["nop"] * 65_536)
        listing = "".join(f"{at + 1} {4 * at:08X} 01000000 |nop\n" for at in range(65_536))
        script = source + "list\nedit 65537 65536 1\nnop\nedit 65536 65536 1\n.word 7\nmem 0 3FFFC 1\n"
        due = OK + listing + OK + "refused 3 TooManyLines\n" + OK + words(0x3FFFC, [7]) + OK
        self.assertEqual(answers(script), due)

    def test_all_events(self) -> None:
        pokes = "".join(f"poke {at} {4 * at:X} {at:X}\n" for at in range(65_536))
        script = pokes + "poke 0 4 1\ninput 0 41\nirq 0 1\npoke 65535 3FFFC 9\nmem 65536 0 65536\n"
        refused = "refused 17 TooManyEvents\n"
        due = OK * 65_536 + refused * 3 + OK + words(0, [*range(65_535), 9]) + OK
        self.assertEqual(answers(script), due)

    def test_the_last_step(self) -> None:
        script = edit(["loop: ba,a loop", ".word 0"]) + "mem 1000000 0 2\nmem 1000001 0 2\n"
        due = OK + words(0, [0x3080_0000, 0]) + OK + "refused 13 StepTooLarge\n"
        self.assertEqual(answers(script), due)

    def test_the_longest_line(self) -> None:
        count = (255 - len(".byte ")) // 2 + 1
        line = ".byte " + ",".join(["7"] * count)
        text = '.ascii "' + "a" * 246 + '"'
        self.assertEqual((len(line), len(text)), (255, 255))
        listed = [".byte " + ",".join(["7"] * count), text]
        due = OK
        address = 0
        for number, (one, byte, size) in enumerate([(line, "07", count), (text, "61", 246)], start=1):
            groups = "".join(" " + byte * min(4, size - at) for at in range(0, size, 4))
            due += f"{number} {address:08X}{groups} |{one}\n"
            address += size
        self.assertEqual(answers(edit(listed) + "list\n"), due + OK)

    def test_one_byte_too_many_in_a_line(self) -> None:
        self.assertEqual(answers(edit(["!" + "a" * 255])), "refused 4 LineTooLong line 1\n")

    def test_a_step_with_all_its_input(self) -> None:
        script = "input 5 " + "41" * 1_024 + "\ninput 6 " + "41" * 1_025 + "\n"
        self.assertEqual(answers(script), OK + "refused 19 InputTooLong\n")
