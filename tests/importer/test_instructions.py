"""The text of each word means that word: the program assembles it, and tells its bytes."""
from __future__ import annotations

import random
import unittest
from pathlib import Path

from rubliman.importer import Imported, import_file
from rubliman.importer.instructions import fixed_statement, statement, target_of, why_none

from .support import InFolder, workbench

WORDS = 50_000


def _uniform(chance: random.Random) -> int:
    return chance.getrandbits(32)


def _usual(chance: random.Random) -> int:
    """A word with the fields that are reserved as often 0 as not."""
    word = chance.getrandbits(32)
    if not word >> 13 & 1 and chance.random() < 0.8:
        word &= ~0x1FE0
    if chance.random() < 0.3:
        word &= ~(0x1F << chance.choice((0, 14, 25)))
    return word


class RandomWords(InFolder):
    """100,000 random words in two images, each of which has to come back as itself."""

    def imported(self, words: list[int]) -> Imported:
        """An image of these words."""
        file = Path(self.folder, "words.bin")
        file.write_bytes(b"".join(it.to_bytes(4, "big") for it in words))
        return import_file([file])

    def come_back(self, make: object, seed: int, least_instructions: int) -> None:
        """The words come back, and so many of them as instructions."""
        chance = random.Random(seed)
        words = [make(chance) for _ in range(WORDS)]
        imported = self.imported(words)
        with workbench() as opened:
            imported.enter(opened)
            listing = opened.listing()
        placed = {line.address: line.data for line in listing if line.data}
        self.assertEqual([placed[4 * it] for it in range(WORDS)], [it.to_bytes(4, "big") for it in words])
        instructions = sum(
            line.address is not None and not line.text.lstrip().startswith(".word") for line in imported.text.lines
        )
        self.assertGreater(instructions, least_instructions)

    def test_uniform_words_come_back(self) -> None:
        self.come_back(_uniform, 1, WORDS * 4 // 10)

    def test_words_with_few_reserved_bits_come_back(self) -> None:
        self.come_back(_usual, 2, WORDS // 2)


class Statements(unittest.TestCase):
    """Texts of single words, as GNU as assembles them or as the manual has them."""

    def test_plain_forms(self) -> None:
        expected = {
            0x01000000: "nop",
            0x81C7E008: "ret",
            0x81C3E008: "retl",
            0x81E80000: "restore",
            0x9DE3BFA0: "save %sp, -0x60, %sp",
            0x82102005: "mov 5, %g1",
            0x84006001: "add %g1, 1, %g2",
            0x80A06003: "cmp %g1, 3",
            0x80900001: "tst %g1",
            0x03000004: "sethi %hi(0x1000), %g1",
            0xC2006010: "ld [%g1+0x10], %g1",
            0xC227BFFC: "st %g1, [%fp-4]",
            0xC0A08060: "sta %g0, [%g2]3",
            0x91D02005: "ta 5",
            0x9FC04000: "call %g1",
            0x81C04000: "jmp %g1",
            0x8143C000: "stbar",
            0x83480000: "rd %psr, %g1",
            0x81882020: "mov 0x20, %psr",
            0x82100000: "clr %g1",
            0x00000008: "unimp 8",
        }
        self.assertEqual({it: fixed_statement(it) for it in expected}, expected)

    def test_words_without_a_form(self) -> None:
        self.assertEqual(why_none(0x81A00840), "floating point, which traps as fp_disabled")
        self.assertEqual(why_none(0xC1006000), "floating point, which traps as fp_disabled")
        self.assertEqual(why_none(0x81B00000), "coprocessor, which traps as cp_disabled")
        self.assertEqual(why_none(0x00012345), "data, or unimp")
        self.assertEqual(why_none(0x81C00020), "no instruction of V8 without reserved bits")
        for word in (0x81A00840, 0x81B00000, 0x00012345, 0x81C00020, 0x82004020, 0x91D02085, 0x85400000 | 1):
            self.assertIsNone(fixed_statement(word), f"{word:08X}")

    def test_targets(self) -> None:
        self.assertEqual(target_of(0x10BFFFFE, 8), 0)
        self.assertEqual(target_of(0x10BFFFFE, 0), -8)
        self.assertEqual(target_of(0x7FFFFFFF, 0), 0xFFFFFFFC)
        self.assertEqual(statement(0x30800003, 0x100, hex), "ba,a 0x10c")
        self.assertEqual(statement(0x40000002, 0x100, hex), "call 0x108")


if __name__ == "__main__":
    unittest.main()
