"""Conditions of breakpoints as GDB sends them: bytes that are worked out by hand from GDB's manual."""
from __future__ import annotations

import unittest

from rubliman.gdb.conditions import NotKnown, holds

REGISTERS = {1: 0x1000, 2: 0xFFFFFFFE, 3: 7}
MEMORY = {0x1000: b"\x80\x00\x00\x01\x00\x00\x00\x02"}


def register(number: int) -> int:
    return REGISTERS[number]


def memory(address: int, size: int) -> bytes:
    return MEMORY[address & ~7][address % 8 :][:size]


def value(text: str) -> bool:
    return holds(bytes.fromhex(text), register, memory)


# An expression of bytes, and whether it is true.
OPERATIONS = {
    "22 01 27": True,
    "22 00 27": False,
    # $r3 == 7, $r3 == 8
    "26 0003 22 07 13 27": True,
    "26 0003 22 08 13 27": False,
    # $r2 as a number with sign is -2, and below 0; without sign it is not
    "26 0002 16 20 22 00 14 27": True,
    "26 0002 22 00 15 27": False,
    # sums, differences, products
    "22 03 22 04 02 22 07 13 27": True,
    "22 03 22 04 03 22 00 14 27": True,
    "22 03 22 04 04 22 0c 13 27": True,
    # -7 / 2 is -3, its remainder -1
    "22 00 22 07 03 22 02 05 22 00 22 03 03 13 27": True,
    "22 00 22 07 03 22 02 07 22 00 22 01 03 13 27": True,
    "22 07 22 02 06 22 03 13 27": True,
    "22 07 22 02 08 22 01 13 27": True,
    # shifts
    "22 01 22 04 09 22 10 13 27": True,
    "22 00 22 08 03 22 01 0a 22 00 22 04 03 13 27": True,
    "22 80 22 07 0b 22 01 13 27": True,
    # not, and, or, exclusive or, complement
    "22 00 0e 27": True,
    "22 06 22 03 0f 22 02 13 27": True,
    "22 06 22 01 10 22 07 13 27": True,
    "22 06 22 03 11 22 05 13 27": True,
    "22 00 12 2a 10 23 ffff 13 27": True,
    # a byte, two, four and eight of memory
    "26 0001 17 22 80 13 27": True,
    "26 0001 18 23 8000 13 27": True,
    "26 0001 19 24 80000001 13 27": True,
    "26 0001 1a 25 8000000100000002 13 27": True,
    # both and either, by jumps: 1 && 0, 0 || 1
    "22 01 0e 20 000f 22 00 0e 20 000f 22 01 27 22 00 27": False,
    "22 00 0e 20 0009 22 00 27 22 01 27": True,
    # the stack
    "22 05 28 13 27": True,
    "22 01 22 00 29 27": True,
    "22 01 22 02 2b 22 01 13 27": True,
    "22 05 22 06 32 01 22 05 13 27": True,
    "22 01 22 02 22 03 33 22 02 13 27": True,
}


class Expressions(unittest.TestCase):
    """Each operation that GDB's compiler of C and assembler uses."""

    def test_operations(self) -> None:
        for text, due in OPERATIONS.items():
            with self.subTest(text=text):
                self.assertEqual(value(text), due)

    def test_what_is_not_known(self) -> None:
        short = ("", "27", "22", "02 27", "22 01", "16 00 27", "28 27", "29 27")
        for text in (*short, "22 00 22 00 05 27", "0c 00 27", "ff 27", "21 0000", "32 05 27", "22 01 32 01 27"):
            with self.subTest(text=text), self.assertRaises(NotKnown):
                value(text)


if __name__ == "__main__":
    unittest.main()
