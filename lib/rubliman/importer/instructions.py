"""The text of each instruction in the assembler's own language.

The tables only say how the program spells what it knows. That a text means its word is shown by the program itself,
which assembles it (`check`); a word that has no text here is data.
"""
from __future__ import annotations

from collections.abc import Callable
from functools import lru_cache

from .registers import REGISTERS, SPECIAL

CONDITIONS = "n e le l leu cs neg vs a ne g ge gu cc pos vc".split()

_PLAIN = {
    0x00: "add",
    0x01: "and",
    0x02: "or",
    0x03: "xor",
    0x04: "sub",
    0x05: "andn",
    0x06: "orn",
    0x07: "xnor",
    0x08: "addx",
    0x0A: "umul",
    0x0B: "smul",
    0x0C: "subx",
    0x0E: "udiv",
    0x0F: "sdiv",
}
ARITHMETIC = {
    **_PLAIN,
    **{code + 0x10: f"{name}cc" for code, name in _PLAIN.items()},
    0x20: "taddcc",
    0x21: "tsubcc",
    0x22: "taddcctv",
    0x23: "tsubcctv",
    0x24: "mulscc",
    0x3C: "save",
    0x3D: "restore",
}
SHIFTS = {0x25: "sll", 0x26: "srl", 0x27: "sra"}
LOADS = {0x00: "ld", 0x01: "ldub", 0x02: "lduh", 0x03: "ldd", 0x09: "ldsb", 0x0A: "ldsh", 0x0D: "ldstub", 0x0F: "swap"}
STORES = {0x04: "st", 0x05: "stb", 0x06: "sth", 0x07: "std"}
_ALTERNATE = 0x10

_NOP, _STBAR, _RET, _RETL = 0x0100_0000, 0x8143_C000, 0x81C7_E008, 0x81C3_E008
_LINK, _LARGEST_PLAIN_UNIMP = 15, 4095


def is_call(word: int) -> bool:
    """Whether the word calls an address that is relative to its own."""
    return word >> 30 == 1


def is_branch(word: int) -> bool:
    """Whether the word branches to an address that is relative to its own."""
    return word >> 30 == 0 and word >> 22 & 7 == 2


def target_of(word: int, at: int) -> int:
    """Where a call or a branch at an address leads to. A branch may lead below 0 or above RAM."""
    if is_call(word):
        return at + 4 * (word & 0x3FFF_FFFF) & 0xFFFF_FFFF
    return at + 4 * _signed(word, 22)


def statement(word: int, at: int, name: Callable[[int], str], immediate: str | None = None) -> str | None:
    """The statement of a word at an address, or None where it has none.

    `name` writes an address. `immediate` is written in the place of the number of the word, where a relocation gives it
    a name.
    """
    if is_call(word):
        return f"call {name(target_of(word, at))}"
    if is_branch(word):
        return f"b{CONDITIONS[word >> 25 & 15]}{',a' if word >> 29 else ''} {name(target_of(word, at))}"
    return fixed_statement(word) if immediate is None else _fixed(word, immediate)


@lru_cache(maxsize=1 << 16)
def fixed_statement(word: int) -> str | None:
    """The statement of a word that means the same at every address."""
    return _fixed(word, None)


def why_none(word: int) -> str:
    """What is told of a word that has no statement."""
    group, second, third = word >> 30, word >> 22 & 7, word >> 19 & 63
    if group == 2 and third in (0x34, 0x35) or group == 3 and 0x20 <= third <= 0x27 or group == 0 and second == 6:
        return "floating point, which traps as fp_disabled"
    if group == 2 and third in (0x36, 0x37) or group == 3 and 0x30 <= third <= 0x37 or group == 0 and second == 7:
        return "coprocessor, which traps as cp_disabled"
    if group == 0 and second == 0:
        return "data, or unimp"
    return "no instruction of V8 without reserved bits"


def _signed(word: int, bits: int) -> int:
    value = word & (1 << bits) - 1
    return value - (value >> bits - 1 << bits)


def _fixed(word: int, immediate: str | None) -> str | None:
    group = word >> 30
    if group == 0:
        return _of_format_2(word, immediate)
    return _of_memory(word, immediate) if group == 3 else _of_operation(word, immediate)


def _of_format_2(word: int, immediate: str | None) -> str | None:
    if word >> 22 & 7 == 4:
        if word == _NOP:
            return "nop"
        return f"sethi {immediate or f'%hi({(word & 0x3FFFFF) << 10:#x})'}, {REGISTERS[word >> 25 & 31]}"
    return f"unimp {word}" if word <= _LARGEST_PLAIN_UNIMP else None


def _is_clean(word: int) -> bool:
    """Whether the bits 12:5 are 0, where a register is the second operand."""
    return bool(word >> 13 & 1) or not word >> 5 & 0xFF


def _number(value: int) -> str:
    return str(value) if -10 < value < 10 else f"{'-' if value < 0 else ''}{abs(value):#x}"


def _second(word: int, immediate: str | None) -> str:
    """The operand that is a register or an immediate value."""
    return immediate or _number(_signed(word, 13)) if word >> 13 & 1 else REGISTERS[word & 31]


def _address(word: int, immediate: str | None) -> str:
    """An address of a register and what is added to it; register 0 where one of them stands alone."""
    first = REGISTERS[word >> 14 & 31]
    if not word >> 13 & 1:
        return first if not word & 31 else f"{first}+{REGISTERS[word & 31]}"
    added = _second(word, immediate)
    if first == "%g0" and immediate is None:
        return added
    return f"{first}{added}" if added.startswith("-") else f"{first}+{added}"


def _of_memory(word: int, immediate: str | None) -> str | None:
    code, register = word >> 19 & 63, REGISTERS[word >> 25 & 31]
    if code in LOADS or code in STORES:
        if not _is_clean(word):
            return None
        suffix, place = "", f"[{_address(word, immediate)}]"
    elif (code - _ALTERNATE in LOADS or code - _ALTERNATE in STORES) and not word >> 13 & 1:
        code -= _ALTERNATE
        suffix, place = "a", f"[{_address(word, None)}]{word >> 5 & 0xFF}"
    else:
        return None
    if code in STORES:
        return f"{STORES[code]}{suffix} {register}, {place}"
    return f"{LOADS[code]}{suffix} {place}, {register}"


def _of_operation(word: int, immediate: str | None) -> str | None:
    code = word >> 19 & 63
    if code in SHIFTS:
        if word >> 5 & 0xFF:
            return None
        count = str(word & 31) if word >> 13 & 1 else REGISTERS[word & 31]
        return f"{SHIFTS[code]} {REGISTERS[word >> 14 & 31]}, {count}, {REGISTERS[word >> 25 & 31]}"
    if 0x28 <= code <= 0x2B:
        return _of_reading(word)
    if code == 0x3A:
        return _of_trap(word)
    if not _is_clean(word):
        return None
    if code in ARITHMETIC:
        return _of_arithmetic(word, ARITHMETIC[code], _second(word, immediate))
    if 0x30 <= code <= 0x33:
        return _of_writing(word, _second(word, immediate))
    return _of_jump(word, _address(word, immediate))


def _of_arithmetic(word: int, mnemonic: str, second: str) -> str:
    into, first = REGISTERS[word >> 25 & 31], REGISTERS[word >> 14 & 31]
    if mnemonic in ("save", "restore") and not word & 0x3E07_FFFF:
        return mnemonic
    if mnemonic == "or" and first == "%g0":
        return f"clr {into}" if second == "%g0" else f"mov {second}, {into}"
    if mnemonic == "subcc" and into == "%g0":
        return f"cmp {first}, {second}"
    if mnemonic == "orcc" and into == first == "%g0" and not word >> 13 & 1:
        return f"tst {second}"
    return f"{mnemonic} {first}, {second}, {into}"


def _of_reading(word: int) -> str | None:
    if word == _STBAR:
        return "stbar"
    return None if word & 0x7FFFF else f"rd {SPECIAL[word >> 19 & 3]}, {REGISTERS[word >> 25 & 31]}"


def _of_writing(word: int, second: str) -> str | None:
    if word >> 25 & 31:
        return None
    special, first = SPECIAL[word >> 19 & 3], REGISTERS[word >> 14 & 31]
    return f"mov {second}, {special}" if first == "%g0" else f"wr {first}, {second}, {special}"


def _of_trap(word: int) -> str | None:
    mnemonic, first = f"t{CONDITIONS[word >> 25 & 15]}", REGISTERS[word >> 14 & 31]
    if word >> 29 & 1:
        return None
    if word >> 13 & 1:
        if word >> 7 & 0x3F:
            return None
        return f"{mnemonic} {word & 0x7F}" if first == "%g0" else f"{mnemonic} {first}+{word & 0x7F}"
    if word >> 5 & 0xFF:
        return None
    return f"{mnemonic} {first}" if not word & 31 else f"{mnemonic} {first}+{REGISTERS[word & 31]}"


def _of_jump(word: int, address: str) -> str | None:
    code, into = word >> 19 & 63, word >> 25 & 31
    if code == 0x38:
        if word in (_RET, _RETL):
            return "ret" if word == _RET else "retl"
        if into == _LINK and address.startswith("%"):
            return f"call {address}"
        return f"jmpl {address}, {REGISTERS[into]}" if into else f"jmp {address}"
    if code in (0x39, 0x3B) and not into:
        return f"{'rett' if code == 0x39 else 'flush'} {address}"
    return None
