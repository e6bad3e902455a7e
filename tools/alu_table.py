#!/usr/bin/env python3
"""Writes crates/sv8_part_tests/src/table.rt: results of the integer arithmetic of SPARC V8 at the edges of the words.

Usage: python3 tools/alu_table.py >crates/sv8_part_tests/src/table.rt, and then rt fmt in crates/sv8_part_tests.

Nothing here is taken from the crate. The condition codes of sums and differences are the manual's formulas on bits 31
(Appendix B.13 and B.15), where the crate's definitions speak of whole numbers; products and quotients are computed on
Python's whole numbers, which have no size, and a quotient is rounded towards 0 by its sign and its magnitude.
"""

WORD = 0xFFFFFFFF
SIGN = 0x80000000
EDGES = [0, 1, 0x7FFFFFFF, 0x80000000, 0xFFFFFFFF]
TAGGED = [0, 2, 0x7FFFFFFC, 0x80000000, 0xFFFFFFFF]
SHIFTED = EDGES + [0x80C0FFEE]
COUNTS = [0, 1, 16, 31, 32, 0xFFFFFFE3]
DIVISORS = EDGES[1:]


def signed(word):
    """The number that a word stands for in two's complement."""
    return word - (1 << 32) if word & SIGN else word


def codes(value, overflow, carry):
    """An icc field: N, Z, V and C from left to right."""
    return (8 if value & SIGN else 0) | (4 if value == 0 else 0) | (2 if overflow else 0) | (1 if carry else 0)


def added(x, y, carry):
    """ADDX and its icc (B.13)."""
    value = (x + y + carry) & WORD
    overflow = (x & y & ~value | ~x & ~y & value) & SIGN
    carried = (x & y | ~value & (x | y)) & SIGN
    return [value, codes(value, overflow, carried)]


def subtracted(x, y, carry):
    """SUBX and its icc (B.15)."""
    value = (x - y - carry) & WORD
    overflow = (x & ~y & ~value | ~x & y & value) & SIGN
    borrowed = (~x & y | value & (~x | y)) & SIGN
    return [value, codes(value, overflow, borrowed)]


def with_tags(x, y, answer):
    """V is also set where bits 1:0 of an operand are not 0 (B.14, B.16)."""
    value, icc = answer
    return [value, icc | 2 if (x | y) & 3 else icc]


def product(z):
    """Y, the low word and its icc (B.18)."""
    low = z & WORD
    return [z >> 32 & WORD, low, codes(low, False, False)]


def rounded(x, y):
    """x / y, rounded towards 0."""
    magnitude = abs(x) // abs(y)
    return -magnitude if (x < 0) != (y < 0) else magnitude


def quotient(z, least, most):
    """A quotient and its icc (B.19): the nearest in range."""
    value = min(max(z, least), most) & WORD
    return [value, codes(value, z < least or most < z, False)]


def step(x, operand, y, n, v):
    """MULScc: the sum, its icc and the new Y (B.17)."""
    first = (n ^ v) << 31 | x >> 1
    return added(first, operand if y & 1 else 0, 0) + [(x & 1) << 31 | y >> 1]


def shifted(x, operand):
    """SLL, SRL and SRA (B.12)."""
    count = operand & 31
    return [x << count & WORD, x >> count, signed(x) >> count & WORD]


def logic(x, y):
    """AND, ANDN, OR, ORN, XOR and XNOR, each with its icc (B.11)."""
    row = []
    for value in [x & y, x & ~y & WORD, x | y, x | ~y & WORD, x ^ y, x ^ ~y & WORD]:
        row += [value, codes(value, False, False)]
    return row


def divided(y, x, divisor):
    """UDIV and its icc, SDIV and its icc."""
    double = y << 32 | x
    by_sign = double - (1 << 64) if double >> 63 else double
    return quotient(double // divisor, 0, WORD) + quotient(rounded(by_sign, signed(divisor)), -SIGN, SIGN - 1)


def steps():
    """Each pair of edges with two values of Y, and N and V in all combinations along the way."""
    pairs = [(x, operand) for x in EDGES for operand in EDGES for _ in range(2)]
    for k, (x, operand) in enumerate(pairs):
        y = [0, 1, 0x80000000, 0xFFFFFFFF][k % 4]
        n, v = divmod((k + k // 4) % 4, 2)
        yield [x, operand, y, n, v] + step(x, operand, y, n, v)


def number(n):
    return str(n) if n < 16 else f"0x{n:08X}"


def show(text, name, rows):
    rows = list(rows)
    print(f"\n/// {text}\npub(crate) const {name}: [[u32; {len(rows[0])}]; {len(rows)}] = [")
    for row in rows:
        print("    [" + ", ".join(number(n) for n in row) + "],")
    print("];")


def show_sums():
    show(
        "r[rs1], operand, C; ADDX and its icc; SUBX and its icc.",
        "SUMS",
        ([x, y, c] + added(x, y, c) + subtracted(x, y, c) for x in EDGES for y in EDGES for c in (0, 1)),
    )
    show(
        "r[rs1], operand; TADDcc and its icc; TSUBcc and its icc.",
        "TAGGED",
        (
            [x, y] + with_tags(x, y, added(x, y, 0)) + with_tags(x, y, subtracted(x, y, 0))
            for x in TAGGED
            for y in TAGGED
        ),
    )


def show_products():
    show(
        "r[rs1], operand; Y, result and icc of UMUL; Y, result and icc of SMUL.",
        "PRODUCTS",
        ([x, y] + product(x * y) + product(signed(x) * signed(y)) for x in EDGES for y in EDGES),
    )
    show(
        "Y, r[rs1], operand; UDIV and its icc; SDIV and its icc.",
        "QUOTIENTS",
        ([y, x, d] + divided(y, x, d) for y in EDGES for x in EDGES for d in DIVISORS),
    )
    show("r[rs1], operand, Y, N, V; MULScc, its icc and the new Y.", "STEPS", steps())


def show_bits():
    show(
        "r[rs1], operand; SLL, SRL, SRA.",
        "SHIFTS",
        ([x, n] + shifted(x, n) for x in SHIFTED for n in COUNTS),
    )
    pairs = [(x, y) for x in EDGES for y in EDGES] + [(0x33CC55AA, 0x0FF0FF00)]
    show(
        "r[rs1], operand; AND, ANDN, OR, ORN, XOR, XNOR, each with its icc.",
        "LOGIC",
        ([x, y] + logic(x, y) for x, y in pairs),
    )


def main():
    print(
        "//! Results at the edges. `tools/alu_table.py` makes this file, and says how. An icc field is one number, its"
    )
    print("//! bits N, Z, V and C from left to right.")
    show_sums()
    show_products()
    show_bits()


if __name__ == "__main__":
    main()
