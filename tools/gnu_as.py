#!/usr/bin/env python3
"""Compares the assembler with GNU as.

    tools/gnu_as.py words [FILE]     makes FILE: statements of every mnemonic and form, each with the bytes of GNU as
    tools/gnu_as.py compare [FILE]   has the program list the statements of FILE, unproved, and compares the bytes

FILE is tools/gnu_as.txt where it is left out. Each of its lines is the bytes in hexadecimal, a tab and the line of
text. The lines are one source: labels stand in it, and branches go to them. `words` needs Debian's
binutils-sparc64-linux-gnu; `compare` does not.
"""
import os
import subprocess
import sys
import tempfile

TOP = os.path.dirname(os.path.dirname(os.path.abspath(__file__)))
AS = "sparc64-linux-gnu-"

ARITHMETIC = [
    name + suffix
    for name in "add sub addx subx and andn or orn xor xnor umul smul udiv sdiv".split()
    for suffix in ("", "cc")
]
THREE = ARITHMETIC + "taddcc taddcctv tsubcc tsubcctv mulscc save restore".split()
LOADS = "ldsb ldsh ldub lduh ld ldd ldstub swap".split()
STORES = "stb sth st std".split()
CONDITIONS = "a n ne nz e z g le ge l gu leu cc geu cs lu pos neg vc vs".split()
ADDRESSES = ["%g1", "%g1+%o2", "%fp-8", "%sp+96", "%l3-4096", "%i4+4095", "16", "%r17+%lo(0x12345678)"]
SPECIAL = "%y %psr %wim %tbr".split()

# What the program encodes otherwise on purpose: `tst a` is `orcc %g0, a, %g0`, and `btst c, a` is `andcc a, c, %g0`.
ON_PURPOSE = {
    "tst %l5": "80900015",
    "btst %o2, %g1": "8088400a",
}


def arithmetic():
    """Instructions of three operands."""
    for name in THREE:
        yield from (
            f"{name} %g1, %o2, %l3",
            f"{name} %i4, 4095, %sp",
            f"{name} %r9, -4096, %g0",
            f"{name} %fp, %lo(0x12345678), %r31",
        )
    for name in "sll srl sra".split():
        yield from (f"{name} %g1, %o2, %l3", f"{name} %i4, 0, %o5", f"{name} %l1, 31, %g7")


def accesses():
    """Loads and stores, in the spaces of instructions and data and in others."""
    for name in LOADS:
        yield from (f"{name} [{address}], %o4" for address in ADDRESSES)
    for name in STORES:
        yield from (f"{name} %o4, [{address}]" for address in ADDRESSES)
    for name in LOADS:
        yield from (f"{name}a [%g1]4, %o4", f"{name}a [%g1+%l2]255, %i2")
    for name in STORES:
        yield from (f"{name}a %o4, [%g1]0x20", f"{name}a %i2, [%g1+%l2]0")


def state_registers():
    """SETHI, and reads and writes of state registers."""
    yield from ("sethi 0x3fffff, %g1", "sethi %hi(0x12345678), %o3", "sethi %hi(0xfffffc00), %g0", "sethi 0, %l7")
    for special in SPECIAL:
        yield from (
            f"rd {special}, %l1",
            f"wr %g1, %o2, {special}",
            f"wr %l1, -1, {special}",
            f"mov {special}, %i3",
            f"mov %i3, {special}",
            f"mov 5, {special}",
        )


def control():
    """Branches, traps, calls and jumps, and instructions without operands."""
    for condition in CONDITIONS:
        yield from (f"b{condition} first", f"b{condition},a last")
        yield from (f"t{condition} %g1", f"t{condition} %g1+%o2", f"t{condition} %l1+5", f"t{condition} 127")
    yield from ("b first", "b,a last", "ba 1f", "ba 1b", "call first", "call last", "call %g1", "call %g1+8")
    yield from (f"jmpl {address}, %o7" for address in ADDRESSES if "lo" not in address)
    for name in "jmp rett flush".split():
        yield from (f"{name} {address}" for address in ("%g1", "%g1+%o2", "%i7+8", "%l2-4"))
    yield from ("stbar", "unimp 0", "unimp 0x3fffff", "nop", "ret", "retl", "save", "restore")


def synthetic():
    """Statements that stand for other instructions."""
    yield from ("cmp %g1, %o2", "cmp %l3, -1", "tst %l5", "not %g1", "not %g1, %l2", "neg %g1", "neg %g1, %l2")
    for name in "inc inccc dec deccc".split():
        yield from (f"{name} %g1", f"{name} 8, %o2")
    for name in "btst bset bclr btog".split():
        yield from (f"{name} 5, %g1", f"{name} %o2, %g1")
    yield from ("clr %g1", "clr [%g1+4]", "clrb [%o2]", "clrh [%sp-2]", "mov %g1, %o2", "mov -5, %l3")
    yield from (
        "set 5, %g1",
        "set -4096, %g1",
        "set 4095, %g1",
        "set 0x12345678, %o2",
        "set 0x40000000, %l3",
        "set 4096, %l3",
        "set -1, %i1",
    )


def data():
    """Directives that place bytes."""
    yield from (
        ".word 1, 0xffffffff, -1, -2147483648",
        ".half 1, -1, 0x8000, 65535",
        ".byte 1, 255, -128, 0x7f",
        '.ascii "ab\\n\\t\\\\\\"cd"',
        ".align 8",
        ".word 7",
        ".skip 12",
        ".align 16",
        ".word 8",
    )


def statements():
    """All statements, each of which both assemblers read alike."""
    for part in (arithmetic, accesses, state_registers, control, synthetic, data):
        yield from part()


def lines():
    """The lines of the source: a label at each end, and local labels in the middle."""
    found = list(statements())
    middle = len(found) // 2
    found[0] = "first: " + found[0]
    found[middle] = "1: " + found[middle]
    return found + ["1: nop", "last: nop"]


def run(*words, text=None):
    return subprocess.run(words, input=text, check=True, stdout=subprocess.PIPE, text=True).stdout


def words(path):
    """The bytes of each line, between labels that are put in front of it."""
    source = lines()
    with tempfile.TemporaryDirectory() as folder:
        text, built, image = (os.path.join(folder, name) for name in ("a.s", "a.o", "a.bin"))
        with open(text, "w") as out:
            for number, line in enumerate(source):
                out.write(f"here{number}:\n{line}\n")
            out.write(f"here{len(source)}:\n")
        run(AS + "as", "-32", "-Av8", "-o", built, text)
        run(AS + "objcopy", "-O", "binary", "-j", ".text", built, image)
        left = [line for line in run(AS + "objdump", "-r", built).splitlines() if "R_SPARC" in line]
        if left:
            sys.exit(f"GNU as leaves {len(left)} places to the linker: {left[0]}")
        places = {}
        for line in run(AS + "nm", built).splitlines():
            value, _, name = line.split()
            if name.startswith("here"):
                places[int(name[4:])] = int(value, 16)
        with open(image, "rb") as file:
            placed = file.read()
    with open(path, "w") as out:
        for number, line in enumerate(source):
            out.write(placed[places[number] : places[number + 1]].hex() + "\t" + line + "\n")
    print(f"{len(source)} lines")


def compare(path):
    with open(path) as file:
        wanted = [line.rstrip("\n").split("\t", 1) for line in file]
    script = f"edit 1 0 {len(wanted)}\n" + "".join(line + "\n" for _, line in wanted) + "list\nquit\n"
    answer = run(os.path.join(TOP, "sparc8"), "--unproved", text=script).splitlines()
    answer = [line.removeprefix("| ") for line in answer]
    listed = [line for line in answer if " |" in line]
    if len(listed) != len(wanted):
        sys.exit("\n".join(answer[:5]) + f"\n{len(listed)} lines are listed, and not {len(wanted)}")
    differ = 0
    for (given, line), shown in zip(wanted, listed):
        found = "".join(shown.split(" |")[0].split()[2:]).lower()
        gap = line.startswith((".align", ".skip"))
        if found != ("" if gap else ON_PURPOSE.get(line, given)):
            differ += 1
            print(f"{line}: {found or 'nothing'}, and by GNU as {given}")
    print(f"{len(wanted)} lines, {differ} differ")
    return differ != 0


if __name__ == "__main__":
    if len(sys.argv) not in (2, 3) or sys.argv[1] not in ("words", "compare"):
        sys.exit(__doc__)
    file = sys.argv[2] if len(sys.argv) == 3 else os.path.join(TOP, "tools", "gnu_as.txt")
    sys.exit({"words": words, "compare": compare}[sys.argv[1]](file))
