"""Reads a raw image: bytes without anything said of them."""
from .limits import RAM_SIZE
from .problem import Problem
from .program import Program, Section


def read_raw(data: bytes, base: int) -> Program:
    """A program of these bytes from `base` on, all of them taken for code. The machine is to start at `base`."""
    if not data:
        raise Problem("the file is empty: nothing can be imported of it")
    if base % 4:
        raise Problem(f"--base {base:#x} is no multiple of 4: instructions stand at such addresses alone")
    if base + len(data) > RAM_SIZE:
        raise Problem(
            f"{len(data):,} bytes at {base:#x} do not fit: RAM has {RAM_SIZE:,} bytes from 0, "
            "so choose a lower --base or a shorter image"
        )
    return Program([Section("", base, data, len(data), True, 4)], base)
