"""The registers in GDB's order and numbers, and the description of them that GDB is given."""
from __future__ import annotations

from .machine import Machine

# GDB's own 72 of 32 bits: 32 integer registers, 32 of floating point, Y, PSR, WIM, TBR, PC, nPC, FSR, CSR.
_WINDOW = [f"{kind}{number}" for kind in "goli" for number in range(8)]
_STATE = ["y", "psr", "wim", "tbr", "pc", "npc", "fsr", "csr"]
# The workbench's own behind them.
_OWN = ["step", "annul", "mmucr", "mmuctp", "mmuctx", "mmufsr", "mmufar", "timer", "reload", "pending", "waiting"]
OWN_FROM = 72

_TYPES = {
    "sp": "data_ptr",
    "fp": "data_ptr",
    "pc": "code_ptr",
    "npc": "code_ptr",
    "psr": "psr_bits",
    "tbr": "tbr_bits",
    "mmufsr": "fsr_bits",
    "mmufar": "data_ptr",
}
# Fields of the manual: sections 4.2 and 4.5, and Appendix H for the fault status.
_PSR = {
    "CWP": (0, 4),
    "ET": (5, 5),
    "PS": (6, 6),
    "S": (7, 7),
    "PIL": (8, 11),
    "C": (20, 20),
    "V": (21, 21),
    "Z": (22, 22),
    "N": (23, 23),
}
_TBR = {"TT": (4, 11), "TBA": (12, 31)}
_FSR = {"OW": (0, 0), "FAV": (1, 1), "FT": (2, 4), "AT": (5, 7), "L": (8, 9)}


def values(machine: Machine) -> list[int | None]:
    """The registers in the order of their numbers; None for one that the machine does not have."""
    state = [machine.y, machine.psr, machine.wim, machine.tbr, machine.pc, machine.npc, None, None]
    own = [machine.step, int(machine.annul), *machine.mmu, *machine.devices]
    return [*machine.registers, *[None] * 32, *state, *own]


def text(value: int | None) -> str:
    """A register as a packet has it."""
    return "xxxxxxxx" if value is None else f"{value & 0xFFFFFFFF:08x}"


def description() -> str:
    """The target description."""
    names = ["sp" if it == "o6" else "fp" if it == "i6" else it for it in _WINDOW]
    features = (
        _feature("org.gnu.gdb.sparc.cpu", [_register(it) for it in names]),
        # GDB refuses a description without them.
        _feature("org.gnu.gdb.sparc.fpu", [_register(f"f{number}", "ieee_single") for number in range(32)]),
        _feature(
            "org.gnu.gdb.sparc.cp0",
            [_flags("psr_bits", _PSR), _flags("tbr_bits", _TBR), *[_register(it) for it in _STATE]],
        ),
        _feature("rubliman.workbench", [_flags("fsr_bits", _FSR), *[_register(it, "uint32") for it in _OWN]]),
    )
    return (
        '<?xml version="1.0"?><!DOCTYPE target SYSTEM "gdb-target.dtd"><target version="1.0">'
        f"<architecture>sparc</architecture>{''.join(features)}</target>"
    )


def _register(name: str, kind: str = "") -> str:
    kind = _TYPES.get(name, kind)
    return f'<reg name="{name}" bitsize="32"' + (f' type="{kind}"' if kind else "") + "/>"


def _flags(name: str, fields: dict[str, tuple[int, int]]) -> str:
    parts = "".join(f'<field name="{field}" start="{low}" end="{high}"/>' for field, (low, high) in fields.items())
    return f'<flags id="{name}" size="4">{parts}</flags>'


def _feature(name: str, parts: list[str]) -> str:
    return f'<feature name="{name}">{"".join(parts)}</feature>'
