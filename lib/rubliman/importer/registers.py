"""How registers are written."""

_STACK, _FRAME = 14, 30

REGISTERS = [f"%{bank}{number}" for bank in "goli" for number in range(8)]
REGISTERS[_STACK], REGISTERS[_FRAME] = "%sp", "%fp"

SPECIAL = ["%y", "%psr", "%wim", "%tbr"]
