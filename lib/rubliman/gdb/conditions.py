"""Conditions of breakpoints, which GDB sends as expressions for an agent: a stack machine over 64 bits.

GDB's manual has the bytes ("Bytecode Descriptions" of the chapter on agent expressions). What has to do with tracing or
with floating point is not there: then the stop is GDB's to judge.
"""
from __future__ import annotations

from collections.abc import Callable
from dataclasses import dataclass, field

_MASK = (1 << 64) - 1
_MOST_DONE = 10_000


class NotKnown(Exception):
    """An expression cannot be evaluated here."""


@dataclass
class _Agent:
    """An expression at work."""

    code: bytes
    register: Callable[[int], int]
    memory: Callable[[int, int], bytes]
    stack: list[int] = field(default_factory=list)
    at: int = 0

    def argument(self, size: int) -> int:
        """The bytes behind an operation, as a number."""
        found = self.code[self.at : self.at + size]
        if len(found) < size:
            raise NotKnown
        self.at += size
        return int.from_bytes(found, "big")

    def pop(self) -> int:
        """The top, taken off."""
        if not self.stack:
            raise NotKnown
        return self.stack.pop()

    def push(self, value: int) -> None:
        """One more."""
        self.stack.append(value & _MASK)


def holds(code: bytes, register: Callable[[int], int], memory: Callable[[int, int], bytes]) -> bool:
    """Whether an expression is not 0. `register` gives one by GDB's number, `memory` so many bytes from an address on.
    Raises `NotKnown`."""
    agent = _Agent(code, register, memory)
    for _ in range(_MOST_DONE):
        if agent.at >= len(code):
            raise NotKnown
        operation = agent.argument(1)
        if operation == _END:
            return agent.pop() != 0
        if operation not in _OPERATIONS:
            raise NotKnown
        _OPERATIONS[operation](agent)
    raise NotKnown


def _signed(value: int, bits: int = 64) -> int:
    """A number of so many bits, with its sign."""
    value &= (1 << bits) - 1
    return value - (1 << bits) if value >> (bits - 1) else value


def _binary(does: Callable[[int, int], int]) -> Callable[[_Agent], None]:
    """An operation on the two at the top, of which the last is the second operand."""

    def do(agent: _Agent) -> None:
        second = agent.pop()
        agent.push(does(agent.pop(), second))

    return do


def _quotient(one: int, other: int) -> int:
    """The quotient, rounded towards 0."""
    if other == 0:
        raise NotKnown
    found = abs(one) // abs(other)
    return found if (one < 0) == (other < 0) else -found


def _remainder(one: int, other: int) -> int:
    """What is left of it."""
    return one - other * _quotient(one, other)


def _shifted(value: int, count: int) -> int:
    """Shifted to the left; by 64 or more nothing is left."""
    return value << count if count < 64 else 0


def _reference(size: int) -> Callable[[_Agent], None]:
    """The number of so many bytes at an address."""

    def do(agent: _Agent) -> None:
        agent.push(int.from_bytes(agent.memory(agent.pop() & 0xFFFFFFFF, size), "big"))

    return do


def _constant(size: int) -> Callable[[_Agent], None]:
    return lambda agent: agent.push(agent.argument(size))


def _extend(agent: _Agent) -> None:
    """The sign of so many bits goes on."""
    bits = agent.argument(1)
    if not 1 <= bits <= 64:
        raise NotKnown
    agent.push(_signed(agent.pop(), bits))


def _extend_by_zero(agent: _Agent) -> None:
    agent.push(agent.pop() & ((1 << min(agent.argument(1), 64)) - 1))


def _go(agent: _Agent) -> None:
    agent.at = agent.argument(2)


def _go_if(agent: _Agent) -> None:
    to = agent.argument(2)
    if agent.pop():
        agent.at = to


def _register(agent: _Agent) -> None:
    agent.push(agent.register(agent.argument(2)))


def _copy(agent: _Agent, depth: int) -> None:
    """One more of what stands so deep."""
    if depth >= len(agent.stack):
        raise NotKnown
    agent.push(agent.stack[-1 - depth])


def _drop(agent: _Agent) -> None:
    agent.pop()


def _exchange(agent: _Agent) -> None:
    one, other = agent.pop(), agent.pop()
    agent.stack += [one, other]


def _rotate(agent: _Agent) -> None:
    """a b c becomes c a b."""
    c, b, a = agent.pop(), agent.pop(), agent.pop()
    agent.stack += [c, a, b]


_END = 0x27
_OPERATIONS: dict[int, Callable[[_Agent], None]] = {
    0x02: _binary(lambda a, b: a + b),
    0x03: _binary(lambda a, b: a - b),
    0x04: _binary(lambda a, b: a * b),
    0x05: _binary(lambda a, b: _quotient(_signed(a), _signed(b))),
    0x06: _binary(_quotient),
    0x07: _binary(lambda a, b: _remainder(_signed(a), _signed(b))),
    0x08: _binary(_remainder),
    0x09: _binary(_shifted),
    0x0A: _binary(lambda a, b: _signed(a) >> min(b, 63)),
    0x0B: _binary(lambda a, b: a >> min(b, 64)),
    0x0E: lambda agent: agent.push(int(agent.pop() == 0)),
    0x0F: _binary(lambda a, b: a & b),
    0x10: _binary(lambda a, b: a | b),
    0x11: _binary(lambda a, b: a ^ b),
    0x12: lambda agent: agent.push(~agent.pop()),
    0x13: _binary(lambda a, b: int(a == b)),
    0x14: _binary(lambda a, b: int(_signed(a) < _signed(b))),
    0x15: _binary(lambda a, b: int(a < b)),
    0x16: _extend,
    0x17: _reference(1),
    0x18: _reference(2),
    0x19: _reference(4),
    0x1A: _reference(8),
    0x20: _go_if,
    0x21: _go,
    0x22: _constant(1),
    0x23: _constant(2),
    0x24: _constant(4),
    0x25: _constant(8),
    0x26: _register,
    0x28: lambda agent: _copy(agent, 0),
    0x29: _drop,
    0x2A: _extend_by_zero,
    0x2B: _exchange,
    0x32: lambda agent: _copy(agent, agent.argument(1)),
    0x33: _rotate,
}
