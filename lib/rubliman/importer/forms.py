"""Decides how each word of a program is written: which addresses have names, and which words are instructions."""
from __future__ import annotations

import struct
from bisect import bisect_right
from collections.abc import Sequence
from dataclasses import dataclass

from . import instructions
from .names import Names
from .program import Program, Relocation, RelocationKind, Section, SymbolKind

_WORDS = (RelocationKind.WORD, RelocationKind.LOOSE_WORD)
_TARGETS = (RelocationKind.CALL, RelocationKind.BRANCH)
_LARGEST_13 = 0xFFF


@dataclass(frozen=True)
class Manner:
    """How code is written: every word as an instruction, or (`dense`) words of data but for those that need a name and
    for the functions of `chosen`. Where not `named`, a dense word never has a name."""

    dense: bool = False
    chosen: frozenset[str] = frozenset()
    named: bool = True


class _Functions:
    """The functions of the program, to tell in which one an address lies."""

    def __init__(self, program: Program) -> None:
        self._functions = sorted(
            (it for it in program.symbols if it.kind is SymbolKind.FUNCTION), key=lambda it: it.address
        )
        self._starts = [it.address for it in self._functions]

    def at(self, address: int) -> int:
        """A number that is the same for the addresses of one function."""
        return bisect_right(self._starts, address)

    def named(self, names: frozenset[str]) -> set[int]:
        """The numbers of the functions with these names."""
        return {self.at(it.address) for it in self._functions if it.name in names}


class Forms:
    """The forms of the words of a program. Where `can_move`, each address has a name as far as that can be, so that
    lines may be put in."""

    def __init__(self, program: Program, manner: Manner) -> None:
        self.names = Names(program)
        self.can_move = program.keeps_relocations and manner.named
        self._program, self._is_dense = program, manner.dense
        self._functions = _Functions(program)
        self._chosen = self._functions.named(manner.chosen)
        self._expressions: dict[int, str] = {}
        self._targets: set[int] = set()
        for section in program.sections:
            if self.can_move:
                self._name_relocations(section)
        for section in program.sections:
            if section.is_code and section.address % 4 == 0:
                self._name_targets(section)
        if program.entry:
            self.names.ensure(program.entry)

    def expression(self, place: int) -> str | None:
        """What is written at a place for the address of its relocation, if that has a name."""
        return self._expressions.get(place)

    def named_places(self, section: Section) -> list[int]:
        """The places of a section that have such an expression, in rising order."""
        return sorted(it for it in self._expressions if section.address <= it < section.data_end)

    def is_word(self, place: int) -> bool:
        """Whether the expression at a place is a whole word, and no part of an instruction."""
        return self._program.relocations[place].kind in _WORDS

    def is_whole(self, at: int) -> bool:
        """Whether all the words of the function at an address are written as instructions."""
        return not self._is_dense or self._functions.at(at) in self._chosen

    def is_instruction(self, at: int, word: int) -> bool:
        """Whether a word of code is written as an instruction, and not among others as data."""
        if self.is_whole(at):
            return True
        if not self.can_move:
            return False
        if at in self._expressions or at in self._targets or instructions.is_call(word):
            return True
        if not instructions.is_branch(word):
            return False
        return self._functions.at(instructions.target_of(word, at)) != self._functions.at(at)

    def numbers(self) -> list[int]:
        """The places of addresses that stand as numbers although their relocations are known."""
        if not self.can_move:
            return []
        return sorted(self._program.relocations.keys() - self._expressions.keys() - self._targets)

    def _name_relocations(self, section: Section) -> None:
        """Gives names to the addresses in a section; a call or a branch names its target by itself."""
        for place, relocation in self._program.relocations.items():
            if section.address <= place <= section.data_end - 4 and place % 4 == 0:
                if relocation.kind in _TARGETS:
                    self._targets.add(place)
                elif section.is_code or relocation.kind in _WORDS:
                    begin = place - section.address
                    self._name(relocation, int.from_bytes(section.data[begin : begin + 4], "big"))

    def _name(self, relocation: Relocation, word: int) -> None:
        """Gives a name to an address, if the word has just that address."""
        form = _form(relocation)
        if form is None or word & form.mask != form.value:
            return
        name = self.names.of(relocation)
        if name is not None:
            self._expressions[relocation.place] = form.text.format(name)

    def _name_targets(self, section: Section) -> None:
        """Gives labels to what branches and calls lead to, where these are written as instructions."""
        for at, word in zip(range(section.address, section.data_end, 4), words_of(section)):
            if (instructions.is_call(word) or instructions.is_branch(word)) and self.is_instruction(at, word):
                target = instructions.target_of(word, at)
                if target % 4 == 0:
                    self.names.ensure(target)


@dataclass(frozen=True)
class _Form:
    """How an address stands in a word: which bits it has there, their value, and how a name is written in its place."""

    mask: int
    value: int
    text: str


def _form(relocation: Relocation) -> _Form | None:
    address = relocation.target
    match relocation.kind:
        case RelocationKind.WORD | RelocationKind.LOOSE_WORD:
            return _Form(0xFFFF_FFFF, address, "{}")
        case RelocationKind.HIGH_22:
            return _Form(0x3F_FFFF, address >> 10, "%hi({})")
        case RelocationKind.WHOLE_22:
            return _Form(0x3F_FFFF, address, "{}")
        case RelocationKind.LOW_10:
            return _Form(0x1FFF, address & 0x3FF, "%lo({})")
        case RelocationKind.WHOLE_13 if address <= _LARGEST_13:
            return _Form(0x1FFF, address, "{}")
    return None


def words_of(section: Section) -> Sequence[int]:
    """The whole words of a section."""
    count = len(section.data) // 4
    return struct.unpack(f">{count}I", section.data[: 4 * count])
