"""Writes the source text of a program."""
from __future__ import annotations

from bisect import bisect_left
from collections import Counter
from collections.abc import Iterable, Mapping, Sequence
from dataclasses import dataclass, field
from typing import NamedTuple

from . import instructions
from .data import WORDS_OF_DENSE_LINE, data_statements, skip, words_statement
from .forms import Forms, Manner, words_of
from .limits import LARGEST_ALIGNMENT, WIDEST_LINE
from .program import Program, Section

_INDENT = "        "
_SHORTEST_SKIP = 16
_ALIGNMENTS = {1 << it for it in range(LARGEST_ALIGNMENT.bit_length())}


class Line(NamedTuple):
    """A line of the text, and the address of what it places; None where it places nothing."""

    text: str
    address: int | None = None


@dataclass
class Text:
    """The lines, and what is to be told of them. Where it `can_move`, lines may be put in."""

    can_move: bool
    lines: list[Line] = field(default_factory=list)
    formless: Counter[str] = field(default_factory=Counter)
    """How many words of code have no instruction, by the reason."""
    numbers: list[int] = field(default_factory=list)
    """The places of addresses that stand as numbers although their relocations are known."""
    fixed: list[str] = field(default_factory=list)
    """The sections that stand at a fixed address behind others."""

    def texts(self) -> list[str]:
        """The lines alone."""
        return [it.text for it in self.lines]


def write_text(program: Program, remarks: Mapping[int, Sequence[str]], manner: Manner) -> Text:
    """The source text of the program. `remarks` by address stand before what lies there."""
    return _Writer(program, remarks, Forms(program, manner)).write()


def join(lines: Iterable[str]) -> str:
    """The lines as a file has them."""
    return "".join(f"{it}\n" for it in lines)


class _Writer:
    """Writes a program once. `_here` is the location that the lines so far lead to."""

    def __init__(self, program: Program, remarks: Mapping[int, Sequence[str]], forms: Forms) -> None:
        self._program, self.remarks, self.forms = program, remarks, forms
        self._labelled = forms.names.addresses()
        self.text, self._here = Text(forms.can_move, numbers=forms.numbers()), 0

    def write(self) -> Text:
        """All the lines."""
        if self._program.needs_start:
            self.put(f"ba {self.forms.names.at(self._program.entry)}", 0)
            self.put("nop", 4)
            self._here = 8
        for section, following in zip(self._program.sections, [*self._program.sections[1:], None]):
            if section.name:
                self.text.lines.append(
                    Line(f"! section {section.name}, {section.address:08X} to {section.end - 1:08X}")
                )
            self._move(section)
            if section.is_code and section.address % 4 == 0:
                _CodeWriter(self, section).write()
            else:
                self._data(section)
            self._here = section.data_end
            self._rest(section, following)
        return self.text

    def put(self, statement: str, address: int | None = None) -> None:
        """A line of a statement, which places something at an address."""
        self.text.lines.append(Line(_INDENT + statement, address))

    def label(self, address: int) -> None:
        """The labels of an address."""
        self.text.lines += [Line(f"{it}:") for it in self.forms.names.labels(address)]

    def between(self, start: int, end: int) -> list[int]:
        """The addresses of labels from `start` on, below `end`."""
        return self._labelled[bisect_left(self._labelled, start) : bisect_left(self._labelled, end)]

    def _move(self, section: Section) -> None:
        """On to a section: by `.align` where that leads there, so that it moves with what is put in before it."""
        if self._here == section.address:
            return
        follows = section.alignment in _ALIGNMENTS and -self._here % section.alignment == section.address - self._here
        if self.forms.can_move and self._here and follows:
            self.put(f".align {section.alignment}")
        else:
            if self.forms.can_move and section is not self._program.sections[0]:
                self.text.fixed.append(section.name or f"what lies at {section.address:08X}")
            self.put(f".org {section.address:#x}")
        self._here = section.address

    def _rest(self, section: Section, following: Section | None) -> None:
        """What behind the data of a section is 0, with the labels there; those of its end, if no other begins there."""
        for stop in self.between(section.data_end, section.end):
            self._skip_to(stop)
            self.label(stop)
        has_end = (following is None or following.address != section.end) and self.forms.names.has(section.end)
        if self.forms.can_move or following is None or has_end:
            self._skip_to(section.end)
        if has_end:
            self.label(section.end)

    def _skip_to(self, address: int) -> None:
        if address > self._here:
            self.put(skip(address - self._here))
            self._here = address

    def _data(self, section: Section) -> None:
        at, named = section.address, self.forms.named_places(section)
        cuts = {*self.between(at, section.data_end), *named, *(it + 4 for it in named), section.data_end}
        for cut in sorted(cuts - {at}):
            self.label(at)
            name = self.forms.expression(at)
            if name is not None and cut == at + 4:
                self.put(f".word {name}", at)
            else:
                self.bytes(section, at, cut)
            at = cut

    def bytes(self, section: Section, at: int, end: int) -> None:
        """The bytes up to an address, by their values."""
        for count, statement in data_statements(section.data[at - section.address : end - section.address], at):
            self.put(statement, at)
            at += count


class _CodeWriter:
    """Writes the code of one section."""

    def __init__(self, writer: _Writer, section: Section) -> None:
        self._writer, self._section = writer, section
        self._forms = writer.forms
        self._remarks = {at: it for at, it in writer.remarks.items() if self._forms.is_whole(at)}
        self._words = words_of(section)
        self._labelled = set(writer.between(section.address, section.data_end))
        self._split = {it & -4 for it in self._labelled if it % 4}
        """The words that have a label within."""

    def write(self) -> None:
        """All the words, and the bytes behind them."""
        at, end = self._section.address, self._section.address + 4 * len(self._words)
        while at < end:
            self._writer.label(at)
            self._writer.text.lines += [Line(it[:WIDEST_LINE]) for it in self._remarks.get(at, ())]
            at = self._split_word(at) if at in self._split else self._statement(at, end)
        for cut in sorted({*(it for it in self._labelled if it >= end), self._section.data_end} - {end}):
            self._writer.label(at)
            self._writer.bytes(self._section, at, cut)
            at = cut

    def _word(self, at: int) -> int:
        return self._words[at - self._section.address >> 2]

    def _split_word(self, at: int) -> int:
        """The bytes of a word that has labels within; the address behind it."""
        end = at + 4
        for cut in [*(it for it in range(at + 1, end) if it in self._labelled), end]:
            if at % 4:
                self._writer.label(at)
            self._writer.bytes(self._section, at, cut)
            at = cut
        return end

    def _statement(self, at: int, end: int) -> int:
        """Zeros, an instruction, or words of data; the address behind them."""
        stop = at
        while stop < end and not self._word(stop) and self._may_join(at, stop):
            stop += 4
        if stop - at >= _SHORTEST_SKIP:
            self._writer.put(skip(stop - at))
            return stop
        if self._forms.is_instruction(at, self._word(at)):
            self._instruction(at)
            return at + 4
        stop, most = at + 4, min(end, at + 4 * WORDS_OF_DENSE_LINE)
        while stop < most and self._may_join(at, stop) and not self._forms.is_instruction(stop, self._word(stop)):
            stop += 4
        self._writer.put(words_statement([self._word(it) for it in range(at, stop, 4)]), at)
        return stop

    def _may_join(self, first: int, at: int) -> bool:
        """Whether a word may stand in the statement of the word at `first`."""
        if self._forms.expression(at) is not None:
            return False
        return at == first or not (at in self._labelled or at in self._remarks or at in self._split)

    def _instruction(self, at: int) -> None:
        word, name = self._word(at), self._forms.expression(at)
        if name is not None and self._forms.is_word(at):
            self._writer.put(f".word {name}", at)
            return
        statement = instructions.statement(word, at, self._forms.names.at, name)
        if statement is None:
            why = instructions.why_none(word)
            self._writer.text.formless[why] += 1
            statement = f".word {word:#010x}            ! {why}"
        self._writer.put(statement, at)
