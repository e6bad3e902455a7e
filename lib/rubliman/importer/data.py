"""Statements for bytes that are no code."""
from __future__ import annotations

import re
from collections.abc import Iterator

_WORDS_OF_LINE = 8
WORDS_OF_DENSE_LINE = 16
_SPECIAL = re.compile(rb"\0{16,}|[\x20-\x7e\n\t]{4,110}\0|[\x20-\x7e\n\t]{60,110}")
"""Zeros that are skipped, a text with its end, and a piece of a long text."""
_ESCAPES = {ord("\n"): "\\n", ord("\t"): "\\t", 0: "\\0", ord("\\"): "\\\\", ord('"'): '\\"'}


def data_statements(data: bytes, at: int) -> Iterator[tuple[int, str]]:
    """Statements that place these bytes from an address on, each with how many: strings, aligned words, bytes else."""
    here = 0
    while here < len(data):
        special = _SPECIAL.search(data, here)
        start = special.start() if special else len(data)
        yield from _numbers(data[here:start], at + here)
        here = start
        if special:
            piece = special.group()
            yield len(piece), _skip(len(piece)) if not piece[0] else _string(piece)
            here = special.end()


def skip(count: int) -> str:
    """The statement that leaves so many bytes 0."""
    return _skip(count)


def words_statement(words: list[int]) -> str:
    """The statement that places these words."""
    return ".word " + ", ".join(f"{it:#010x}" for it in words)


def _skip(count: int) -> str:
    return f".skip {count:#x}"


def _string(piece: bytes) -> str:
    return '.ascii "' + "".join(_ESCAPES.get(it) or chr(it) for it in piece) + '"'


def _numbers(data: bytes, at: int) -> Iterator[tuple[int, str]]:
    """Words, with bytes before the first and behind the last."""
    before = min(-at % 4, len(data))
    behind = (len(data) - before) % 4
    if before:
        yield before, _bytes(data[:before])
    for start in range(before, len(data) - behind, 4 * _WORDS_OF_LINE):
        piece = data[start : min(start + 4 * _WORDS_OF_LINE, len(data) - behind)]
        yield len(piece), words_statement([int.from_bytes(piece[it : it + 4], "big") for it in range(0, len(piece), 4)])
    if behind:
        yield behind, _bytes(data[len(data) - behind :])


def _bytes(data: bytes) -> str:
    return ".byte " + ", ".join(f"{it:#04x}" for it in data)
