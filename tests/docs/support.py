"""What the tests of documents share: where things stand, the rows of tables, and the words of sources."""
from __future__ import annotations

import re
from collections.abc import Iterable, Iterator
from pathlib import Path

TOP = Path(__file__).resolve().parents[2]


def words_of(files: Iterable[Path]) -> set[str]:
    """Every word of some files."""
    return {word for file in files for word in re.findall(r"\w+", file.read_text())}


def rows(text: str) -> Iterator[list[str]]:
    """The cells of each row of the tables of a text, but for heads and the rules below them."""
    lines = text.splitlines()
    for line, after in zip(lines, [*lines[1:], ""], strict=True):
        if line.startswith("| ") and not after.startswith("|---"):
            yield [cell.strip() for cell in line.strip().removeprefix("|").removesuffix("|").split("|")]
