"""How alike two words are, by Jaro's measure: by it the program proposes a word for one that it does not know."""
from __future__ import annotations

from collections.abc import Sequence

LIKE = 0.7


def jaro(one: str, other: str) -> float:
    """The measure, from 0 to 1: what both have within half the longer length, less what is out of order."""
    if not one and not other:
        return 1.0
    if not one or not other:
        return 0.0
    reach = max(max(len(one), len(other)) // 2 - 1, 0)
    taken = [False] * len(other)
    matches = []
    for at, it in enumerate(one):
        for place in range(max(0, at - reach), min(len(other), at + reach + 1)):
            if other[place] == it and not taken[place]:
                taken[place] = True
                matches.append(it)
                break
    if not matches:
        return 0.0
    others = [it for it, is_taken in zip(other, taken) if is_taken]
    moved = sum(a != b for a, b in zip(matches, others)) // 2
    number = len(matches)
    return (number / len(one) + number / len(other) + (number - moved) / number) / 3


def most_like(word: str, names: Sequence[str]) -> str | None:
    """The name that is most like the word, the last of several, or None where none is like it."""
    best, found = LIKE, None
    for name in names:
        measure = jaro(word, name)
        if measure > LIKE and measure >= best:
            best, found = measure, name
    return found
