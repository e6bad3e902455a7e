"""What is said to the user where something cannot be had."""


def counted(count: int, noun: str) -> str:
    """So many of a thing: `1 line`, `2,000 lines`."""
    return f"{count:,} {noun}{'' if count == 1 else 's'}"


class Problem(Exception):
    """One line: what is wrong, and what to do about it."""
