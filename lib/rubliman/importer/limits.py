"""The sizes that the workbench has. The tests ask the program for each of them."""

RAM_SIZE = 1 << 20
"""Bytes of RAM, from address 0."""

MOST_LINES = 65_536
"""Lines of a source text."""

MOST_STEPS = 1_000_000
"""The last step that may be asked for."""

WIDEST_LINE = 255
"""Bytes of a line of a source text."""

LARGEST_ALIGNMENT = 4096
"""The largest operand of `.align`."""
