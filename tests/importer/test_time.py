"""How long an import takes: 50,000 lines in under 2 seconds of a processor, with the check by the proved program."""
from __future__ import annotations

import os
import resource
import unittest
from pathlib import Path

from rubliman.importer.cross import Builder

from .support import InFolder

LEAST_LINES = 50_000
MOST_SECONDS = 2.0
FUNCTIONS = 300

_FUNCTION = """
unsigned f{number}(unsigned a, unsigned b)
{{
    unsigned sum = a * {odd}u;
    for (unsigned i = 0; i < (b & 15); i++) {{
        table[(a + i) & 63] += b ^ {number}u;
        if (table[i & 63] > a)
            sum += table[(i + {number}) & 63];
        else
            sum ^= {below};
    }}
    switch (b & 7) {{
    case 0: sum += 3; break;
    case 1: sum ^= {odd}u << 9; break;
    case 2: sum -= a; break;
    case 3: sum *= 5; break;
    case 4: sum = sum >> 3 | sum << 29; break;
    case 5: table[sum & 63] = 1; break;
    default: sum = ~sum;
    }}
    return sum;
}}
"""


def large_source(functions: int) -> str:
    """A C program of so many functions, some 170 lines of text each."""
    texts = [
        _FUNCTION.format(number=it, odd=2 * it + 977, below=f"f{it - 1}(b, i)" if it else "b")
        for it in range(functions)
    ]
    main = f"int main(void)\n{{\n    return f{functions - 1}(1, 2) & 1;\n}}\n"
    return f"static unsigned table[64];\n{''.join(texts)}\n{main}"


class Times(InFolder):
    """The command, from its start to its end."""

    def test_50_000_lines(self) -> None:
        source = self.write("large.c", large_source(FUNCTIONS))
        linked = Builder(self.tools, ("-O0", "-g")).build([source], self.folder)
        seconds = []
        for _ in range(3):
            before = resource.getrusage(resource.RUSAGE_CHILDREN)
            told = self.command(
                "--import", linked.name, "-o", "large.txt", "--check", SPARC8=os.path.abspath(os.environ["SPARC8"])
            )
            after = resource.getrusage(resource.RUSAGE_CHILDREN)
            seconds.append(after.ru_utime - before.ru_utime + after.ru_stime - before.ru_stime)
            self.assertEqual(told.returncode, 0, told.stderr)
        lines = len(Path(self.folder, "large.txt").read_text(encoding="latin-1").splitlines())
        self.assertGreaterEqual(lines, LEAST_LINES)
        self.assertIn("! large.c:", Path(self.folder, "large.txt").read_text(encoding="latin-1"))
        self.assertLess(min(seconds), MOST_SECONDS, f"{lines:,} lines in {min(seconds):.2f} s")


if __name__ == "__main__":
    unittest.main()
