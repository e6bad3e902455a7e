"""The stub as a program, which GDB starts behind a pipe."""
from __future__ import annotations

import argparse
import sys

from .serving import serve


def main() -> int:
    """Reads the words, and serves one session."""
    words = argparse.ArgumentParser(prog="rubliman.gdb")
    words.add_argument("--program", required=True)
    words.add_argument("--windows", default="8")
    words.add_argument("script", nargs="?")
    chosen = words.parse_args()
    return serve(chosen.program, chosen.windows, chosen.script)


if __name__ == "__main__":
    sys.exit(main())
