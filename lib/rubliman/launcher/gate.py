"""Keeps the program that the gate has just proved and built in this checkout, so that `./sparc8` starts at once.

    before=$(python3 -m rubliman.launcher.gate)      # the number of the sources
    rt ci
    python3 -m rubliman.launcher.gate "$before"      # only where rt ci ended well, and no source was changed meanwhile
"""
from __future__ import annotations

import sys
from collections.abc import Sequence

from . import kept, places, proving, toolchain
from .problem import Problem, say
from .sources import read_sources


def main(words: Sequence[str]) -> int:
    """Tells the number of the sources, or keeps what was built of those of that number."""
    try:
        fingerprint = read_sources(places.TOP).fingerprint()
        if not words:
            print(fingerprint)
        elif words[0] != fingerprint:
            raise Problem("a source was changed while the gate ran: what it built is not kept")
        else:
            _keep(fingerprint)
    except Problem as problem:
        say(str(problem))
        return problem.status
    except OSError as problem:
        # The gate has passed; that the program cannot be kept here, where a later run would find it, is no fault of it.
        say(f"what the gate built is not kept: {problem}")
    return 0


def _keep(fingerprint: str) -> None:
    """Keeps what `rt ci` left in this checkout."""
    rt = toolchain.wanted("the gate's program is kept under its name")
    made = proving.built(places.TOP)
    found = kept.keep(made, proving.record(fingerprint, toolchain.identity(rt), proving.BY_GATE, made))
    say(f"what the gate proved and built is kept: {found.program()}")


if __name__ == "__main__":
    sys.exit(main(sys.argv[1:]))
