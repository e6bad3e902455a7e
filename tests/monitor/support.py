"""Runs the proved monitor on scripts."""
from __future__ import annotations

import os
import subprocess
from pathlib import Path

TOP = Path(__file__).resolve().parents[2]


def answers(script: bytes, windows: int = 8) -> bytes:
    """What the monitor that SPARC8_MONITOR names answers to a script."""
    words = [os.environ["SPARC8_MONITOR"], "--windows", str(windows)]
    done = subprocess.run(words, input=script, capture_output=True, timeout=120, check=True)
    return done.stdout
