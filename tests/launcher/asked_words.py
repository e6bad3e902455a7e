"""The words whose answers the launcher has recorded.

Run as a program, it records them anew, from the programs that SPARC8 and SPARC8_MONITOR name.
"""
from __future__ import annotations

import json
import os
import subprocess
import tempfile
from collections.abc import Sequence
from pathlib import Path

from rubliman.launcher.words import HELP_OF_MONITOR

TEXTS = Path(__file__).resolve().parents[2] / "lib/rubliman/launcher/program_texts.json"
SAMPLE = Path(__file__).with_name("recorded_words.json")

_BEFORE: dict[str, list[str]] = {
    "": [],
    " script": ["a"],
    " windows": ["--windows", "4"],
    " script windows": ["--windows", "4", "a"],
}

# By the name of the answer. Behind the name of some stands what the usage line of the answer names.
ASKED: dict[str, list[str]] = {
    "help": ["--help"],
    "missing value": ["--windows"],
    "invalid value": ["--windows", "WORD"],
    "similar value": ["--windows", "81"],
    "repeated": ["--windows", "2", "--windows", "4"],
    "too many words": ["a", "WORD"],
    "unknown flag": ["-W"],
    "no text": ["\udcff"],
    "no script": ["no-such-script"],
    "folder": ["."],
    "like windows windows": ["--window"],
    "like windows script windows": ["a", "--window"],
    **{f"unknown{used}": [*words, "--WORD"] for used, words in _BEFORE.items()},
    **{f"like help{used}": [*words, "--helm"] for used, words in _BEFORE.items()},
    "value of help": ["--help=WORD"],
    "value of help script": ["a", "--windows", "--help=WORD"],
    "value of help windows": ["--windows=4", "--help=WORD"],
    "value of help script windows": ["a", "--windows=4", "--help=WORD"],
}


def ask(words: Sequence[str], program: str | None = None) -> tuple[int, str, str]:
    """What a program answers to words, in an empty folder: the status and both outputs. It is the one that SPARC8 names
    where none is given."""
    program = program or os.environ["SPARC8"]
    with tempfile.TemporaryDirectory() as folder:
        done = subprocess.run([program, *words], cwd=folder, stdin=subprocess.DEVNULL, capture_output=True, check=False)
    return done.returncode, done.stdout.decode(), done.stderr.decode()


def record() -> None:
    """Writes both files of what was answered: the texts, and the answers to a sample of words."""
    texts = {}
    for name, words in ASKED.items():
        status, out, err = ask(words)
        texts[name] = {"words": words, "status": status, "out": out, "err": err}
    status, out, err = ask(["--help"], os.environ["SPARC8_MONITOR"])
    texts[HELP_OF_MONITOR] = {"words": ["--help"], "status": status, "out": out, "err": err}
    TEXTS.write_text(json.dumps(texts, indent=1) + "\n", encoding="utf-8")
    rows = []
    for words, *_ in json.loads(SAMPLE.read_text(encoding="utf-8")):
        status, out, err = ask(words)
        rows.append(json.dumps([words, status, err, bool(out)]))
    SAMPLE.write_text("[\n" + ",\n".join(rows) + "\n]\n", encoding="utf-8")


if __name__ == "__main__":
    record()
