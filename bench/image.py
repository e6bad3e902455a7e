#!/usr/bin/env python3
"""bench/image.py PROGRAM [--windows N] <SCRIPT: what a script leaves, for the plain interpreter.

Gives the script's edits and events to PROGRAM, asks it for the listing, and writes a line `at ADDRESS BYTES` for each
group of bytes that a line places, and a line `poke`, `input` or `irq` for each event that stands. Queries of the script
are left out.
"""
import subprocess
import sys

QUERIES = ("regs", "mem", "out", "list", "quit")


def commands_of(lines):
    """Each command with the lines that an edit takes."""
    at = 0
    while at < len(lines):
        words = lines[at].split()
        taken = int(words[3]) if words and words[0] == "edit" else 0
        if words:
            yield words, lines[at : at + 1 + taken]
        at += 1 + taken


def note(events, words):
    """What an accepted command makes of the events."""
    name, step = words[0], int(words[1]) if len(words) > 1 else 0
    if name in ("poke", "pokeb"):
        size = 4 if name == "poke" else 1
        for i, byte in enumerate(int(words[3], 16).to_bytes(size, "big")):
            events["poke", step, int(words[2], 16) + i] = f"{byte:02X}"
    elif name in ("unpoke", "unpokeb"):
        for i in range(4 if name == "unpoke" else 1):
            events.pop(("poke", step, int(words[2], 16) + i), None)
    elif name in ("input", "uninput"):
        events.pop(("input", step, 0), None)
        if name == "input":
            events["input", step, 0] = words[2]
    elif name == "irq":
        events["irq", step, int(words[2])] = ""
    elif name == "unirq":
        events.pop(("irq", step, int(words[2])), None)


def placed(line):
    """The lines `at` of one line of the listing."""
    words = line[: line.index("|")].split()
    at = int(words[1], 16)
    for group in words[2:]:
        yield f"at {at:08X} {group}"
        at += len(group) // 2


def event(key, value):
    kind, step, place = key
    if kind == "poke":
        return f"poke {step} {place:08X} {value}"
    return f"input {step} {value}" if kind == "input" else f"irq {step} {place}"


def image(program, script):
    """The lines for the interpreter, of a program as a list of words and a script as a list of lines."""
    done = [(words, lines) for words, lines in commands_of(script) if words[0] not in QUERIES]
    text = "\n".join([line for _, lines in done for line in lines] + ["list", ""])
    answers = subprocess.run(program, input=text, capture_output=True, text=True, check=True).stdout.splitlines()
    events = {}
    for (words, _), answer in zip(done, answers):
        if answer == "ok":
            note(events, words)
    listing = answers[len(done) : -1]
    return [at for line in listing for at in placed(line)] + [event(key, events[key]) for key in sorted(events)]


if __name__ == "__main__":
    print("\n".join(image(sys.argv[1:], sys.stdin.read().split("\n"))))
