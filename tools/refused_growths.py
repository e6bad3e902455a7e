#!/usr/bin/env python3
"""Refuses each growth of memory of a script's run in turn, and looks at what the program answers.

Usage: tools/refused_growths.py PROGRAM SCRIPT, as
tools/refused_growths.py crates/sparc8/out/sparc8 crates/sv8_cases/data/examples-first-w8.txt

A run may end with status 3 and the line `PROGRAM: out of memory`, before any command. Else one command is answered
`refused 1 OutOfMemory`, and all other answers are those of the script without that command (an edit goes with its
lines).
"""
import os, subprocess, sys, tempfile


def commands(script):
    """The script's commands, each as its lines."""
    lines, found, i = script.splitlines(keepends=True), [], 0
    while i < len(lines):
        words = lines[i].split()
        taken = int(words[3]) if words[:1] == [b"edit"] and len(words) == 4 else 0
        found.append(b"".join(lines[i : i + 1 + taken]))
        i += 1 + taken
    return found


def run(program, script, shim=None, refuse=None, told=None):
    env = dict(os.environ)
    if shim:
        env.update(LD_PRELOAD=shim, REFUSE=str(refuse), TOLD=told)
    done = subprocess.run([program], input=script, env=env, capture_output=True, timeout=120)
    return done.returncode, done.stdout, done.stderr


def answers_without(program, script):
    """For each command: what is to be written where it is refused for want of memory."""
    parts = commands(script)
    texts = []
    for i in range(len(parts)):
        before = run(program, b"".join(parts[:i]))[1]
        rest = run(program, b"".join(parts[:i] + parts[i + 1 :]))[1]
        assert rest.startswith(before)
        texts.append(before + b"refused 1 OutOfMemory\n" + rest[len(before) :])
    return texts


def main():
    program, path = os.path.abspath(sys.argv[1]), sys.argv[2]
    script = open(path, "rb").read()
    here = os.path.dirname(os.path.abspath(__file__))
    with tempfile.TemporaryDirectory() as folder:
        shim = os.path.join(folder, "refuse_growth.so")
        source = os.path.join(here, "../tests/growths/refuse_growth.c")
        subprocess.run(["cc", "-O1", "-shared", "-fPIC", "-o", shim, source, "-ldl"], check=True)
        whole = run(program, script)
        refusals = answers_without(program, script)
        counts = {"before any command": 0, "a command": 0, "no answer changed": 0}
        told = os.path.join(folder, "told")
        n = failed = 0
        while True:
            status, written, errors = run(program, script, shim, n + 1, told)
            if not os.path.exists(told):  # the run asks for no more memory
                break
            os.remove(told)
            n += 1
            if (status, written) == whole[:2]:
                counts["no answer changed"] += 1
            elif status == 3 and not written and errors == f"{os.path.basename(program)}: out of memory\n".encode():
                counts["before any command"] += 1
            elif status == 0 and written in refusals:
                counts["a command"] += 1
            else:
                failed += 1
                print(f"growth {n}: status {status}, {written!r}, {errors!r}")
        print(", ".join(f"{what}: {count}" for what, count in counts.items()))
        print(f"{n - failed} passed, {failed} failed")
        sys.exit(failed > 0)


main()
