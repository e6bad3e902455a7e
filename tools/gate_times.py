#!/usr/bin/env python3
"""Tells where the gate's processor time goes: by crate, and by kind (proof, tests, must-fail edits, the rest).

Usage: tools/gate_times.py COMMAND.., as tools/gate_times.py rt ci

It runs the command and looks every second at the processes that descend from it. A process counts with the processor
time that it had when it was last seen, so short ones count a little low.
"""
import os, re, subprocess, sys, time

TICK = os.sysconf("SC_CLK_TCK")


def stat(pid):
    """The parent and the processor seconds of a process."""
    text = open(f"/proc/{pid}/stat").read()
    fields = text[text.rindex(")") + 2 :].split()
    return int(fields[1]), (int(fields[11]) + int(fields[12])) / TICK


def words(pid):
    return open(f"/proc/{pid}/cmdline", "rb").read().decode(errors="replace").split("\0")


def kind_of(pid):
    """The crate and the kind of work of a process."""
    args = words(pid)
    crate = args[args.index("--crate-name") + 1] if "--crate-name" in args else None
    place = os.readlink(f"/proc/{pid}/cwd")
    if crate is None:
        found = re.search(r"/crates/(\w+)", place)
        return (found.group(1) if found else "-"), "rest"
    if "rt-edit" in place or "rt-edit" in " ".join(args):
        return crate, "must-fail"
    return crate, "tests" if "--test" in args else "proof"


def look(root, seen):
    """Notes the time of each process below the command's."""
    parents = {}
    for name in os.listdir("/proc"):
        if not name.isdigit():
            continue
        try:
            parent, seconds = stat(int(name))
            parents[int(name)] = (parent, seconds)
        except (OSError, ValueError):
            continue
    for pid, (parent, seconds) in parents.items():
        above = pid
        while above in parents and above != root:
            above = parents[above][0]
        if above != root:
            continue
        try:
            seen[pid] = (kind_of(pid), seconds)
        except (OSError, ValueError, IndexError):
            if pid in seen:
                seen[pid] = (seen[pid][0], seconds)


def table(seen):
    """The minutes of each crate and kind."""
    kinds = ["proof", "tests", "must-fail", "rest"]
    sums = {}
    for (crate, kind), seconds in seen.values():
        sums.setdefault(crate, dict.fromkeys(kinds, 0.0))[kind] += seconds / 60
    print("| Crate | " + " | ".join(kinds) + " | all |\n|---|" + "---:|" * 5)
    for crate in sorted(sums):
        row = sums[crate]
        print(f"| {crate} | " + " | ".join(f"{row[k]:.1f}" for k in kinds) + f" | {sum(row.values()):.1f} |")
    total = {k: sum(row[k] for row in sums.values()) for k in kinds}
    print("| all | " + " | ".join(f"{total[k]:.1f}" for k in kinds) + f" | {sum(total.values()):.1f} |")


def main():
    started = time.time()
    child = subprocess.Popen(sys.argv[1:])
    seen = {}
    while child.poll() is None:
        look(child.pid, seen)
        time.sleep(1)
    table(seen)
    print(f"\n{(time.time() - started) / 60:.1f} minutes")
    sys.exit(child.returncode)


main()
