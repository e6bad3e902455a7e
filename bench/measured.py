"""The proved program and the plain interpreter: how they are built, asked and timed."""
import functools
import os
import subprocess
import sys
import threading
import time
from pathlib import Path

from image import image

BENCH = Path(__file__).resolve().parent
INTERPRETER = BENCH / "out" / "interpreter"
# How long undisturbed runs are waited for; how many pieces of work show first what the least time of one is, some
# seconds of them; how much more one may take.
CALM_SECONDS, FIRST_PIECES, CALM_FACTOR = 120, 5_000, 1.12

# As `sparc8` starts the program: with memory in large pages.
os.environ.setdefault("GLIBC_TUNABLES", "glibc.malloc.hugetlb=1")


def straight(words=100_000):
    """A script of a program that runs straight through so many words, and then begins again."""
    lines = [".word " + ", ".join(["0x82006001"] * 16)] * (words // 16)
    lines[0] = "start: " + lines[0]
    lines += ["ba start", "nop"]
    return f"edit 1 0 {len(lines)}\n" + "\n".join(lines)


def scripts():
    """The scripts that are measured, each with its name: those of bench/programs, and one straight through RAM."""
    for script in sorted((BENCH / "programs").glob("*.txt")):
        yield script.stem, script.read_text().rstrip("\n")
    yield "straight", straight()


def build_interpreter():
    """The plain interpreter, built where its source is newer."""
    source = BENCH / "interpreter.rs"
    if not INTERPRETER.exists() or INTERPRETER.stat().st_mtime < source.stat().st_mtime:
        INTERPRETER.parent.mkdir(exist_ok=True)
        subprocess.run(["rustc", "-O", "--edition", "2021", "-o", INTERPRETER, source], check=True)


def proved_program(name="sparc8"):
    """The file of a proved program, which its launcher proves and builds where that is not done yet."""
    pipe = subprocess.PIPE
    with subprocess.Popen([BENCH.parent / name], stdin=pipe, stdout=pipe, text=True) as asked:
        asked.stdin.write("regs 0\n")
        asked.stdin.flush()
        asked.stdout.readline()
        return os.readlink(f"/proc/{asked.pid}/exe")


class Pair:
    """Both machines with the source and the events that a script leaves."""

    def __init__(self, program, name, windows, lines):
        self.words = [str(program), "--windows", str(windows)]
        self.lines = lines
        self.image = BENCH / "out" / f"{name}.image"
        self.image.write_text("\n".join(image(self.words, lines)) + "\n")
        self.interpreted = [str(INTERPRETER), str(windows), str(self.image)]

    def script(self, steps):
        return "\n".join(self.lines + [f"regs {step}" for step in steps] + [""]).encode()

    def answers(self, steps):
        """What each answers to `regs` of these steps."""
        told = subprocess.run(self.words, input=self.script(steps), capture_output=True, check=True)
        ours = told.stdout.decode().splitlines()
        words = self.interpreted + [str(step) for step in steps]
        theirs = subprocess.run(words, capture_output=True, text=True, check=True).stdout.splitlines()
        return ours[len(ours) - len(theirs) :], theirs

    def times(self, steps):
        """The processor seconds that each takes for `regs` of these steps, start and edit with it."""
        words = self.interpreted + [str(step) for step in steps]
        return processor_time(self.words, self.script(steps)), processor_time(words, b"")

    def plain_seconds(self, last, runs):
        """The processor seconds that the steps up to the last one take in plain Rust, the least of several."""

        def least(step):
            return min(calm_runs(lambda: processor_time(self.interpreted + [str(step)], b""), runs))

        return least(last) - least(0)


def calm_runs(run, count):
    """What a run answers, so many times, each between two moments at which a fixed piece of work takes its least time.

    Others may use what is below a virtual processor. It is then slower by half or more, for seconds at a time, and a
    run that falls into such a time says nothing.
    """
    found, end = [], time.monotonic() + CALM_SECONDS
    while len(found) < count:
        if time.monotonic() > end:
            sys.exit(f"only {len(found)} of {count} runs were undisturbed")
        if is_calm():
            answer = run()
            if is_calm():
                found.append(answer)
    return found


def is_calm():
    """Whether a piece of work takes hardly more than the least time of the first ones.

    Where one takes far less than those, what was timed before is of slower moments and compares with nothing.
    """
    took = piece_seconds()
    if took * CALM_FACTOR < least_piece_seconds():
        sys.exit("the processor is faster than when the bench began: run it again")
    return took <= CALM_FACTOR * least_piece_seconds()


@functools.cache
def least_piece_seconds():
    """The least time of a piece of work, before anything is timed."""
    return min(piece_seconds() for _ in range(FIRST_PIECES))


def piece_seconds():
    """The seconds that a fixed piece of work takes, about one thousandth."""
    begin = time.perf_counter()
    sum(range(40_000))
    return time.perf_counter() - begin


def processor_time(words, text):
    with open("/dev/null", "w") as nowhere:
        run = subprocess.Popen(words, stdin=subprocess.PIPE, stdout=nowhere, stderr=nowhere)
        run.stdin.write(text)
        run.stdin.close()
        _, status, used = os.wait4(run.pid, 0)
        run.returncode = os.waitstatus_to_exitcode(status)
    assert run.returncode == 0, words
    return used.ru_utime + used.ru_stime


class Workbench:
    """The program at work, which is asked line by line."""

    def __init__(self, program):
        self.process = subprocess.Popen([program, "--windows", "8"], stdin=subprocess.PIPE, stdout=subprocess.PIPE)

    def ask(self, lines):
        """The milliseconds until the answer has come."""
        begin = time.perf_counter()
        self.process.stdin.write((lines + "\n").encode())
        self.process.stdin.flush()
        while True:
            answer = self.process.stdout.readline()
            if not answer or answer.startswith(b"refused"):
                sys.exit(f"{lines.splitlines()[0]}: {answer.decode()}")
            if answer == b"ok\n":
                return (time.perf_counter() - begin) * 1000

    def ask_all(self, commands):
        """The milliseconds until each of several commands, which are sent at once, has its answer."""
        text = "".join(f"{it}\n" for it in commands).encode()
        begin = time.perf_counter()
        sender = threading.Thread(target=lambda: (self.process.stdin.write(text), self.process.stdin.flush()))
        sender.start()
        for _ in commands:
            while (answer := self.process.stdout.readline()) != b"ok\n":
                if not answer or answer.startswith(b"refused"):
                    sys.exit(f"{commands[0].splitlines()[0]}, ..: {answer.decode()}")
        sender.join()
        return (time.perf_counter() - begin) * 1000

    def told(self, line):
        """The lines of an answer."""
        self.process.stdin.write((line + "\n").encode())
        self.process.stdin.flush()
        return list(iter(lambda: self.process.stdout.readline().decode().strip(), "ok"))

    def megabytes(self):
        """The most memory that the program has held."""
        for line in open(f"/proc/{self.process.pid}/status"):
            if line.startswith("VmHWM"):
                return int(line.split()[1]) / 1000

    def end(self):
        self.process.stdin.close()
        self.process.wait()
