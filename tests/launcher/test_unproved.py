"""Runs without proof, by a fake of the toolchain."""
from __future__ import annotations

import json
import signal
import unittest

from rubliman.launcher import unproved

from .support import TOP, InRepository, interrupt

# As `rt try` does: what the program prints on standard error comes first, then lines of its own.
TRIES = """cat
echo "words $*" >&2
echo "checked: ended status={status}" >&2
echo "run=ended status={status} runners=1 proved=no" >&2
exit {status}
"""


class Unproved(InRepository):
    """Runs of `./sparc8 --unproved`."""

    def test_it_says_so_and_hands_on_what_the_program_prints(self) -> None:
        self.fake(TRIES.format(status=0))
        (self.room / "script").write_text("list\n", encoding="utf-8")
        done = self.sparc8("--unproved", "--windows", "4", "script")
        self.assertEqual((done.returncode, done.stdout), (0, "list\n"))
        first, *others = done.stderr.splitlines()
        self.assertRegex(
            first, r"^sparc8: running without any proof: nothing that this prints was proved; it takes about 80 seconds"
        )
        self.assertEqual(others, ["words try --steps 1 --seconds 3600 -- --windows 4"])
        self.assert_nothing_left()

    def test_standard_input(self) -> None:
        self.fake(TRIES.format(status=0))
        self.assertEqual(self.sparc8("--unproved", given="quit\n").stdout, "quit\n")

    def test_the_status_is_the_programs(self) -> None:
        for status in (0, 2, 3):
            self.fake(TRIES.format(status=status))
            self.assertEqual(self.sparc8("--unproved").returncode, status)

    def test_the_seconds_are_those_of_the_last_time(self) -> None:
        self.fake(TRIES.format(status=0))
        self.sparc8("--unproved")
        self.assertLess(json.loads((self.cache / "times.json").read_text(encoding="utf-8"))["unproved"], 20)
        (self.cache / "times.json").write_text('{"unproved": 47.1}', encoding="utf-8")
        self.assertIn("it takes about 47 seconds", self.sparc8("--unproved").stderr)

    def test_too_much_output(self) -> None:
        self.fake(
            "echo 'checked: no-answer: the program wrote more than 1048576 bytes' >&2\n"
            "echo 'run=no-answer proved=no' >&2; exit 6"
        )
        done = self.sparc8("--unproved")
        self.assertEqual((done.returncode, done.stdout), (1, ""))
        self.assertTrue(
            done.stderr.endswith(
                "sparc8: nothing is printed without proof, for the program wrote more than 1048576 bytes\n"
            ),
            done.stderr,
        )

    def test_a_failure_of_the_toolchain(self) -> None:
        self.fake("echo 'error: src/main.rt does not compile' >&2; echo 'run=none proved=no' >&2; exit 2")
        done = self.sparc8("--unproved")
        self.assertEqual((done.returncode, done.stdout), (1, ""))
        self.assertIn("could not be run without proof", done.stderr)
        self.assertIn("error: src/main.rt does not compile", done.stderr)

    def test_no_toolchain(self) -> None:
        done = self.sparc8("--unproved")
        self.assertEqual((done.returncode, done.stderr.count("\n")), (3, 1))

    def test_the_help_needs_no_toolchain(self) -> None:
        done = self.sparc8("--unproved", "--help")
        self.assertEqual((done.returncode, done.stderr), (0, ""))
        self.assertIn("Usage: sparc8 [OPTIONS] [SCRIPT]", done.stdout)

    def test_the_code_alone_is_compiled_for_the_number_of_windows_that_is_asked_for(self) -> None:
        (self.top / "crates/low/proofs").mkdir()
        (self.top / "crates/low/proofs/Lib.antt").touch()
        place = self.top / unproved._COUNTS_PLACE
        place.parent.mkdir(parents=True)
        place.write_text("serve_with!(windows, [2 4 16 32])\n", encoding="utf-8")
        crates, name = self.top / "crates.txt", place.parts[-3]
        listed = crates.read_text(encoding="utf-8").replace("high side", f"high side {name}")
        crates.write_text(f"{name}:\n{listed}", encoding="utf-8")
        self.fake(f"cat ../../{unproved._COUNTS_PLACE}; (cd ../..; find . -type f | sort)\n" + TRIES.format(status=0))
        code = "".join(
            f"./crates/{it}\n"
            for it in (
                "high/src/lib.rt",
                "low/src/lib.rt",
                "side/src/lib.rt",
                "sparc8/src/lib.rt",
                unproved._COUNTS_PLACE.removeprefix("crates/"),
            )
        )
        for windows, counts in (("8", ""), ("16", "16")):
            self.assertEqual(
                self.sparc8("--unproved", "--windows", windows).stdout,
                f"serve_with!(windows, [{counts}])\n./crates.txt\n{code}",
            )

    def test_the_place_of_the_numbers_is_there(self) -> None:
        place = TOP / unproved._COUNTS_PLACE
        self.assertEqual(
            place.read_bytes().count(unproved._COUNTS),
            1,
            f"{place} has them no more: mend unproved.py, or more is compiled",
        )

    def test_an_interrupt(self) -> None:
        begun = self.room / "begun"
        self.fake(f"touch {begun}; sleep 100 & wait $!")
        with self.begun("--unproved") as process:
            self.wait_for(begun)
            status, _ = interrupt(process, signal.SIGINT)
        self.assertEqual(status, 130)
        self.assert_nothing_left()


if __name__ == "__main__":
    unittest.main()
