"""How the launcher proves, keeps and runs the program, by a fake of the toolchain."""
from __future__ import annotations

import json
import os
import signal
import unittest
from pathlib import Path
from unittest import mock

from rubliman.launcher import kept
from rubliman.launcher.sources import PROGRAMS

from .support import BUILDS, CRATES, PROVES, TOP, InRepository, interrupt

WAITS = "touch {begun}; sleep 100 & wait $!\n"


class Proving(InRepository):
    """Runs of `./sparc8` in a repository whose program is not proved yet."""

    def test_no_toolchain(self) -> None:
        done = self.sparc8()
        self.assertEqual((done.returncode, done.stdout, done.stderr.count("\n")), (3, "", 1))
        self.assertIn("rt is not on the PATH", done.stderr)
        self.assertIn("README.md", done.stderr)

    def test_words_are_answered_before_anything_is_proved(self) -> None:
        self.fake("echo called; exit 1")
        script = self.room / "secret"
        script.mkdir()
        for words, status, said in (
            (["--windows", "3"], 2, "error: invalid value '3'"),
            (["a", "b"], 2, "error: unexpected argument 'b'"),
            (["nowhere"], 3, "sparc8: cannot open script\n"),
            (["secret"], 3, "sparc8: read fault\n"),
            ([b"\xff"], 2, "error: invalid UTF-8"),
            (["--unproved", "nowhere"], 3, "sparc8: cannot open script\n"),
            (["--unproved", "--windows", "5"], 2, "error: invalid value '5'"),
        ):
            with self.subTest(words=words):
                done = self.sparc8(*words)
                self.assertEqual((done.returncode, done.stdout), (status, ""))
                self.assertTrue(done.stderr.startswith(said), done.stderr)
        self.assertEqual(self.calls(), [])

    def test_help_tells_the_launchers_words_too(self) -> None:
        for word in ("--help", "-h"):
            done = self.sparc8(word)
            self.assertEqual((done.returncode, done.stderr), (0, ""))
            self.assertIn("Usage: sparc8 [OPTIONS] [SCRIPT]", done.stdout)
            for it in ("--unproved", "--import", "--install", "--check", "--program"):
                self.assertIn(f"\n  {it}", done.stdout)

    def test_it_is_proved_once(self) -> None:
        self.fake(PROVES)
        first = self.sparc8("--windows", "4", given="list\n")
        self.assertEqual((first.returncode, first.stdout), (0, "words --windows 4\nlist\n"))
        self.assertIn("crate 4 of 4, sparc8: proved, 12 functions; 0 minutes gone", first.stderr)
        again = self.sparc8("--windows", "4", given="list\n")
        self.assertEqual((again.returncode, again.stdout, again.stderr), (0, first.stdout, ""))
        self.assertEqual(self.calls(), ["ci"])
        self.assert_nothing_left()

    def test_each_program_is_proved_when_it_is_wanted(self) -> None:
        self.fake(f"cat crates.txt >>{self.room}/listed\n{PROVES}")
        self.sparc8(given="list\n")
        self.assertIn("sparc8_monitor is not proved yet", self.sparc8("--check").stdout)
        done = self.sparc8("-x", command=self.top / "sparc8_monitor")
        self.assertEqual(done.returncode, 2)
        done = self.sparc8(given="names\n", command=self.top / "sparc8_monitor")
        self.assertEqual((done.returncode, done.stdout), (0, "words \nnames\n"))
        self.assertIn("crate 3 of 3, sparc8_monitor: proved", done.stderr)
        self.assertEqual(self.sparc8("--program").stderr, "")
        self.assertNotIn("not proved yet", self.sparc8("--check").stdout)
        workbench = "low: \nhigh: low\nside: \nsparc8: high side\n"
        listed = (self.room / "listed").read_text(encoding="utf-8")
        self.assertEqual(listed, workbench + "low: \nhigh: low\nsparc8_monitor: high\n")
        self.assert_nothing_left()

    def test_the_help_of_the_program_comes_first(self) -> None:
        self.fake(PROVES)
        self.sparc8("--program")
        done = self.sparc8("--help")
        self.assertEqual((done.returncode, done.stdout.splitlines()[0]), (0, "the help"))
        self.assertIn("\n  --unproved", done.stdout)

    def test_bad_words_go_to_the_program_where_it_is_there(self) -> None:
        self.fake(PROVES)
        self.sparc8("--program")
        self.assertEqual(self.sparc8("--windows", "3").stdout, "words --windows 3\n")

    def test_what_is_proved_is_the_needed_crates_alone(self) -> None:
        for name in CRATES:
            (self.top / "crates" / name / "must-fail").mkdir()
            (self.top / "crates" / name / "must-fail/it.edit").touch()
        (self.top / "HANDLES").write_text("Handles allowed: none.\n", encoding="utf-8")
        (self.top / "crates/sparc8/stdin").write_text("quit\n", encoding="utf-8")
        self.fake(f"find . -type f | sort >{self.room}/copied; cat crates.txt >{self.room}/listed\n{PROVES}")
        self.assertEqual(self.sparc8("--program").returncode, 0)
        needed = ["high", "low", "side", *PROGRAMS]
        wanted = ["./HANDLES", *[f"./crates/{it}/src/lib.rt" for it in needed], "./crates/sparc8/stdin", "./crates.txt"]
        self.assertEqual(sorted((self.room / "copied").read_text(encoding="utf-8").split()), sorted(wanted))
        listed = "low: \nhigh: low\nside: \nsparc8: high side\nsparc8_monitor: high\n"
        self.assertEqual((self.room / "listed").read_text(encoding="utf-8"), listed)

    def test_a_failure_is_told(self) -> None:
        self.fake(
            "cat <<END\nrt: low is kept: by an earlier run\n"
            "== high\nsrc/lib.rt:1:1: error: it is wrong\nrt: high NOT PROVED\n"
            "== side\nfn side::it: proved\nrt: side proved\nrt: FAILED: high\nEND\nexit 1"
        )
        done = self.sparc8()
        self.assertEqual((done.returncode, done.stdout), (1, ""))
        _, told = done.stderr.split("sparc8: the program could not be proved and built; the toolchain said:\n")
        self.assertEqual(told, "== high\nsrc/lib.rt:1:1: error: it is wrong\nrt: high NOT PROVED\nrt: FAILED: high\n")
        self.assertEqual(self.sparc8("--check").stdout.count("proved     no"), 1)
        self.assert_nothing_left()

    def test_a_test_that_fails_is_told_and_keeps_no_proved_program_back(self) -> None:
        self.fake(f"{PROVES}\necho 'rt: FAILED: low (tests)'; exit 1")
        done = self.sparc8(given="list\n")
        self.assertEqual((done.returncode, done.stdout), (0, "words \nlist\n"))
        self.assertIn("every crate is proved, but the toolchain refuses something else", done.stderr)
        self.assertIn("\nrt: FAILED: low (tests)\n", done.stderr)

    def test_a_program_is_not_taken_where_a_crate_is_not_proved(self) -> None:
        self.fake(PROVES.replace("for it in low side", "for it in side") + "echo 'rt: low NOT PROVED'; exit 1")
        done = self.sparc8()
        self.assertEqual((done.returncode, done.stdout), (1, ""))
        self.assertIn("proved     no", self.sparc8("--check").stdout)

    def test_an_end_without_a_program_is_told(self) -> None:
        self.fake("echo 'rt: ok'")
        done = self.sparc8()
        self.assertEqual(done.returncode, 1)
        self.assertIn("built no sparc8", done.stderr)

    def test_a_source_changed_meanwhile(self) -> None:
        source = self.top / "crates/low/src/lib.rt"
        was = source.read_text(encoding="utf-8")
        self.fake(f"echo '// more' >>{source}\n{PROVES}")
        done = self.sparc8()
        self.assertEqual((done.returncode, done.stdout), (1, ""))
        self.assertIn("a source was changed while it was being proved", done.stderr)
        self.assert_nothing_left()
        # What was proved is proved: it serves again where the text is as it was.
        self.fake("exit 1")
        source.write_text(was, encoding="utf-8")
        self.assertEqual(self.sparc8().returncode, 0)

    def test_a_change_is_proved_anew_and_a_touch_is_not(self) -> None:
        self.fake(PROVES)
        self.sparc8("--program")
        source = self.top / "crates/high/src/lib.rt"
        os.utime(source)
        (self.top / "crates/other/src/lib.rt").write_text("// another crate\n", encoding="utf-8")
        self.sparc8("--program")
        self.assertEqual(self.calls(), ["ci"])
        source.write_text("// changed\n", encoding="utf-8")
        self.sparc8("--program")
        self.assertEqual(self.calls(), ["ci", "ci"])

    def test_another_toolchain_proves_anew(self) -> None:
        self.fake(PROVES)
        self.sparc8("--program")
        self.fake(PROVES, identity="kit-2")
        self.sparc8("--program")
        self.assertEqual(self.calls(), ["ci", "ci"])

    def test_a_proved_program_runs_without_the_toolchain(self) -> None:
        self.fake(PROVES)
        self.sparc8("--program")
        (self.bin / "rt").unlink()
        self.assertEqual(self.sparc8(given="list\n").stdout, "words \nlist\n")

    def test_a_damaged_program_is_not_run(self) -> None:
        self.fake(PROVES)
        path = self.sparc8("--program").stdout.strip()
        with open(path, "a", encoding="utf-8") as file:
            file.write("# more\n")
        self.sparc8("--program")
        self.assertEqual(self.calls(), ["ci", "ci"])

    def test_an_interrupt(self) -> None:
        for number in (signal.SIGINT, signal.SIGTERM, signal.SIGHUP):
            with self.subTest(number=number):
                begun = self.room / f"begun-{number}"
                self.fake(WAITS.format(begun=begun))
                with self.begun() as process:
                    self.wait_for(begun)
                    status, said = interrupt(process, number)
                self.assertEqual(status, 128 + number)
                self.assertIn("interrupted: what was proved so far is kept", said)
                self.assert_nothing_left()

    def test_a_wait_of_the_toolchain_is_told(self) -> None:
        self.fake(f"echo 'rt: waiting for another rt to finish in /a/folder'\n{PROVES}")
        self.assertIn("\nsparc8: waiting for another rt to finish in /a/folder\n", self.sparc8().stderr)

    def test_the_program_meets_signals_as_if_started_by_a_shell(self) -> None:
        (self.room / "program").write_text("#!/bin/sh\ngrep SigIgn /proc/$$/status\n", encoding="utf-8")
        self.fake(PROVES)
        self.assertEqual(self.sparc8().stdout.split(), ["SigIgn:", "0" * 16])

    def test_a_toolchain_that_does_not_start(self) -> None:
        (self.bin / "rt").write_text("#!/bin/sh\nexit 1\n", encoding="utf-8")
        (self.bin / "rt").chmod(0o755)
        self.assertEqual(self.sparc8("--windows", "3").returncode, 2)
        done = self.sparc8()
        self.assertEqual((done.returncode, done.stderr.count("\n")), (3, 1))
        self.assertIn("names no toolchain", done.stderr)

    def test_the_page_that_is_named_is_there(self) -> None:
        self.assertIn("## What it needs", (TOP / "README.md").read_text(encoding="utf-8"))

    def test_a_second_one_waits_and_takes_what_the_first_proved(self) -> None:
        begun, go = self.room / "begun", self.room / "go"
        self.fake(f"touch {begun}; while [ ! -e {go} ]; do sleep 0.05; done\n{PROVES}")
        with self.begun("--program") as first:
            self.wait_for(begun)
            with self.begun("--program") as second:
                assert second.stderr is not None
                self.assertIn("another ./sparc8 is proving; waiting for it", second.stderr.readline())
                go.touch()
                self.assertEqual(first.communicate(timeout=120)[0], second.communicate(timeout=120)[0])
        self.assertEqual(self.calls(), ["ci"])

    def impatient(self) -> None:
        """The launcher waits a moment only for what `rt ci` takes from earlier runs."""
        module = self.top / "lib/rubliman/launcher/proving.py"
        text = module.read_text(encoding="utf-8")
        self.assertIn("MUCH_MINUTES = 15, 5\n", text)
        module.write_text(text.replace("MUCH_MINUTES = 15, 5\n", "MUCH_MINUTES = 0.5, 5\n"), encoding="utf-8")

    def keep_checks(self, top: Path) -> None:
        """Checks have kept their work on three of the four crates."""
        for name in ("low", "high", "side"):
            (top / "crates" / name / "out/incremental").mkdir(parents=True)

    def test_kept_work_is_gone_on_from(self) -> None:
        self.impatient()
        self.keep_checks(self.top)
        said = "rt: chose --jobs 2 for high\nso far: 2 of 5 functions checked"
        runs = f"{BUILDS}; echo '{said}'"
        self.fake(f'if [ "$1" = ci ]; then sleep 100 & wait $!; fi\n{runs}')
        done = self.sparc8("--program")
        self.assertEqual((done.returncode, self.calls()), (0, ["ci", "run", "run"]), done.stderr)
        self.assertIn("crate 2 of 5, high: begun", done.stderr)
        self.assertIn("proved     yes, by rt run", self.sparc8("--check").stdout)
        self.assert_nothing_left()

    def test_kept_work_of_other_checkouts_is_gone_on_from(self) -> None:
        self.impatient()
        other = self.room / "other"
        self.keep_checks(other)
        notes = self.room / "rattle-kept/work"
        notes.mkdir(parents=True)
        for name in ("low", "high", "side", *PROGRAMS):
            note = {"folder": str(other / "crates" / name), "stamp": "1"}
            (notes / f"{name}.1").write_text(json.dumps(note), encoding="utf-8")
        self.fake(f'if [ "$1" = ci ]; then sleep 100 & wait $!; fi\n{BUILDS}')
        self.assertEqual((self.sparc8("--program").returncode, self.calls()), (0, ["ci", "run", "run"]))

    def test_what_the_gate_proved_goes_before_kept_work(self) -> None:
        self.impatient()
        self.keep_checks(self.top)
        (self.room / "rattle-kept/proof-low-1").mkdir(parents=True)
        kept = 'echo "rt: $it is kept: by an earlier run"'
        tells = f"for it in low side high sparc8 sparc8_monitor; do {kept}; done; sleep 3\n"
        self.fake(f"{tells}{PROVES}")
        self.assertEqual((self.sparc8("--program").returncode, self.calls()), (0, ["ci"]))

    def test_a_source_changed_or_touched_while_it_is_proved_in_the_checkout(self) -> None:
        self.impatient()
        self.keep_checks(self.top)
        source = self.top / "crates/low/src/lib.rt"
        for does, said in ((f"touch {source}", "touched"), (f"echo '// more' >>{source}", "changed")):
            waits = 'if [ "$1" = ci ]; then sleep 100 & wait $!; fi'
            self.fake(f"{waits}\n{does}; {BUILDS}")
            done = self.sparc8()
            self.assertEqual((done.returncode, done.stdout), (1, ""))
            self.assertIn(f"a source was {said} while it was being proved", done.stderr)
            self.assertIn("proved     no", self.sparc8("--check").stdout)

    def test_a_cache_that_cannot_be_written(self) -> None:
        self.fake(PROVES)
        self.cache.write_text("", encoding="utf-8")
        done = self.sparc8()
        self.assertEqual((done.returncode, done.stdout, done.stderr.count("\n")), (1, "", 1))
        self.assertIn(str(self.cache), done.stderr)

    def test_what_stands_is_told(self) -> None:
        self.fake(PROVES)
        before = self.sparc8("--check")
        self.assertEqual((before.returncode, before.stderr), (0, ""))
        self.assertRegex(
            before.stdout,
            r"(?s)version    \d.*sources    [0-9a-f]{16}, 5 files of 5 crates.*toolchain  kit-1\nproved     no",
        )
        self.sparc8("--program")
        self.assertRegex(self.sparc8("--check").stdout, r"proved     yes, by rt ci of kit-1, at \d{4}-")

    def test_words_behind_those_that_take_none(self) -> None:
        for words in (["--check", "it"], ["--program", "it"], ["--install"], ["--install", "a", "b"]):
            self.assertEqual(self.sparc8(*words).returncode, 2)

    def test_no_more_than_eight_are_kept(self) -> None:
        with mock.patch.dict(os.environ, {"RUBLIMAN_CACHE": str(self.cache)}):
            for number in range(10):
                record = kept.Record(
                    str(number) * 64,
                    "kit-1",
                    f"2026-01-01T00:00:{number:02}",
                    "rt ci",
                    "1",
                    {"sparc8": kept.sum_of(self.room / "program")},
                )
                os.utime(kept.keep({"sparc8": self.room / "program"}, record).folder, (number, number))
            found = [number for number in range(10) if kept.find(str(number) * 64, "kit-1")]
        self.assertEqual(found, list(range(2, 10)))


if __name__ == "__main__":
    unittest.main()
