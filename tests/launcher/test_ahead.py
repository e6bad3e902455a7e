"""How the launcher proves crates one by one ahead of all, by a fake of the toolchain."""
from __future__ import annotations

import contextlib
import io
import os
import unittest
from collections.abc import Sequence
from unittest import mock

from rubliman.launcher import ahead
from rubliman.launcher.progress import Progress
from rubliman.launcher.schedule import Task, tasks_of
from rubliman.launcher.sources import WORKBENCH, Sources, crates_of
from rubliman.launcher.ways import ByName

from .support import CRATES, PAGE, PROVES, InRepository, left_in

GIB = 1 << 30
TEXT = "".join(f"{name}: {uses}\n" for name, uses in CRATES.items())
# What `rt ci NAME` says where all goes well: of libraries that were proved before, and of the crate.
SAYS = 'echo "rt: low is kept: an earlier run"; echo "== $2"; echo "logic=proved functions=3"; echo "rt: $2 proved"'
# And where another command proves the library at the time.
WAITS = "rt: low: another run on this machine is proving the same; waiting for it"


def lanes_here() -> int:
    """How many crates are proved side by side on this machine."""
    return ahead.lanes(len(os.sched_getaffinity(0)), ahead.free_memory())


class Ahead(InRepository):
    """`low` takes 4 minutes and its tests 1, `side` 2, `high` 6 on `low`; the program stands on `high` and `side`."""

    def prove(self, says: str, lanes: int = 2, taken: Sequence[str] = (), text: str = TEXT) -> str:
        """Proves the crates below the program, by a toolchain that does this for each. Gives what is shown."""
        self.fake("exit 9", ahead=says)
        crates = crates_of(text, [WORKBENCH])
        tasks = tasks_of(Sources(crates, {f"crates/{it.name}/src/lib.rt": b"\n" * 100 for it in crates}), PAGE)
        progress = Progress(tasks, 4, lanes)
        progress.proved += taken
        libraries = [it for it in tasks if it.crate != WORKBENCH]
        with contextlib.redirect_stderr(io.StringIO()) as shown:
            rt = str(self.bin / "rt")
            ahead.Ahead(libraries, ByName(rt, self.top), self.environment(), progress).prove(lanes, progress.tick)
        self.assertEqual(left_in(self.top), [])
        return shown.getvalue()

    def test_how_many_side_by_side(self) -> None:
        for cores, memory, due in ((1, 64, 0), (2, 64, 0), (4, 24, 3), (4, 12, 2), (4, 8, 0), (8, 24, 3), (16, 64, 4)):
            with self.subTest(cores=cores, memory=memory):
                self.assertEqual(ahead.lanes(cores, memory * GIB), due)
        self.assertGreater(ahead.free_memory(), 0)

    def test_how_many_jobs_each(self) -> None:
        for cores, memory, number, due in ((4, 24, 2, 4), (4, 13, 2, 3), (4, 10, 2, 2), (2, 64, 1, 2), (16, 64, 4, 4)):
            with self.subTest(cores=cores, memory=memory, number=number):
                self.assertEqual(ahead.jobs(cores, memory * GIB, number), due)

    def test_each_crate_behind_those_that_it_stands_on(self) -> None:
        shown = self.prove(SAYS, lanes=1)
        self.assertEqual(self.all_calls(), ["ci low", "ci high", "ci side"])
        self.assertIn("crate 3 of 4, side: proved, 6 functions", shown)

    def test_two_side_by_side(self) -> None:
        # `low` waits for `side`, which can only come where both are under way; `high` waits for `low`.
        waits = f'[ "$2" = low ] && until grep -q "ci side" {self.log}; do sleep 0.1; done; {SAYS}'
        self.prove(waits)
        self.assertEqual(sorted(self.all_calls()), ["ci high", "ci low", "ci side"])
        self.assertEqual(self.all_calls()[2], "ci high")

    def test_a_crate_does_not_wait_for_one_with_a_shorter_way(self) -> None:
        # `side` and `high` hold both places until `tall` is begun. Its way is longer than that of `side`.
        text = f"low:\nside:\nhigh: low\ntall: low\n{WORKBENCH}: high side tall\n"
        waits = f'case $2 in side | high) until grep -q "ci tall" {self.log}; do sleep 0.1; done ;; esac; {SAYS}'
        with mock.patch.object(ahead, "_AMPLE_BYTES", 0):
            self.prove(waits, text=text)
        self.assertEqual(sorted(self.all_calls()), ["ci high", "ci low", "ci side", "ci tall"])

    def test_a_crate_with_a_far_shorter_way_leaves_the_processors_to_two_others(self) -> None:
        # `side` may be begun once `low` or `long` has ended: its way has 2 minutes where theirs have 10.
        text = f"low:\nlong:\nside:\nhigh: low long\n{WORKBENCH}: high side\n"
        ended = self.room / "ended"
        waits = f"case $2 in low | long) sleep 0.5; touch {ended} ;; side) [ -e {ended} ] || exit 1 ;; esac; {SAYS}"
        self.prove(waits, lanes=3, text=text)
        self.assertEqual(sorted(self.all_calls()), ["ci high", "ci long", "ci low", "ci side"])

    def test_a_crate_with_a_shorter_way_has_one_job(self) -> None:
        # The way of `low` has 10 minutes, and that of `high` 6 of the 6 that are left by then; that of `side` has 2.
        jobs = self.room / "jobs"
        self.prove(f'echo "$2 ${{RT_JOBS:-any}}" >>{jobs}; {SAYS}', lanes=1)
        self.assertEqual(jobs.read_text().split("\n"), ["low any", "high any", "side any", ""])
        jobs.unlink()
        self.prove(f'echo "$2 ${{RT_JOBS:-any}}" >>{jobs}; [ "$2" = low ] && sleep 1; {SAYS}', lanes=2)
        self.assertEqual(sorted(jobs.read_text().splitlines()), ["high any", "low any", "side 1"])

    def test_a_crate_has_two_jobs_while_the_command_of_its_library_ends(self) -> None:
        # `low` is proved, and its command goes on until `high` is begun. The way of `low` is longer, as it leads there.
        jobs = self.room / "jobs"
        ends = f'[ "$2" = low ] && until grep -q "ci high" {self.log}; do sleep 0.1; done; true'
        self.prove(f'echo "$2 ${{RT_JOBS:-any}}" >>{jobs}; {SAYS}; {ends}')
        self.assertEqual(sorted(jobs.read_text().splitlines()), ["high any", "low any", "side 1"])

    def test_crates_with_ways_of_one_length_have_a_processor_each(self) -> None:
        # Each of the four ends once all are begun, and the last of them is begun beside the three that have places.
        four = ("low", "long", "side", "small")
        tasks = [*(Task(it, False, (), 2.0) for it in four), Task("high", False, four, 6.0)]
        until = f'[ "$2" = high ] || until [ $(wc -l <{self.room / "jobs"}) -ge 4 ]; do sleep 0.1; done'
        self.assertEqual(self.jobs_of(tasks, until), ["high any", "long 1", "low 1", "side 1", "small 1"])

    def jobs_of(self, tasks: list[Task], says: str) -> list[str]:
        """Proves these on four processors, with places for three. Gives the crates with their jobs."""
        jobs = self.room / "jobs"
        self.fake("exit 9", ahead=f'echo "$2 ${{RT_JOBS:-any}}" >>{jobs}; {says}; {SAYS}')
        progress = Progress(tasks, 4, 3)
        way = ByName(str(self.bin / "rt"), self.top)
        proofs = ahead.Ahead(tasks, way, self.environment(), progress, processors=4)
        with mock.patch.object(ahead, "_AMPLE_BYTES", 0), contextlib.redirect_stderr(io.StringIO()):
            self.assertTrue(proofs.prove(3, lambda: None))
        return sorted(jobs.read_text().splitlines())

    def test_two_crates_with_ways_of_one_length_have_two_jobs_each(self) -> None:
        tasks = [Task("low", False, (), 4.0), Task("long", False, (), 4.2)]
        until = f"until [ $(wc -l <{self.room / 'jobs'}) -ge 2 ]; do sleep 0.1; done"
        self.assertEqual(self.jobs_of(tasks, until), ["long any", "low any"])

    def test_what_is_done_of_a_crate_is_no_part_of_its_way(self) -> None:
        # `high` is begun while `long` is at work, whose way is twice that of `high` unless most of it is done.
        tasks = [Task("long", False, (), 10.0), Task("low", False, (), 4.0), Task("high", False, ("low",), 5.0)]
        until = f'[ "$2" = long ] && until grep -q "ci high" {self.log}; do sleep 0.1; done; true'
        for pace, due in ((1.0, "high 1"), (1e-6, "high any")):
            with self.subTest(pace=pace), mock.patch.object(Progress, "pace", lambda it, pace=pace: pace):
                self.assertEqual(self.jobs_of(tasks, until), [due, "long any", "low any"])
                (self.room / "jobs").unlink()
                self.log.unlink()

    def test_tests_hold_no_other_crate_back(self) -> None:
        # `low` is proved, and its tests wait for `high`, which can only come once `low` counts as proved.
        tests = f'[ "$2" = low ] && until grep -q "ci high" {self.log}; do sleep 0.1; done; true'
        self.prove(f"{SAYS}; {tests}")
        self.assertEqual(sorted(self.all_calls()), ["ci high", "ci low", "ci side"])

    def test_the_next_crate_is_begun_while_its_library_is_under_way(self) -> None:
        # `low` waits for `high`, which stands on it. `high` then takes the place of `low`, and not one of its own.
        waits = f'[ "$2" = low ] && until grep -q "ci high" {self.log}; do sleep 0.1; done; echo "{WAITS}"; {SAYS}'
        with mock.patch.object(ahead, "_BEGUN_SECONDS", 0), mock.patch.object(ahead, "_AMPLE_BYTES", 0):
            shown = self.prove(waits, lanes=1)
        self.assertNotIn("waiting", shown)
        calls = self.all_calls()
        self.assertEqual((sorted(calls[:2]), calls[2:]), (["ci high", "ci low"], ["ci side"]))

    def test_what_was_taken_is_not_asked_for(self) -> None:
        self.prove(SAYS, taken=["low"])
        self.assertEqual(sorted(self.all_calls()), ["ci high", "ci side"])

    def test_the_launcher_asks_once_something_is_to_be_proved(self) -> None:
        if not lanes_here():
            self.skipTest("crates are not proved side by side here")
        (self.room / "rattle-kept/proof-low-1").mkdir(parents=True)
        again = self.room / "again"
        self.fake(f"if ! [ -e {again} ]; then touch {again}; sleep 100 & wait $!; fi; {PROVES}", ahead=SAYS)
        done = self.sparc8(given="list\n")
        self.assertEqual((done.returncode, done.stdout), (0, "words \nlist\n"))
        calls = self.all_calls()
        self.assertEqual((calls[0], sorted(calls[1:4]), calls[4:]), ("ci", ["ci high", "ci low", "ci side"], ["ci"]))
        self.assert_nothing_left()

    def test_where_nothing_is_kept_nothing_is_tried_first(self) -> None:
        if not lanes_here():
            self.skipTest("crates are not proved side by side here")
        self.fake(PROVES, ahead=SAYS)
        done = self.sparc8(given="list\n")
        self.assertEqual((done.returncode, done.stdout), (0, "words \nlist\n"))
        self.assertEqual(self.all_calls()[3:], ["ci"])
        self.assertEqual(sorted(self.all_calls()[:3]), ["ci high", "ci low", "ci side"])

    def test_the_last_command_is_begun_while_its_libraries_are_under_way(self) -> None:
        # `high` waits for the command that builds the program.
        text = f"low:\nhigh: low\n{WORKBENCH}: high\n"
        self.fake("exit 9", ahead="exit 9")
        rt, crates = str(self.bin / "rt"), crates_of(text, [WORKBENCH])
        tasks = tasks_of(Sources(crates, {f"crates/{it.name}/src/lib.rt": b"\n" * 100 for it in crates}), PAGE)
        begun = f'[ "$2" = high ] && until grep -q "^ci:" {self.log}; do sleep 0.1; done; {SAYS}'
        self.fake('echo "rt: sparc8 proved"', ahead=begun)
        proofs = ahead.Ahead(tasks, ByName(rt, self.top, [WORKBENCH]), self.environment(), Progress(tasks, 4, 2))
        with (
            mock.patch.object(ahead, "_BEGUN_SECONDS", 0),
            mock.patch.object(ahead, "_AMPLE_BYTES", 0),
            contextlib.redirect_stderr(io.StringIO()),
        ):
            self.assertTrue(proofs.prove(2, lambda: None))
        self.assertEqual(sorted(self.all_calls()), ["ci", "ci high", "ci low"])

    def test_a_last_command_that_fails_is_run_again_and_shown(self) -> None:
        self.fake('echo "rt: sparc8 NOT PROVED"; exit 1', ahead=SAYS)
        done = self.sparc8(given="list\n")
        self.assertEqual((done.returncode, done.stdout), (1, ""))
        self.assertIn("rt: sparc8 NOT PROVED", done.stderr)
        self.assert_nothing_left()

    def test_a_toolchain_that_takes_no_name(self) -> None:
        # Its `rt ci NAME` prints how it is used; each crate is then proved in a folder of its own, the programs last.
        if not lanes_here():
            self.skipTest("crates are not proved side by side here")
        proves = f"""case $1 in
          ci) sleep 100 & wait $!;;
          lib) mkdir -p out/rlib; ls ../*/out -d >>{self.room}/libraries; touch out/rlib/it;;
          run) mkdir -p out; cp {self.room}/program out/$(basename $PWD); cat ../../crates.txt >{self.room}/crates;;
        esac
        echo "logic=proved functions=3 sum=1"
        """
        self.fake(proves, ahead="echo usage: rt new FOLDER; exit 1")
        done = self.sparc8(given="list\n")
        self.assertEqual((done.returncode, done.stdout), (0, "words \nlist\n"))
        calls = self.all_calls()
        self.assertEqual(sorted(calls[:2]), ["ci low", "ci side"])
        self.assertEqual(sorted(it.split()[0] for it in calls[2:]), ["lib", "lib", "lib", "run"])
        self.assertEqual(calls[-1].split()[:2], ["run", "--jobs"])
        self.assertEqual((self.room / "crates").read_text(), "low: \nhigh: low\nside: \nsparc8: high side\n")
        self.assertIn("../low/out", (self.room / "libraries").read_text())
        self.assertIn("crate 4 of 4, sparc8: proved, 12 functions", done.stderr)
        self.assert_nothing_left()

    def test_one_that_fails_ends_all(self) -> None:
        shown = self.prove('[ "$2" = low ] && exit 1; sleep 100')
        self.assertEqual((sorted(self.all_calls()), shown), (["ci low", "ci side"], ""))

    def test_the_launcher_ends_what_is_under_way(self) -> None:
        if not ahead.lanes(4, ahead.free_memory()):
            self.skipTest("there is no memory for crates side by side")
        begun = self.room / "begun"
        self.fake("sleep 100 & wait $!", ahead=f"touch {begun}; sleep 100 & wait $!")
        with self.begun("--program") as process:
            self.wait_for(begun)
            process.terminate()
            _, said = process.communicate(timeout=60)
        self.assertEqual(process.returncode, 143)
        self.assertIn("interrupted", said)
        self.assert_nothing_left()


if __name__ == "__main__":
    unittest.main()
