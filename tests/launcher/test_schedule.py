"""The minutes that proving takes, worked out by hand."""
from __future__ import annotations

import contextlib
import io
import os
import tempfile
import unittest
from unittest import mock

from rubliman.launcher.progress import Progress
from rubliman.launcher.schedule import longest_first, minutes_left, minutes_of, tasks_of, ways_above
from rubliman.launcher.sources import WORKBENCH, Sources, crates_of

from .support import CRATES, PAGE

TEXT = "".join(f"{name}: {uses}\n" for name, uses in CRATES.items())


class Schedule(unittest.TestCase):
    """Four crates: `low` takes 4 minutes and its tests 1, `side` 2, `high` 6 on `low`, the program 1 on both."""

    def setUp(self) -> None:
        kept = tempfile.TemporaryDirectory(prefix="rubliman-schedule-")
        self.addCleanup(kept.cleanup)
        # Without this the pace would be the one that a run of this user's has measured.
        cache = mock.patch.dict(os.environ, {"RUBLIMAN_CACHE": kept.name})
        cache.start()
        self.addCleanup(cache.stop)
        crates = crates_of(TEXT, [WORKBENCH])
        self.sources = Sources(crates, {f"crates/{it.name}/src/lib.rt": b"\n" * 100 for it in crates})
        self.tasks = tasks_of(self.sources, PAGE)

    def test_the_needed_crates_lowest_first(self) -> None:
        self.assertEqual([it.name for it in self.sources.crates], ["low", "high", "side", "sparc8"])

    def test_the_page(self) -> None:
        self.assertEqual(minutes_of(PAGE)["low"], (4.0, 1.0))
        self.assertEqual(minutes_of("| `it` | 0.9 | 5.2 | 7.5 | 4.4 | 18.0 |")["it"], (0.9 + 4.4, 5.2))
        self.assertEqual(sum(it.minutes for it in self.tasks), 14.0)

    def test_one_processor_takes_the_sum(self) -> None:
        self.assertAlmostEqual(minutes_left(self.tasks, (), 1), 14.0)

    def test_the_longest_way_with_many_processors(self) -> None:
        # `low` has one of three, so 4; then `high` with four jobs 6 / 2.2, then the program with four 1 / 2.2.
        self.assertAlmostEqual(minutes_left(self.tasks, (), 4), 4 + 6 / 2.2 + 1 / 2.2)

    def test_two_side_by_side_with_two_processors_each(self) -> None:
        # `low`, `high` and the program one after the other, each with two jobs; `side` and the tests beside them.
        self.assertAlmostEqual(minutes_left(self.tasks, (), 4, 2), (4 + 6 + 1) / 1.5)

    def test_the_longest_way_comes_first(self) -> None:
        ways = ways_above(self.tasks)
        self.assertEqual(ways, {"low": 11.0, "high": 7.0, "side": 3.0, "sparc8": 1.0})
        self.assertEqual(longest_first(ways), ["low", "high", "side", "sparc8"])

    def test_what_is_proved_is_not_counted(self) -> None:
        self.assertAlmostEqual(minutes_left(self.tasks, ("low", "side", "high"), 1), 1.0)
        self.assertEqual(minutes_left(self.tasks, [it.name for it in self.sources.crates], 4), 0.0)

    def test_a_crate_that_the_page_does_not_name(self) -> None:
        # 13 minutes for 400 lines of the four crates, less `side`: 11 for 300, so 11/3 for its 100.
        page = PAGE.replace("`side`", "`another`")
        self.assertAlmostEqual(next(it.minutes for it in tasks_of(self.sources, page) if it.crate == "side"), 11 / 3)

    def test_what_is_under_way_is_told_once_a_minute(self) -> None:
        now = [0.0]
        progress = Progress(self.tasks, 4, lanes=2, clock=lambda: now[0])
        for at_work in ([], ["low"]):
            now[0] += 60.0
            progress.at_work = at_work
            with contextlib.redirect_stderr(io.StringIO()) as said:
                progress.tick()
                progress.tick()
            self.assertEqual(said.getvalue().count("sparc8:"), 1)
            # Where it is not known, those are told that wait for none.
            self.assertIn("sparc8:   low; 2" if at_work else "sparc8:   low, side; 1", said.getvalue())

    def test_the_minutes_to_come_follow_the_pace(self) -> None:
        now = [0.0]
        progress = Progress(self.tasks, 1, clock=lambda: now[0])
        now[0] = 60.0 * 10
        with contextlib.redirect_stderr(io.StringIO()) as said:
            progress.line("rt: low proved")
        self.assertEqual(said.getvalue(), "sparc8: crate 1 of 4, low: proved; 10 minutes gone, about 12 to come\n")
        # 5 of 14 minutes' work took 10, and 10 are expected to take 10: the other 9 take 9 * 20 / 15.
        self.assertAlmostEqual(progress.minutes_to_come(), 12.0)
        now[0] = 60.0 * 13
        self.assertAlmostEqual(progress.minutes_to_come(), 9.0)


if __name__ == "__main__":
    unittest.main()
