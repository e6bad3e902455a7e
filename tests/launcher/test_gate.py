"""What the gate has proved and built is kept, and nothing else is."""
from __future__ import annotations

import subprocess
import unittest

from rubliman.launcher.sources import PROGRAMS

from .support import PROGRAM, InRepository


class Gate(InRepository):
    """Calls before and after `rt ci`."""

    def setUp(self) -> None:
        super().setUp()
        self.fake("exit 1")
        for it in PROGRAMS:
            (self.top / "crates" / it / "out").mkdir()
            (self.top / "crates" / it / "out" / it).write_text(PROGRAM, encoding="utf-8")

    def gate(self, *words: str) -> subprocess.CompletedProcess[str]:
        return subprocess.run(
            ["/usr/bin/python3", "-B", "-m", "rubliman.launcher.gate", *words],
            cwd=self.room,
            capture_output=True,
            text=True,
            check=False,
            env=self.environment() | {"PYTHONPATH": str(self.top / "lib")},
        )

    def test_what_it_built_is_taken(self) -> None:
        before = self.gate().stdout.strip()
        done = self.gate(before)
        self.assertEqual((done.returncode, done.stdout), (0, ""), done.stderr)
        self.assertEqual(self.sparc8(given="list\n").stdout, "words \nlist\n")
        self.assertEqual(self.sparc8("-x", command=self.top / "sparc8_monitor").stdout, "words -x\n")
        self.assertEqual(self.calls(), [])
        self.assertIn("proved     yes, by rt ci of kit-1", self.sparc8("--check").stdout)

    def test_a_source_changed_meanwhile(self) -> None:
        before = self.gate().stdout.strip()
        (self.top / "crates/low/src/lib.rt").write_text("// changed\n", encoding="utf-8")
        done = self.gate(before)
        self.assertEqual(
            (done.returncode, done.stderr),
            (1, "sparc8: a source was changed while the gate ran: what it built is not kept\n"),
        )
        self.assertIn("proved     no", self.sparc8("--check").stdout)

    def test_nothing_built(self) -> None:
        before = self.gate().stdout.strip()
        for it in PROGRAMS:
            built = self.top / "crates" / it / "out" / it
            built.rename(built.with_name("elsewhere"))
            self.assertEqual(self.gate(before).returncode, 1)
            built.with_name("elsewhere").rename(built)


if __name__ == "__main__":
    unittest.main()
