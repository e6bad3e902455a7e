"""The examples of docs/MONITOR.md are answered as they stand there."""
from __future__ import annotations

import unittest

from docs.blocks import Kind, blocks, exchanges
from docs.running import check_session
from monitor.support import TOP

GUIDE = TOP / "docs/MONITOR.md"


class Guide(unittest.TestCase):
    """One session of all examples, in their order."""

    def test_examples(self) -> None:
        found = blocks(GUIDE, Kind.SESSION)
        self.assertGreater(len(list(exchanges(found))), 25)
        check_session(self, found)
