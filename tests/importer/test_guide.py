"""The examples of docs/IMPORT.md, each run as it stands there."""
from __future__ import annotations

import re
import unittest

from docs.blocks import Kind, blocks, examples
from docs.running import check_shell

from .support import TOP, InFolder

GUIDE = TOP / "docs" / "IMPORT.md"


class Guide(InFolder):
    """The page."""

    def test_examples(self) -> None:
        found = blocks(GUIDE, Kind.SHELL)
        self.assertGreater(len(list(examples(found))), 20)
        check_shell(self, found)

    def test_every_option_stands_in_it(self) -> None:
        page, told = GUIDE.read_text(encoding="utf-8"), self.command("--help").stdout
        options = set(re.findall(r"(?<![\w-])(--?[a-z][a-z0-9]*)", told)) - {"-h", "--help"}
        self.assertIn("--addr2line", options)
        self.assertEqual({it for it in options if f"`{it}" not in page and f" {it}" not in page}, set())

    def test_no_line_is_too_wide(self) -> None:
        self.assertEqual([it for it in GUIDE.read_text(encoding="utf-8").splitlines() if len(it) > 300], [])


if __name__ == "__main__":
    unittest.main()
