"""A file of code imports no name of definitions that it does not use. The toolchain tells so of proofs alone."""
from __future__ import annotations

import re
import unittest
from collections import defaultdict
from collections.abc import Iterator
from pathlib import Path

TOP = Path(__file__).resolve().parents[2]
_IMPORT = re.compile(r"^\s*ghost use [\w.]+\.\{([^}]*)\};$", re.M)
_USE = re.compile(r"^\s*(?:pub )?(?:ghost )?use .*$", re.M)
_FILE, _NEW = "file: ", "new: "


def edited() -> dict[Path, str]:
    """What wrong bodies put into each file; they may use names that are imported for them."""
    found: dict[Path, str] = defaultdict(str)
    for edit in [*TOP.glob("crates/*/must-fail/*.edit"), *TOP.glob("tools/more-must-fail/*/*.edit")]:
        crate = edit.parents[1] if edit.parent.name == "must-fail" else TOP / "crates" / edit.parent.name
        file = crate
        for line in edit.read_text(encoding="utf-8").split("\n"):
            if line.startswith(_FILE):
                file = crate / line.removeprefix(_FILE)
            elif line.startswith(_NEW):
                found[file] += line.removeprefix(_NEW) + "\n"
    return found


def stands(name: str, text: str) -> bool:
    """Whether a name, or each part of an operator, stands in a text."""
    if "◌" in name:
        return all(part in text for part in name.split("◌"))
    return re.search(rf"(?<![\w-]){re.escape(name)}(?![\w-])", text) is not None


def unused(text: str, besides: str = "") -> Iterator[str]:
    """The names that a file imports and does not use."""
    body = _USE.sub("", text) + "\n" + besides
    for names in _IMPORT.findall(text):
        for name in (it.strip().split(" as ")[-1] for it in names.split(",")):
            if name and not stands(name, body):
                yield name


class Imports(unittest.TestCase):
    """All files of code, but for what is built."""

    def test_an_unused_name_is_found(self) -> None:
        text = "ghost use Rattle.a.{one, two, ◌≤◌, ◌≡◌, if◌then◌, x as three};\nfn f() ensures { one ≤ 1 }\nif then"
        self.assertEqual(list(unused(text, "two")), ["◌≡◌", "three"])

    def test_each_name_is_used(self) -> None:
        besides = edited()
        files = [it for it in TOP.glob("crates/*/src/**/*.rt") if "out" not in it.parts]
        self.assertGreater(len(files), 200)
        found = {
            str(it.relative_to(TOP)): names
            for it in files
            if (names := list(unused(it.read_text(encoding="utf-8"), besides[it])))
        }
        self.assertEqual(found, {})
