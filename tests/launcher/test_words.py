"""The words that the launcher answers itself: its texts are those that the program gave, and still gives."""
from __future__ import annotations

import json
import os
import random
import unittest

from rubliman.launcher.likeness import jaro
from rubliman.launcher.sources import MONITOR, WORKBENCH
from rubliman.launcher.words import Refused, Settings, read, recorded

from .asked_words import ASKED, SAMPLE, TEXTS, ask

WORDS = """--help -h --windows --windows=4 --windows=3 --windows= 3 4 8 16 a b -x -- - --bogus --window --win -1
--help=1 -hx -xh 32 é --helm""".split() + [
    ""
]


def answer(words: list[str]) -> tuple[int, str, str] | None:
    """What the launcher answers: the status and both outputs. None where it leaves the words to the program's run."""
    try:
        chosen = read(words)
    except Refused as refused:
        said = refused.said()
        return said.status, said.out, said.err
    return None if chosen.script is None else (3, "", recorded()["no script"].err)


class Reading(unittest.TestCase):
    """Reading of words, by what the program was seen to answer."""

    def test_the_recorded_texts_are_of_the_words_that_are_asked(self) -> None:
        self.assertEqual({name: list(it.words) for name, it in recorded().items()}, ASKED)

    def test_a_sample_of_words(self) -> None:
        for words, status, err, is_help in json.loads(SAMPLE.read_text(encoding="utf-8")):
            with self.subTest(words=words):
                found = answer(words) or (0, "", "")
                self.assertEqual((found[0], found[2], bool(found[1])), (status, err, is_help))

    def test_what_words_choose(self) -> None:
        self.assertEqual(read([]), Settings("8", None))
        self.assertEqual(read(["--windows", "16", "it"]), Settings("16", "it"))
        self.assertEqual(read(["it", "--windows=2"]), Settings("2", "it"))
        self.assertEqual(read(["--", "--help"]), Settings("8", "--help"))

    def test_likeness(self) -> None:
        # Values of Jaro's measure that are worked out in the literature on matching of names.
        for one, other, measure in (
            ("MARTHA", "MARHTA", 0.944),
            ("DIXON", "DICKSONX", 0.767),
            ("DWAYNE", "DUANE", 0.822),
            ("", "a", 0.0),
        ):
            self.assertAlmostEqual(jaro(one, other), measure, places=3)


class TheProgram(unittest.TestCase):
    """The program that SPARC8 names answers as it was recorded."""

    def texts_are_recorded(self, program: str, path: str) -> None:
        for name, it in recorded(program).items():
            with self.subTest(name=name):
                self.assertEqual(
                    ask(it.words, path),
                    (it.status, it.out, it.err),
                    f"run asked_words.py, which records {TEXTS} anew",
                )

    def test_its_texts_are_the_recorded_ones(self) -> None:
        self.texts_are_recorded(WORKBENCH, os.environ["SPARC8"])

    def test_those_of_the_monitor(self) -> None:
        self.texts_are_recorded(MONITOR, os.environ["SPARC8_MONITOR"])

    def test_any_words(self) -> None:
        choose = random.Random(os.urandom(4))
        for _ in range(100):
            words = [choose.choice(WORDS) for _ in range(choose.randint(0, 4))]
            with self.subTest(words=words):
                self.assertEqual(answer(words) or (0, "", ""), ask(words))


if __name__ == "__main__":
    unittest.main()
