"""Random programs, and damaged sources."""

from __future__ import annotations

import os
import random
import re
import unittest

from compiler.messages import Fault, Source
from compiler.text import Text
from fuzzing import random_program
from interpreter import interpreted
from support import TOP, Runs, text_of

COUNT, SEED = int(os.environ.get("X10C_FUZZ", "60")), int(os.environ.get("X10C_SEED", "1"))
PLACES = 3
STRANGE = ["null", "here", "-", "(", ")", "{", "}", ";", "\"", "@", "at", "async", "var", "return", "é", "!", "=="]
NUMBERS = ["0", "1", "64", "65535", "65536", "9223372036854775808"]
WORD = re.compile(r"//[^\n]*|\"(?:\\.|[^\"\\\n])*\"|\w+|\s+|.", re.DOTALL)


class Random(unittest.TestCase):
    maxDiff = None

    def check(self, seed: int) -> None:
        """The program is accepted, and prints what the interpreter prints."""
        source = random_program(seed)
        wanted = interpreted(Source("random.x10", source), PLACES)
        with Runs(text_of("random.x10", source)) as ran:
            if wanted is None:
                self.assertIsNone(ran.refusal())
                return
            orders: list[list[str]] = [[], ["--seed", str(seed)]]
            for order in orders:
                status, lines, told = ran.run("--places", str(PLACES), *order)
                self.assertEqual((0, wanted), (status, lines), told)


class Damaged(unittest.TestCase):
    def check(self, seed: int) -> None:
        """A damaged source is refused by a line, or it is a program that the verifier accepts."""
        choice = random.Random(seed)
        path = choice.choice(sorted([*TOP.glob("tests/programs/**/*.x10"), *TOP.glob("examples/*.x10")]))
        source = damaged(path.read_text(encoding="utf-8"), choice)
        try:
            text: Text = text_of("damaged.x10", source)
        except Fault as fault:
            self.assertRegex(fault.told(Source("damaged.x10", source)), r"^damaged.x10:\d+:\d+: .+\n.*\n *\s*\^+\n.+\n$")
            return
        with Runs(text) as ran:
            self.assertIsNone(ran.refusal(), source)


def damaged(source: str, choice: random.Random) -> str:
    """A source with one to three words taken out, doubled, exchanged or replaced; often by one of the same sort, so that it can
    still be read."""
    words = WORD.findall(source)
    alike = [number for number, it in enumerate(words) if it[0].isalnum()]
    for _ in range(choice.randint(1, 3)):
        how = choice.randrange(8)
        among = alike if how > 3 else range(len(words))
        at, other = choice.choice(among), choice.choice(among)
        if how == 0:
            words[at] = ""
        elif how == 1:
            words[at] *= 2
        elif how in (2, 4):
            words[at], words[other] = words[other], words[at]
        elif how == 3:
            words[at] = choice.choice(STRANGE)
        else:
            words[at] = words[other] if words[at].isalpha() == words[other].isalpha() else choice.choice(NUMBERS)
    return "".join(words)


for number in range(SEED, SEED + COUNT):
    setattr(Random, f"test_{number}", lambda self, seed=number: self.check(seed))
for number in range(SEED, SEED + 5 * COUNT):
    setattr(Damaged, f"test_{number}", lambda self, seed=number: self.check(seed))
