"""Parts of the compiler against plainer ones."""

from __future__ import annotations

import random
import unittest

from compiler.expressions import quotient, wrapped
from compiler.flow import State
from compiler.messages import Fault
from support import Runs, text_of


class Plain:
    """An equivalence on the terms -3 to 5 as a set of pairs."""

    def __init__(self) -> None:
        self.terms = range(-3, 6)
        self.pairs = {(term, term) for term in self.terms}

    def join(self, t: int, u: int) -> None:
        self.pairs |= {(t, u), (u, t)}
        while True:
            more = {(a, d) for a, b in self.pairs for c, d in self.pairs if b == c} - self.pairs
            if not more:
                return
            self.pairs |= more

    def write(self, value: int, term: int) -> None:
        if value != term:
            self.pairs = {(a, b) for a, b in self.pairs if value not in (a, b)} | {(value, value)}
            self.join(term, value)


class Parts(unittest.TestCase):
    def test_place_equations(self) -> None:
        choice = random.Random(1)
        for _ in range(200):
            states, plains = [State(), State()], [Plain(), Plain()]
            for _ in range(choice.randint(1, 12)):
                at, t, u = choice.randrange(2), choice.randint(-3, 5), choice.randint(0, 5)
                if choice.random() < 0.5:
                    states[at].join(t, u)
                    plains[at].join(t, u)
                else:
                    states[at].write(u, t)
                    plains[at].write(u, t)
            self.agree(states[0], plains[0].pairs)
            self.agree(states[0].meet(states[1]), plains[0].pairs & plains[1].pairs)
            self.assertEqual(states[0].named(), states[0].named().named())

    def agree(self, state: State, pairs: set[tuple[int, int]]) -> None:
        for t in range(-3, 6):
            for u in range(-3, 6):
                self.assertEqual((t, u) in pairs, state.same(t, u), (t, u))

    def test_numbers_have_64_bits(self) -> None:
        self.assertEqual(-2**63, wrapped(2**63))
        self.assertEqual(-2**63, quotient(-2**63, -1))
        self.assertEqual([-3, -3, 3], [quotient(-7, 2), quotient(7, -2), quotient(-7, -2)])


class Limits(unittest.TestCase):
    """Sources that are just within a limit of an image, and just above it."""

    def check(self, within: str, above: str, cause: str) -> None:
        with Runs(text_of("within.x10", within)) as ran:
            self.assertIsNone(ran.refusal())
        with self.assertRaises(Fault) as caught:
            text_of("above.x10", above)
        self.assertEqual(cause, caught.exception.cause)

    def test_functions(self) -> None:
        defs = [f"def f{number}() {{}}\n" for number in range(256)]
        main = "def main() { f0(); }\n"
        self.check("".join(defs[:255]) + main, "".join(defs) + main,
                   "the program has 257 functions, with the bodies of at and async")

    def test_instructions(self) -> None:
        def program(count: int) -> str:
            return f"def main() {{ val n = here.id; {'Console.OUT.println(n);' * count} }}"

        self.check(program(4093), program(4094), "`main` has 4097 instructions")

    def test_values(self) -> None:
        def program(count: int) -> str:
            values = "".join(f"val v{number} = here.id + p; " for number in range(count))
            prints = "".join(f"Console.OUT.println(v{number}); " for number in range(count))
            return f"def all(p: Int) {{ {values}{prints} }}\ndef main() {{ all(1); }}\n"

        self.check(program(62), program(70), "`all` needs more than 64 values at a time")

    def test_arguments_of_each_order(self) -> None:
        """Calls whose arguments stand in every order, each some twice: they get their values."""
        choice = random.Random(2)
        names = "abcdef"
        lines = ["class Sum { var n: Int; }", "def f(a: Int, b: Int, c: Int, d: Int): Int = a * 1000 + b * 100 + c * 10 + d;",
                 "def main() {", *(f"  var {name}: Int = here.id + {number};" for number, name in enumerate(names))]
        wanted = []
        for _ in range(60):
            row = [choice.randrange(6) for _ in range(4)]
            lines.append(f"  Console.OUT.println(f({', '.join(names[it] for it in row)}));")
            wanted.append(f"0: {row[0] * 1000 + row[1] * 100 + row[2] * 10 + row[3]}")
        with Runs(text_of("orders.x10", "\n".join([*lines, "}"]))) as ran:
            self.assertEqual((0, wanted, ""), ran.run())
