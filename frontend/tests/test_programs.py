"""Each source in programs/ and ../examples/ says in its first comments what x10c does with it.

    // What it shows.
    // $ run --places 2
    // 0: 5
    // 1: 6

is a program: it is compiled, verified and run in several orders of its activities, and prints these lines in each. Where the
comment `// in any order` follows, their order is left open; else the interpreter prints them too.

    // $ refused 3:7
    // `n` is a val, and gets a second value
    // Declare it by `var`.

is refused at this line and column, with this cause and this repair.
"""

from __future__ import annotations

import re
import unittest
from dataclasses import dataclass, field
from pathlib import Path

from compiler.messages import Fault, Source
from interpreter import interpreted
from support import ORDERS, TOP, Runs, text_of


@dataclass
class Command:
    words: list[str]
    lines: list[str] = field(default_factory=list)
    is_any_order: bool = False


def commands_of(source: str) -> list[Command]:
    found: list[Command] = []
    for line in source.splitlines():
        if not line.startswith("//"):
            break
        if line.startswith("// $ "):
            found.append(Command(line[5:].split()))
        elif line == "// in any order":
            found[-1].is_any_order = True
        elif found and line.startswith("// "):
            found[-1].lines.append(line[3:])
    return found


class Programs(unittest.TestCase):
    maxDiff = None

    def check(self, path: Path) -> None:
        source = path.read_text(encoding="utf-8")
        commands = commands_of(source)
        self.assertTrue(commands, "no comment says what x10c does with it")
        for command in commands:
            if command.words[0] == "refused":
                self.refused(path.name, source, command)
            elif command.words[0] == "bounds":
                text = text_of(path.name, source)
                self.assertEqual(command.lines, [f"{it.full_name()} {bound}" for it, bound in zip(text.functions, text.bounds)])
            else:
                self.runs(path.name, source, command)

    def refused(self, name: str, source: str, command: Command) -> None:
        with self.assertRaises(Fault) as caught:
            text_of(name, source)
        fault = caught.exception
        self.assertEqual([command.words[1], *command.lines],
                         [f"{fault.span.line}:{fault.span.column}", fault.cause, fault.repair])
        told = fault.told(Source(name, source))
        self.assertRegex(told, rf"^{re.escape(name)}:\d+:\d+: .*\n    .*\n\s*\^+\n.*\n$")

    def runs(self, name: str, source: str, command: Command) -> None:
        text = text_of(name, source)
        def kept(lines: list[str]) -> list[str]:
            return sorted(lines) if command.is_any_order else lines

        with Runs(text) as ran:
            status, lines, told = ran.bounds()
            self.assertEqual((0, [f"{number} {bound}" for number, bound in enumerate(text.bounds)]), (status, lines), told)
            for order in ORDERS:
                status, lines, told = ran.run(*command.words[1:], *order)
                self.assertEqual((0, kept(command.lines)), (status, kept(lines)), f"{order} {told}")
        if not command.is_any_order:
            places = int(command.words[command.words.index("--places") + 1]) if "--places" in command.words else least(text.lines)
            self.assertEqual(command.lines, interpreted(Source(name, source), places))


def least(lines: list[str]) -> int:
    return int(next(it for it in lines if it.startswith("places ")).split()[1])


def add_tests() -> None:
    """A test for each source."""
    for path in sorted([*TOP.glob("tests/programs/**/*.x10"), *TOP.glob("examples/*.x10")]):
        name = "_".join(path.relative_to(TOP).with_suffix("").parts[-2:])
        setattr(Programs, f"test_{name}", lambda self, path=path: self.check(path))


add_tests()
