"""From a source to its text: each part in turn."""

from __future__ import annotations

from .code import Lowering
from .flow import analyse
from .improve import improve
from .ir import Code
from .lifting import lift_all
from .messages import Fault, Source, Span
from .names import Checker
from .parsing import parse
from .registers import allocate
from .text import Text, Writer


def fits(code: Code) -> bool:
    """Whether the values of a function have registers."""
    try:
        allocate(code)
    except Fault:
        return False
    return True


def improved(code: Code) -> None:
    """Without computing before loops, where that asks for too many registers."""
    before = list(code.instrs)
    saved = [(list(it.reads), it.label) for it in before]
    improve(code)
    if not fits(code):
        code.instrs = before
        for it, (reads, label) in zip(before, saved):
            it.reads, it.label = reads, label
        improve(code, False)


def compiled(source: Source) -> Text:
    """The text of a program; a Fault where there is one."""
    try:
        program = parse(source)
        checker = Checker(program)
        main = checker.check()
        codes = [Lowering(source, it).lowered() for it in lift_all(program)]
        facts = analyse(codes, {it.name: it for it in program.classes}, source)
        for code in codes:
            improved(code)
        text = Writer(source, program, codes, main, facts).written()
        text.uses = checker.uses
        return text
    except RecursionError:
        raise Fault(Span(0, 1, 1, 1), "the program nests too deeply",
                    "Split long expressions, and put inner statements into a def.") from None
