"""Instructions before they have registers: they name values, each a number, and labels."""

from __future__ import annotations

from dataclasses import dataclass, field
from typing import Iterable, Iterator

from .messages import Span
from .tree import Function, Type

# Of each operation its operands in the order of the text: d what it writes (z: 0 where that is nothing), 0 to 2 what it reads,
# r the same (0 where that is nothing), A the first of its arguments, n a number, k an int, t a text, c a class, f a function,
# s a loop slot, L a label. The arguments are the last ones that it reads.
FORMS = {
    "INTK": "dk", "TEXTK": "dt", "MOVE": "d0", "ADD": "d01", "SUB": "d01", "MUL": "d01", "DIV": "d01L", "REM": "d01L",
    "LT": "d01", "EQ": "d01", "JMP": "L", "JZ": "0L", "LOOP": "sn", "ENDL": "sL", "CALL": "zAf", "RET": "r",
    "TLEN": "d0", "TCAT": "d01L", "NEW": "dAc", "GET": "d0n", "PUT": "01n", "NULL": "dc", "IFOBJ": "d0L",
    "RAIL": "d0L", "RGET": "d01L", "RSET": "012L", "RLEN": "d0", "HERE": "d", "PLACEK": "dn", "PLACEN": "d0L",
    "PLACEI": "d0", "NEXTP": "d0", "COUNT": "d", "HOME": "d0", "GNEW": "d0", "GOPEN": "d0", "IFHERE": "0L", "IFSAME": "01L",
    "ASYNC": "Af", "AT": "zA0f", "ATA": "A0f", "FINB": "", "FINE": "", "ATOMB": "", "ATOME": "", "PRINT": "0",
}
JUMPS = {it for it, form in FORMS.items() if "L" in form}
WITH_ARGUMENTS = {it for it, form in FORMS.items() if "A" in form}
NONE = -1


@dataclass(eq=False)
class Instr:
    """`number` is a constant, a field, a count of turns or a loop slot; `label` what it jumps to, or of a LABEL its own;
    `safe` where it may jump to once it is known not to fail, `of`
    what is opened or read, in the source."""

    op: str
    span: Span
    dest: int = NONE
    reads: list[int] = field(default_factory=list)
    number: object = 0
    label: int = NONE
    slot: int = 0
    safe: int = NONE
    of: Span = Span(0, 0, 1, 1)

    def arguments(self) -> list[int]:
        return self.reads[1 if "0" in FORMS[self.op] else 0:] if self.op in WITH_ARGUMENTS else []

    def is_end(self) -> bool:
        return self.op in ("RET", "JMP")


@dataclass(eq=False)
class Code:
    """The instructions of a function, and the type of each value; the parameters are the values from 0 on."""

    function: Function
    types: list[Type] = field(default_factory=list)
    instrs: list[Instr] = field(default_factory=list)

    def labels(self) -> dict[int, int]:
        """Where each label stands."""
        return {it.label: at for at, it in enumerate(self.instrs) if it.op == "LABEL"}

    def ways(self, at: int, labels: dict[int, int]) -> Iterator[tuple[int, bool]]:
        """Where instruction `at` goes to, each with whether that is a jump."""
        it = self.instrs[at]
        if not it.is_end() and at + 1 < len(self.instrs):
            yield at + 1, False
        if it.op in JUMPS:
            yield labels[it.label], True

    def definitions(self) -> dict[int, list[int]]:
        """Where each value is written; a parameter at -1 too."""
        found: dict[int, list[int]] = {value: [-1] for value in range(len(self.function.variables))}
        for at, it in enumerate(self.instrs):
            if it.dest != NONE:
                found.setdefault(it.dest, []).append(at)
        return found


def live_out(code: Code) -> list[set[int]]:
    """The values that are read after each instruction, on some way, before they are written."""
    labels = code.labels()
    count = len(code.instrs)
    before: list[set[int]] = [set() for _ in range(count + 1)]
    after: list[set[int]] = [set() for _ in range(count)]
    changed = True
    while changed:
        changed = False
        for at in range(count - 1, -1, -1):
            it = code.instrs[at]
            out: set[int] = set()
            for to, _ in code.ways(at, labels):
                out |= before[to]
            now = (out - {it.dest}) | set(it.reads)
            # (on a jump nothing is written: what is read there of the old value stays alive)
            if it.op in JUMPS and it.dest in before[labels[it.label]]:
                now.add(it.dest)
            if now != before[at] or out != after[at]:
                before[at], after[at], changed = now, out, True
    return after


def least_places(codes: Iterable[Code]) -> int:
    """A PLACEK names a place that each run has."""
    return max((int(str(it.number)) + 1 for code in codes for it in code.instrs if it.op == "PLACEK"), default=1)
