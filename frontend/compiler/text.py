"""Writes the assembler text of a program, and keeps for each of its lines where it comes from."""

from __future__ import annotations

from dataclasses import dataclass, field
from typing import Optional

from . import tree
from .flow import Facts
from .ir import FORMS, NONE, Code, Instr, least_places
from .messages import Fault, Source, Span
from .registers import allocate
from .tree import Function, Type, Use

# how the first line of a text ends
WRITTEN = ", compiled by x10c"
MOST_FUNCTIONS, MOST_INSTRUCTIONS, MOST_STEPS = 256, 4096, 2**48


@dataclass
class Text:
    """The lines of a text, for each the span that it comes from, for each function its bound, and the names in the source."""

    lines: list[str] = field(default_factory=list)
    spans: list[Optional[Span]] = field(default_factory=list)
    functions: list[Function] = field(default_factory=list)
    bounds: list[int] = field(default_factory=list)
    uses: list[Use] = field(default_factory=list)

    def add(self, line: str, span: Optional[Span] = None) -> None:
        self.lines.append(line)
        self.spans.append(span)

    def text(self) -> str:
        return "".join(line + "\n" for line in self.lines)


def in_order(codes: list[Code]) -> list[Code]:
    """A function stands behind those that it calls or goes to; one that leads to itself has no place."""
    done: list[Code] = []
    open_: list[Function] = []
    by_function = {code.function: code for code in codes}

    def visit(code: Code) -> None:
        if code in done:
            return
        open_.append(code.function)
        for it in code.instrs:
            if it.op in ("CALL", "AT") and isinstance(it.number, Function):
                if it.number in open_:
                    names = [other.name for other in open_[open_.index(it.number):]] + [it.number.name]
                    cause = f"`{it.number.name}` calls itself" if len(names) == 2 else f"this leads back: {' -> '.join(names)}"
                    raise Fault(it.span, cause,
                                "Begin it by `async` in a `finish`, with an object for the result: only activities recur.")
                visit(by_function[it.number])
        open_.pop()
        done.append(code)

    for code in codes:
        visit(code)
    return done


class Writer:
    def __init__(self, source: Source, program: tree.Program, codes: list[Code], main: Function, facts: Facts) -> None:
        self.source, self.program, self.main, self.facts = source, program, main, facts
        self.codes = in_order(codes)
        self.numbers = {code.function: number for number, code in enumerate(self.codes)}
        self.classes = {it.name: it.number for it in program.classes}
        self.ints: dict[int, int] = {}
        self.texts: dict[str, int] = {}
        self.out = Text()

    def written(self) -> Text:
        if len(self.codes) > MOST_FUNCTIONS:
            raise Fault(self.codes[-1].function.span,
                        f"the program has {len(self.codes)} functions, with the bodies of at and async",
                        f"At most {MOST_FUNCTIONS}: let several have one def.")
        bodies = Text()
        for code in self.codes:
            self.function(code, bodies)
        out = self.out
        name = self.source.name.rpartition("/")[2].replace("\n", " ")
        out.add(f"; {name}{WRITTEN}")
        if any(it.op == "ATOMB" for code in self.codes for it in code.instrs):
            out.add("version 2")
        out.add(f"places {least_places(self.codes)}")
        for it in self.program.classes:
            kinds = [self.kind(at.type, it, at.number).replace("here:", "gref:") for at in it.fields]
            out.add(" ".join(["class", *kinds]), it.span)
        for number in self.ints:
            out.add(f"int {number}")
        for text in self.texts:
            escaped = text.replace("\\", "\\\\").replace('"', '\\"').replace("\n", "\\n")
            out.add(f'text "{escaped}"')
        for line, span in zip(bodies.lines, bodies.spans):
            out.add(line, span)
        out.add(f"entry {self.numbers[self.main]}")
        out.functions = [code.function for code in self.codes]
        return out

    def kind(self, type_: Type, owner: object, number: int) -> str:
        """The kind of a parameter (its number), a result (NONE) or a field."""
        plain = {"Int": "int", "Boolean": "int", "String": "text", "Place": "place", "Rail": "rail",
                 "void": "none"}.get(type_.name)
        if plain:
            return plain
        if type_.name == "class":
            return f"{'obj' if self.facts.is_object(owner, number) else 'opt'}:{self.classes[type_.of]}"
        return f"{'here' if self.facts.is_home(owner, number) else 'gref'}:{self.classes[type_.of]}"

    def function(self, code: Code, to: Text) -> None:
        function = code.function
        registers = allocate(code)
        code.instrs = [it for it in code.instrs if it.op != "MOVE" or registers[it.dest] != registers[it.reads[0]]]
        count = sum(it.op != "LABEL" for it in code.instrs)
        if count > MOST_INSTRUCTIONS:
            raise Fault(function.span, f"`{function.name}` has {count} instructions",
                        f"At most {MOST_INSTRUCTIONS}: put a part into a def.")
        self.out.bounds.append(self.bound(code))
        slots = self.number_loops(code)
        kinds = [self.kind(function.result, function, NONE),
                 *(self.kind(it.type, function, at) for at, it in enumerate(function.variables))]
        width = max([1, len(function.variables), *(it + 1 for it in registers.values())])
        to.add(f"; {self.numbers[function]}, line {function.span.line}: {function.full_name()}")
        to.add(" ".join(["func", str(width), str(slots), *kinds]), function.span)
        labels = self.label_names(code)
        for it in code.instrs:
            to.add(f"{labels[it.label]}:" if it.op == "LABEL" else "  " + self.instruction(it, registers, labels), it.span)
        to.add("end", function.span)

    def number_loops(self, code: Code) -> int:
        """Gives each loop its slot, which is its depth, and returns how many there are."""
        depth = most = 0
        for it in code.instrs:
            depth -= it.op == "ENDL"
            it.slot = depth
            depth += it.op == "LOOP"
            most = max(most, depth)
        return most

    def label_names(self, code: Code) -> dict[int, str]:
        """Labels that stand in one place have one name."""
        return {it.label: f"l{number}" for number, it in enumerate([it for it in code.instrs if it.op == "LABEL"], 1)}

    def instruction(self, it: Instr, registers: dict[int, int], labels: dict[int, str]) -> str:
        return " ".join([it.op, *(str(self.operand(form, it, registers, labels)) for form in FORMS[it.op])])

    def operand(self, form: str, it: Instr, registers: dict[int, int], labels: dict[int, str]) -> object:
        """An operand of an instruction, by its letter in the table of forms."""
        if form.isdigit():
            return registers[it.reads[int(form)]]
        if form in "dzrA":
            value = {"d": [it.dest], "z": [it.dest], "r": it.reads, "A": it.arguments()}[form]
            return registers.get(value[0], 0) if value else 0
        if form == "L":
            return f"@{labels[it.label]}"
        if form == "f":
            return self.numbers[it.number] if isinstance(it.number, Function) else 0
        if form == "k":
            return self.ints.setdefault(int(str(it.number)), len(self.ints))
        if form == "t":
            return self.texts.setdefault(str(it.number), len(self.texts))
        return it.slot if form == "s" else self.classes[str(it.number)] if form == "c" else it.number

    def bound(self, code: Code) -> int:
        """The most steps that a function takes."""
        total, turns = 0, [1]
        for it in code.instrs:
            if it.op in ("CALL", "AT") and isinstance(it.number, Function):
                total += turns[-1] * self.out.bounds[self.numbers[it.number]]
            total += turns[-1] if it.op != "LABEL" else 0
            if it.op == "LOOP":
                turns.append(turns[-1] * int(str(it.number)))
            elif it.op == "ENDL":
                turns.pop()
        if total > MOST_STEPS:
            raise Fault(code.function.span, f"`{code.function.name}` could take {total} steps",
                        "At most 2^48: give its loops smaller bounds, "
                        "or put turns into activities, which have bounds of their own.")
        return total
