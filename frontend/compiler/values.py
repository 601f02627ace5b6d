"""Writes the instructions of expressions and conditions, with values in place of registers. Nothing is thrown: where an operation
fails, the code goes to a handler, which prints a line and ends the function; in a finish or atomic it goes to the end of that
first."""

from __future__ import annotations

from dataclasses import dataclass, field
from typing import Optional, Union

from . import tree
from .ir import NONE, Code, Instr
from .messages import Fault, Source, Span
from .tree import BOOLEAN, INT, PLACE, STRING, VOID, Expr, Function, Type




@dataclass(eq=False)
class LoopFrame:
    again: int
    done: int


@dataclass(eq=False)
class RegionFrame:
    """A finish or atomic, or the whole function. `code` is a value that says which of the exits is taken behind its end: 0 none.
    An exit is a label and how many frames are around it; of a return the label is NONE."""

    word: str
    end: int
    start: int
    code: int = NONE
    exits: list[tuple[int, int]] = field(default_factory=list)
    handlers: dict[str, tuple[int, Span]] = field(default_factory=dict)


class Values:
    """What is written so far, what is around it, and how expressions are written."""

    def __init__(self, source: Source, function: Function) -> None:
        self.source, self.function = source, function
        self.code = Code(function)
        self.labels = 0
        self.values: dict[tree.Variable, int] = {it: self.fresh(it.type) for it in function.variables}
        self.frames: list[Union[LoopFrame, RegionFrame]] = [RegionFrame("", self.label(), 0)]
        self.result = NONE


    # --- what is written

    def fresh(self, type_: Type) -> int:
        self.code.types.append(type_)
        return len(self.code.types) - 1

    def label(self) -> int:
        self.labels += 1
        return self.labels

    def put(self, label: int, span: Span) -> None:
        self.code.instrs.append(Instr("LABEL", span, label=label))

    def emit(self, op: str, span: Span, dest: int = NONE, reads: Optional[list[int]] = None, number: object = 0,
             label: int = NONE) -> int:
        self.code.instrs.append(Instr(op, span, dest, reads or [], number, label, safe=self.region().end))
        return dest

    def make(self, op: str, it: Expr, dest: int, reads: Optional[list[int]] = None, number: object = 0, label: int = NONE) -> int:
        """An instruction that gives the value of an expression."""
        return self.emit(op, it.span, dest if dest != NONE else self.fresh(it.type), reads, number, label)

    def mark(self, of: Expr) -> None:
        """Says which expression the last instruction reads or opens."""
        self.code.instrs[-1].of = of.span

    def constant(self, span: Span, number: int) -> int:
        return self.emit("INTK", span, self.fresh(INT), number=number)

    # --- ways out

    def region(self) -> RegionFrame:
        return next(it for it in reversed(self.frames) if isinstance(it, RegionFrame))

    def has_default(self) -> bool:
        return self.function.result.name not in ("GlobalRef", "Rail")

    def default_result(self) -> list[int]:
        type_, span = self.function.result, self.function.span
        if type_ == VOID:
            return []
        value = self.fresh(type_)
        self.make_default(value, type_, span, self.code.instrs)
        return [value]

    def make_default(self, value: int, type_: Type, span: Span, to: list[Instr], at: Optional[int] = None) -> None:
        """Any value of a type that has one."""
        op, number = {"Int": ("INTK", 0), "Boolean": ("INTK", 0), "String": ("TEXTK", ""), "Place": ("HERE", 0)}.get(type_.name,
                                                                                                                     ("NULL",
                                                                                                                      type_.of))
        to.insert(len(to) if at is None else at, Instr(op, span, value, [], number))

    def failing(self, it: Expr, what: str) -> int:
        """Where an operation that fails goes to. The handlers of a region stand before its end."""
        handlers = self.region().handlers
        text = f"{self.source.name.rpartition('/')[2]}:{it.span.line}: {what}"
        if not self.has_default():
            raise Fault(it.span, f"`{self.function.name}` gives {self.function.result.told()}, and here it may have none: {what}",
                        "Put the result into an object of a class, and give that.")
        if text not in handlers:
            handlers[text] = self.label(), it.span
        return handlers[text][0]

    def never(self, it: Expr) -> int:
        """Where an operation would go to that can't fail."""
        if not self.has_default():
            return self.failing(it, "the instruction has a way for failures")
        return self.region().end

    def handle(self, frame: RegionFrame) -> None:
        """Writes the handlers of a region: each prints its line, and the function ends."""
        if not frame.handlers:
            return
        text, tail = self.fresh(STRING), self.label()
        for line, (label, span) in frame.handlers.items():
            self.put(label, span)
            self.emit("TEXTK", span, text, number=line)
            self.emit("JMP", span, label=tail)
        self.put(tail, span)
        self.emit("PRINT", span, reads=[text])
        if frame.word:
            self.go(NONE, 0, span)

    def go(self, label: int, depth: int, span: Span) -> None:
        """Goes to a label with so many frames around it, or returns; out of regions by their ends."""
        for at in range(len(self.frames) - 1, max(depth, 1) - 1, -1):
            frame = self.frames[at]
            if isinstance(frame, RegionFrame):
                if (label, depth) not in frame.exits:
                    frame.exits.append((label, depth))
                if frame.code == NONE:
                    frame.code = self.fresh(INT)
                self.emit("INTK", span, frame.code, number=frame.exits.index((label, depth)) + 1)
                self.emit("JMP", span, label=frame.end)
                return
        if label != NONE:
            self.emit("JMP", span, label=label)
        elif self.function.result == VOID:
            self.emit("RET", span)
        else:
            self.emit("RET", span, reads=[self.result_value()])

    def result_value(self) -> int:
        if self.result == NONE:
            self.result = self.fresh(self.function.result)
        return self.result


    # --- expressions

    def value(self, it: Expr, dest: int = NONE) -> int:
        """The value of an expression; put into `dest` by the last instruction, where that is given."""
        made: int = getattr(self, "value_" + type(it).__name__.lower())(it, dest)
        return made

    def values_of(self, them: list[Expr]) -> list[int]:
        return [self.value(it) for it in them]

    def value_literal(self, it: tree.Literal, dest: int) -> int:
        if it.value is None:
            return self.make("NULL", it, dest, number=it.type.of)
        if isinstance(it.value, str):
            return self.make("TEXTK", it, dest, number=it.value)
        return self.make("INTK", it, dest, number=int(it.value))

    def value_local(self, it: tree.Local, dest: int) -> int:
        value = self.values[it.variable]
        return value if dest in (NONE, value) else self.make("MOVE", it, dest, [value])

    def value_here(self, it: tree.Here, dest: int) -> int:
        return self.make("HERE", it, dest)

    def value_unary(self, it: tree.Unary, dest: int) -> int:
        of = self.value(it.of)
        zero = self.constant(it.span, 0)
        return self.make("EQ", it, dest, [of, zero]) if it.op == "!" else self.make("SUB", it, dest, [zero, of])

    def value_binary(self, it: tree.Binary, dest: int) -> int:
        if it.type == BOOLEAN and (it.op in ("&&", "||") or it.left.type not in (INT, BOOLEAN)):
            return self.chosen(it, dest)
        left, right = self.value(it.left), self.value(it.right)
        return self.operation(it, it.op, left, right, dest, it.right)

    def operation(self, it: Expr, op: str, left: int, right: int, dest: int, divisor: Expr) -> int:
        if op in ("/", "%"):
            is_sure = isinstance(divisor, tree.Literal)
            label = self.never(it) if is_sure else self.failing(it, "division by zero")
            return self.make("DIV" if op == "/" else "REM", it, dest, [left, right], label=label)
        if op == "+" and it.type == STRING:
            return self.make("TCAT", it, dest, [left, right], label=self.failing(it, "the text is too long"))
        if op in ("<=", ">=", "!="):
            first = self.make("EQ" if op == "!=" else "LT", it, NONE, [left, right] if op == ">=" else [right, left])
            return self.make("EQ", it, dest, [first, self.constant(it.span, 0)])
        name = {"+": "ADD", "-": "SUB", "*": "MUL", "<": "LT", ">": "LT", "==": "EQ"}[op]
        return self.make(name, it, dest, [right, left] if op == ">" else [left, right])

    def chosen(self, it: Expr, dest: int) -> int:
        """A truth value by jumps."""
        dest = dest if dest != NONE else self.fresh(BOOLEAN)
        no, out = self.label(), self.label()
        self.branch(it, no, False)
        self.emit("INTK", it.span, dest, number=1)
        self.emit("JMP", it.span, label=out)
        self.put(no, it.span)
        self.emit("INTK", it.span, dest, number=0)
        self.put(out, it.span)
        return dest

    def value_fieldof(self, it: tree.FieldOf, dest: int) -> int:
        made = self.make("GET", it, dest, [self.value(it.of)], it.field.number)
        self.mark(it.of)
        return made

    def value_newobject(self, it: tree.NewObject, dest: int) -> int:
        return self.make("NEW", it, dest, self.values_of(it.fields), it.class_.name)

    def value_call(self, it: tree.Call, dest: int) -> int:
        arguments = self.values_of(it.arguments)
        if it.function.result == VOID:
            return self.emit("CALL", it.span, NONE, arguments, it.function)
        return self.make("CALL", it, dest, arguments, it.function)

    def value_index(self, it: tree.Index, dest: int) -> int:
        rail, index = self.value(it.rail), self.value(it.index)
        return self.make("RGET", it, dest, [rail, index], label=self.outside(it))

    def outside(self, it: tree.Index) -> int:
        """Where an index goes to that is outside of its rail: none is, where the length and the range are known."""
        length = it.rail.variable.range[1] if isinstance(it.rail, tree.Local) else 0
        least, most = it.index.variable.range if isinstance(it.index, tree.Local) else (-1, -1)
        if isinstance(it.index, tree.Literal):
            least = most = int(it.index.value or 0)
        is_sure = 0 <= least and most < length
        return self.never(it) if is_sure else self.failing(it, "the index is outside of the rail")

    def value_newrail(self, it: tree.NewRail, dest: int) -> int:
        size = self.value(it.size)
        is_sure = isinstance(it.size, tree.Literal) and 0 <= int(it.size.value or 0) <= 65_535
        return self.make("RAIL", it, dest, [size],
                         label=self.never(it) if is_sure else self.failing(it, "no rail has this length"))

    def value_makeref(self, it: tree.MakeRef, dest: int) -> int:
        made = self.make("GNEW", it, dest, [self.value(it.of)])
        self.mark(it.of)
        return made

    def value_property(self, it: tree.Property, dest: int) -> int:
        if it.of is None:
            return self.make(it.op, it, dest)
        if it.op == "PLACEN" and isinstance(it.of, tree.Literal):
            return self.make("PLACEK", it, dest, number=it.of.value)
        label = self.failing(it, "there is no such place") if it.op == "PLACEN" else NONE
        made = self.make(it.op, it, dest, [self.value(it.of)], label=label)
        self.mark(it.of)
        return made

    def value_atvalue(self, it: tree.AtValue, dest: int) -> int:
        assert it.call is not None
        place = self.value(it.place)
        return self.make("AT", it, dest, [place, *self.values_of(it.call.arguments)], it.call.function)

    # --- conditions

    def branch(self, it: Expr, to: int, when: bool) -> None:
        """Goes to a label where a condition has this value, and else on."""
        if isinstance(it, tree.Literal):
            if bool(it.value) == when:
                self.emit("JMP", it.span, label=to)
        elif isinstance(it, tree.Unary):
            self.branch(it.of, to, not when)
        elif isinstance(it, tree.Binary) and it.op in ("&&", "||"):
            # `a && b` is false, and `a || b` true, as soon as one of the two is
            if when == (it.op == "||"):
                self.branch(it.left, to, when)
                self.branch(it.right, to, when)
            else:
                on = self.label()
                self.branch(it.left, on, not when)
                self.branch(it.right, to, when)
                self.put(on, it.span)
        else:
            on = self.label()
            jumps_when = self.jumps_when(it)
            self.test(it, to if jumps_when == when else on)
            if jumps_when != when:
                self.emit("JMP", it.span, label=to)
            self.put(on, it.span)

    def jumps_when(self, it: Expr) -> bool:
        """With which value of a condition its test, which is one jump, goes to its label."""
        if isinstance(it, tree.Unary):
            return not self.jumps_when(it.of)
        if not isinstance(it, tree.Binary) or it.op in ("<", ">", "&&"):
            return False
        if it.op in ("==", "!=") and (it.left.type.name == "class" or it.right.type.name == "class" or self.is_zero(it.right)):
            return it.op == "=="
        return it.op not in ("==", "&&")

    def is_zero(self, it: Expr) -> bool:
        return isinstance(it, tree.Literal) and it.value is not None and not isinstance(it.value, str) and int(it.value) == 0

    def test(self, it: Expr, to: int) -> None:
        if not isinstance(it, tree.Binary):
            self.emit("JZ", it.span, reads=[self.value(it)], label=to)
        elif it.left.type.name in ("class", "null"):
            self.test_null(it, it.right if isinstance(it.left, tree.Literal) else it.left, to)
        elif it.left.type == PLACE:
            self.test_place(it, to)
        elif it.op in ("==", "!=") and self.is_zero(it.right):
            self.emit("JZ", it.span, reads=[self.value(it.left)], label=to)
        else:
            left, right = self.value(it.left), self.value(it.right)
            reads = [left, right] if it.op in ("<", ">=", "==", "!=") else [right, left]
            first = self.emit("EQ" if it.op in ("==", "!=") else "LT", it.span, self.fresh(INT), reads)
            self.emit("JZ", it.span, reads=[first], label=to)

    def test_null(self, it: Expr, of: Expr, to: int) -> None:
        """Where a variable is tested, it is known to be an object from then on."""
        value = self.value(of)
        self.emit("IFOBJ", it.span, value if isinstance(of, tree.Local) else self.fresh(of.type), [value], label=to)

    def test_place(self, it: tree.Binary, to: int) -> None:
        sides = [side for side in (it.left, it.right) if not isinstance(side, tree.Here)] or [it.left]
        # (a reference stands for its home)
        values = [self.value(side.of if isinstance(side,
                                                   tree.Property) and side.op == "HOME" and side.of else side) for side in sides]
        self.emit("IFSAME" if len(values) == 2 else "IFHERE", it.span, reads=values, label=to)
