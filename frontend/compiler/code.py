"""Writes the instructions of a function: its statements, with the regions and loops around them."""

from __future__ import annotations

from . import tree
from .ir import NONE, Code, Instr
from .lifting import single
from .messages import Fault, Span
from .tree import BOOLEAN, INT, PLACE, STRING, VOID, Expr, Stmt
from .values import LoopFrame, RegionFrame, Values

MOST_LOOPS = 8


class Lowering(Values):
    def lowered(self) -> Code:
        self.stmt(self.function.body)
        span, base = self.function.span, self.region()
        if self.function.result == VOID:
            self.put(base.end, span)
            self.emit("RET", span)
            self.handle(base)
            self.emit("RET", span)
        elif self.has_default():
            self.handle(base)
            # (here a way ends that no run takes, too)
            self.put(base.end, span)
            self.emit("RET", span, reads=self.default_result())
        return self.code

    # --- statements

    def stmt(self, it: Stmt) -> None:
        getattr(self, "stmt_" + type(it).__name__.lower())(it)

    def stmt_block(self, it: tree.Block) -> None:
        for part in it.body:
            self.stmt(part)

    def stmt_declare(self, it: tree.Declare) -> None:
        variable, value = it.variable, it.value
        assert variable is not None and value is not None
        if variable.constant is not None:
            return
        # (one val that is another val shares its value)
        is_shared = not it.is_var and isinstance(value, tree.Local) and not value.variable.is_var
        self.values[variable] = self.value(value) if is_shared else self.value(value, self.fresh(value.type))

    def stmt_assign(self, it: tree.Assign) -> None:
        target = it.target
        if isinstance(target, tree.Local):
            value = self.values[target.variable]
            if it.op:
                self.operation(target, it.op, value, self.value(it.value), value, it.value)
            else:
                self.value(it.value, value)
        elif isinstance(target, tree.FieldOf):
            of = self.value(target.of)
            old = NONE
            if it.op:
                old = self.make("GET", target, NONE, [of], target.field.number)
                self.mark(target.of)
            self.emit("PUT", it.span, reads=[of, self.assigned(it, old)], number=target.field.number)
            self.mark(target.of)
        elif isinstance(target, tree.Index):
            rail, index = self.value(target.rail), self.value(target.index)
            outside = self.outside(target)
            old = self.make("RGET", target, NONE, [rail, index], label=outside) if it.op else NONE
            self.emit("RSET", it.span, reads=[rail, index, self.assigned(it, old)], label=outside)

    def assigned(self, it: tree.Assign, old: int) -> int:
        value = self.value(it.value)
        return value if old == NONE else self.operation(it.target, it.op, old, value, NONE, it.value)

    def stmt_evaluate(self, it: tree.Evaluate) -> None:
        self.value(it.of)

    def stmt_print(self, it: tree.Print) -> None:
        if it.of.type == BOOLEAN:
            text, no, out = self.fresh(STRING), self.label(), self.label()
            self.branch(it.of, no, False)
            self.emit("TEXTK", it.span, text, number="true")
            self.emit("JMP", it.span, label=out)
            self.put(no, it.span)
            self.emit("TEXTK", it.span, text, number="false")
            self.put(out, it.span)
            self.emit("PRINT", it.span, reads=[text])
        else:
            self.emit("PRINT", it.span, reads=[self.value(it.of)])

    def stmt_if(self, it: tree.If) -> None:
        out, then = self.label(), single(it.then)
        loops = [at for at in self.frames if isinstance(at, LoopFrame)]
        if it.other is None and isinstance(then, tree.Leave) and then.word != "return" and self.frames[-1] is loops[-1]:
            self.branch(it.condition, loops[-1].done if then.word == "break" else loops[-1].again, True)
            return
        first, second, when = it.then, it.other, False
        if it.other is not None and self.jumps_when(it.condition):
            first, second, when = it.other, it.then, True
        behind = self.label()
        self.branch(it.condition, behind, when)
        self.stmt(first)
        if second is not None:
            self.emit("JMP", it.span, label=out)
        self.put(behind, it.span)
        if second is not None:
            self.stmt(second)
        self.put(out, it.span)

    def begin_loop(self, it: Stmt, turns: int) -> LoopFrame:
        if sum(isinstance(at, LoopFrame) for at in self.frames) == MOST_LOOPS:
            raise Fault(it.span, f"the loops nest {MOST_LOOPS + 1} deep", f"At most {MOST_LOOPS}: put the inner ones into a def.")
        frame, self.head = LoopFrame(self.label(), self.label()), self.label()
        self.emit("LOOP", it.span, number=turns)
        self.frames.append(frame)
        self.put(self.head, it.span)
        return frame

    def end_loop(self, it: Stmt, head: int) -> None:
        self.emit("ENDL", it.span, label=head)
        self.frames.pop()

    def stmt_loop(self, it: tree.Loop) -> None:
        assert it.variable is not None
        if it.bound == 0:
            return
        value = self.values[it.variable] = self.fresh(it.variable.type)
        if it.last is None:
            self.places_loop(it, value)
        elif isinstance(it.first, tree.Literal) and isinstance(it.last, tree.Literal):
            self.counted_loop(it, value)
        else:
            self.range_loop(it, value, it.last)

    def counted_loop(self, it: tree.Loop, value: int) -> None:
        assert isinstance(it.first, tree.Literal)
        if it.is_used:
            self.emit("INTK", it.span, value, number=(int(it.first.value or 0) - 1 + 2**63) % 2**64 - 2**63)
        frame = self.begin_loop(it, it.bound)
        head = self.head
        if it.is_used:
            self.emit("ADD", it.span, value, [value, self.constant(it.span, 1)])
        self.stmt(it.body)
        self.put(frame.again, it.span)
        self.end_loop(it, head)
        self.put(frame.done, it.span)

    def range_loop(self, it: tree.Loop, value: int, last: Expr) -> None:
        """The number before the next one is kept, so that the last number there is makes no turn too many."""
        if isinstance(it.first, tree.Literal):
            self.emit("INTK", it.span, value, number=(int(it.first.value or 0) - 1 + 2**63) % 2**64 - 2**63)
        else:
            first = self.value(it.first)
            self.emit("SUB", it.span, value, [first, self.constant(it.span, 1)])
        is_var = isinstance(last, tree.Local) and last.variable.is_var
        end = self.value(last, self.fresh(INT)) if is_var else self.value(last)
        frame = self.begin_loop(it, it.bound)
        head, test = self.head, self.fresh(INT)
        self.emit("LT", it.span, test, [value, end])
        self.emit("JZ", it.span, reads=[test], label=frame.done)
        self.emit("ADD", it.span, value, [value, self.constant(it.span, 1)])
        self.stmt(it.body)
        self.put(frame.again, it.span)
        self.end_loop(it, head)
        # (behind the last turn the number is at most the end of the range)
        self.emit("EQ", it.span, test, [value, end])
        self.emit("JZ", it.span, reads=[test], label=self.failing(last, f"the loop makes more than {it.bound} turns"))
        self.put(frame.done, it.span)

    def places_loop(self, it: tree.Loop, value: int) -> None:
        zero = self.emit("PLACEK", it.span, self.fresh(PLACE))
        self.emit("PLACEK", it.span, value)
        frame, on = self.begin_loop(it, it.bound), self.label()
        head = self.head
        self.stmt(it.body)
        self.put(frame.again, it.span)
        self.emit("NEXTP", it.span, value, [value])
        self.emit("IFSAME", it.span, reads=[value, zero], label=on)
        self.emit("JMP", it.span, label=frame.done)
        self.put(on, it.span)
        self.end_loop(it, head)
        self.put(frame.done, it.span)

    def stmt_while(self, it: tree.While) -> None:
        frame = self.begin_loop(it, it.bound)
        head = self.head
        self.branch(it.condition, frame.done, False)
        self.stmt(it.body)
        self.put(frame.again, it.span)
        self.end_loop(it, head)
        self.branch(it.condition, self.failing(it.condition, f"the loop makes more than {it.bound} turns"), True)
        self.put(frame.done, it.span)

    def stmt_leave(self, it: tree.Leave) -> None:
        if it.word == "return":
            if it.value is not None and all(isinstance(at, LoopFrame) for at in self.frames[1:]):
                self.emit("RET", it.span, reads=[self.value(it.value)])
                return
            if it.value is not None:
                if not self.has_default():
                    raise Fault(it.span, f"{self.function.result.told()} is returned out of `{self.region().word}`",
                                "Put it into an object of a class, or return it behind the end.")
                self.value(it.value, self.result_value())
            self.go(NONE, 0, it.span)
            return
        depth = max(at for at, frame in enumerate(self.frames) if isinstance(frame, LoopFrame))
        loop = self.frames[depth]
        assert isinstance(loop, LoopFrame)
        self.go(loop.done if it.word == "break" else loop.again, depth, it.span)

    def stmt_async(self, it: tree.Async) -> None:
        assert it.call is not None
        place = [self.value(it.place)] if it.place else []
        self.emit("ATA" if it.place else "ASYNC", it.span, reads=[*place, *self.values_of(it.call.arguments)],
                  number=it.call.function)

    def stmt_at(self, it: tree.At) -> None:
        assert it.call is not None
        reads = [self.value(it.place), *self.values_of(it.call.arguments)]
        self.emit("ATA" if it.is_spawn else "AT", it.span, NONE, reads, it.call.function)

    def stmt_region(self, it: tree.Region) -> None:
        frame = RegionFrame(it.word, self.label(), len(self.code.instrs))
        self.emit("FINB" if it.word == "finish" else "ATOMB", it.span)
        self.frames.append(frame)
        self.stmt(it.body)
        if frame.handlers:
            self.emit("JMP", it.span, label=frame.end)
            self.handle(frame)
        self.put(frame.end, it.span)
        self.emit("FINE" if it.word == "finish" else "ATOME", it.span)
        self.frames.pop()
        if frame.code != NONE:
            self.code.instrs.insert(frame.start, Instr("INTK", it.span, frame.code))
        if (NONE, 0) in frame.exits and self.function.result != VOID and self.region().word == "":
            self.make_default(self.result_value(), self.function.result, it.span, self.code.instrs, frame.start)
        self.take_exits(frame, it.span)

    def take_exits(self, frame: RegionFrame, span: Span) -> None:
        for number, (label, depth) in enumerate(frame.exits, 1):
            on, test = self.label(), frame.code
            if len(frame.exits) > 1:
                test = self.emit("EQ", span, self.fresh(INT), [frame.code, self.constant(span, number)])
            self.emit("JZ", span, reads=[test], label=on)
            self.go(label, depth, span)
            self.put(on, span)
