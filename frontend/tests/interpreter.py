"""Runs the tree of a program directly, in one order of its activities: each body of an async runs where it stands. So it says
what a program prints where that doesn't depend on the order. It shares reading and checking with the compiler, nothing else."""

from __future__ import annotations

from typing import Any, Optional

from compiler import tree
from compiler.messages import Source
from compiler.names import Checker
from compiler.parsing import parse

MOST_STEPS = 2_000_000


class Object:
    def __init__(self, fields: list[Any]) -> None:
        self.fields = fields


class Rail:
    def __init__(self, length: int) -> None:
        self.bytes = bytearray(length)


class Reference:
    def __init__(self, home: int, of: Object) -> None:
        self.home, self.of = home, of


class Failed(Exception):
    """An operation failed: the line that is printed."""


class Left(Exception):
    """break, continue or return."""

    def __init__(self, word: str, value: Any) -> None:
        super().__init__(word)
        self.word, self.value = word, value


class TooLong(Exception):
    """The run takes more steps than the tests wait for."""


def copied(value: Any, known: dict[int, Any]) -> Any:
    """A deep copy, with sharing and cycles; a reference is copied without its object."""
    if not isinstance(value, (Object, Rail)):
        return value
    if id(value) not in known:
        if isinstance(value, Rail):
            rail = known[id(value)] = Rail(0)
            rail.bytes = bytearray(value.bytes)
        else:
            made = known[id(value)] = Object([])
            made.fields = [copied(it, known) for it in value.fields]
    return known[id(value)]


def in_64_bits(number: int) -> int:
    number &= 2**64 - 1
    return number - 2**64 if number >= 2**63 else number


Scope = dict[tree.Variable, Any]


class Interpreter:
    def __init__(self, source: Source, places: int) -> None:
        program = parse(source)
        self.main = Checker(program).check()
        self.name = source.name.rpartition("/")[2]
        self.places, self.here, self.steps = places, 0, 0
        self.lines: list[list[str]] = [[] for _ in range(places)]

    def run(self) -> list[str]:
        """The lines that the program prints, as x10p shows them: a text that holds line feeds takes several."""
        self.body(self.main.body, {}, tree.VOID)
        told = [f"{place}: {line}\n" for place, lines in enumerate(self.lines) for line in lines]
        return "".join(told).split("\n")[:-1]

    def failed(self, it: tree.Node, what: str) -> Failed:
        return Failed(f"{self.name}:{it.span.line}: {what}")

    # --- bodies

    def body(self, it: Any, scope: Scope, result: tree.Type) -> Any:
        """A def, or the body of an at or async: a failure ends it, with a line."""
        try:
            if isinstance(it, tree.Expr):
                return self.value(it, scope)
            self.stmt(it, scope)
        except Left as left:
            return left.value
        except Failed as failed:
            self.lines[self.here].append(str(failed))
        return {"Int": 0, "Boolean": False, "String": "", "Place": self.here}.get(result.name)

    def at(self, place: int, it: Any, scope: Scope, result: tree.Type) -> Any:
        known: dict[int, Any] = {}
        there = {variable: copied(value, known) for variable, value in scope.items()}
        before, self.here = self.here, place
        value = self.body(it, there, result)
        self.here = before
        return copied(value, {})

    # --- statements

    def stmt(self, it: tree.Stmt, scope: Scope) -> None:
        self.steps += 1
        if self.steps > MOST_STEPS:
            raise TooLong()
        getattr(self, "do_" + type(it).__name__.lower())(it, scope)

    def do_block(self, it: tree.Block, scope: Scope) -> None:
        for part in it.body:
            self.stmt(part, scope)

    def do_declare(self, it: tree.Declare, scope: Scope) -> None:
        assert it.variable is not None and it.value is not None
        scope[it.variable] = self.value(it.value, scope)

    def do_assign(self, it: tree.Assign, scope: Scope) -> None:
        target = it.target
        if isinstance(target, tree.Local):
            scope[target.variable] = self.assigned(it, scope.get(target.variable), scope)
        elif isinstance(target, tree.FieldOf):
            of = self.value(target.of, scope)
            of.fields[target.field.number] = self.assigned(it, of.fields[target.field.number], scope)
        elif isinstance(target, tree.Index):
            rail, index = self.value(target.rail, scope), self.value(target.index, scope)
            old = self.byte(target, rail, index) if it.op else 0
            value = self.assigned(it, old, scope)
            self.byte(target, rail, index)
            rail.bytes[index] = value % 256

    def assigned(self, it: tree.Assign, old: Any, scope: Scope) -> Any:
        value = self.value(it.value, scope)
        return self.operation(it.target, it.op, old, value) if it.op else value

    def do_evaluate(self, it: tree.Evaluate, scope: Scope) -> None:
        self.value(it.of, scope)

    def do_print(self, it: tree.Print, scope: Scope) -> None:
        value = self.value(it.of, scope)
        self.lines[self.here].append(str(value).lower() if isinstance(value, bool) else str(value))

    def do_if(self, it: tree.If, scope: Scope) -> None:
        if self.value(it.condition, scope):
            self.stmt(it.then, scope)
        elif it.other:
            self.stmt(it.other, scope)

    def turn(self, body: tree.Stmt, scope: Scope) -> bool:
        """One turn of a loop; whether there is a next one."""
        try:
            self.stmt(body, scope)
        except Left as left:
            if left.word == "return":
                raise
            return left.word == "continue"
        return True

    def do_loop(self, it: tree.Loop, scope: Scope) -> None:
        assert it.variable is not None
        if it.last is None:
            numbers = range(self.places)
        else:
            first = self.value(it.first, scope)
            numbers = range(first, self.value(it.last, scope) + 1)
        for turns, number in enumerate(numbers):
            if turns == it.bound:
                raise self.failed(it.last or it.first, f"the loop makes more than {it.bound} turns")
            scope[it.variable] = number
            if not self.turn(it.body, scope):
                return

    def do_while(self, it: tree.While, scope: Scope) -> None:
        turns = 0
        while self.value(it.condition, scope):
            if turns == it.bound:
                raise self.failed(it.condition, f"the loop makes more than {it.bound} turns")
            turns += 1
            if not self.turn(it.body, scope):
                return

    def do_leave(self, it: tree.Leave, scope: Scope) -> None:
        raise Left(it.word, self.value(it.value, scope) if it.value else None)

    def do_region(self, it: tree.Region, scope: Scope) -> None:
        self.stmt(it.body, scope)

    def do_async(self, it: tree.Async, scope: Scope) -> None:
        self.body(it.body, dict(scope), tree.VOID)

    def do_at(self, it: tree.At, scope: Scope) -> None:
        self.at(self.value(it.place, scope), it.body, scope, tree.VOID)

    # --- expressions

    def value(self, it: tree.Expr, scope: Scope) -> Any:
        return getattr(self, "of_" + type(it).__name__.lower())(it, scope)

    def of_literal(self, it: tree.Literal, scope: Scope) -> Any:
        return it.value

    def of_local(self, it: tree.Local, scope: Scope) -> Any:
        return scope[it.variable]

    def of_here(self, it: tree.Here, scope: Scope) -> Any:
        return self.here

    def of_unary(self, it: tree.Unary, scope: Scope) -> Any:
        value = self.value(it.of, scope)
        return not value if it.op == "!" else in_64_bits(-value)

    def of_binary(self, it: tree.Binary, scope: Scope) -> Any:
        left = self.value(it.left, scope)
        if it.op == "&&":
            return left and self.value(it.right, scope)
        if it.op == "||":
            return left or self.value(it.right, scope)
        right = self.value(it.right, scope)
        if it.left.type.name in ("class", "null"):
            return (left is right) == (it.op == "==")
        return self.operation(it, it.op, left, right)

    def operation(self, it: tree.Expr, op: str, left: Any, right: Any) -> Any:
        if isinstance(left, str):
            if len((left + right).encode("utf-8")) > 65_535:
                raise self.failed(it, "the text is too long")
            return left + right
        if op in ("/", "%"):
            return self.divided(it, op, left, right)
        if op in ("+", "-", "*"):
            return in_64_bits(left + right if op == "+" else left - right if op == "-" else left * right)
        return {"<": left < right, ">": left > right, "<=": left <= right, ">=": left >= right, "==": left == right,
                "!=": left != right}[op]

    def divided(self, it: tree.Expr, op: str, left: int, right: int) -> int:
        if right == 0:
            raise self.failed(it, "division by zero")
        whole = left // right
        if whole < 0 and whole * right != left:
            whole += 1
        return in_64_bits(whole if op == "/" else left - whole * right)

    def of_fieldof(self, it: tree.FieldOf, scope: Scope) -> Any:
        return self.value(it.of, scope).fields[it.field.number]

    def of_newobject(self, it: tree.NewObject, scope: Scope) -> Any:
        return Object([self.value(field, scope) for field in it.fields])

    def of_newrail(self, it: tree.NewRail, scope: Scope) -> Any:
        size = self.value(it.size, scope)
        if not 0 <= size <= 65_535:
            raise self.failed(it, "no rail has this length")
        return Rail(size)

    def of_makeref(self, it: tree.MakeRef, scope: Scope) -> Any:
        return Reference(self.here, self.value(it.of, scope))

    def of_call(self, it: tree.Call, scope: Scope) -> Any:
        values = [self.value(given, scope) for given in it.arguments]
        return self.body(it.function.body, dict(zip(it.function.variables, values)), it.function.result)

    def of_atvalue(self, it: tree.AtValue, scope: Scope) -> Any:
        return self.at(self.value(it.place, scope), it.value, scope, it.type)

    def of_index(self, it: tree.Index, scope: Scope) -> Any:
        return self.byte(it, self.value(it.rail, scope), self.value(it.index, scope))

    def byte(self, it: tree.Node, rail: Rail, index: int) -> int:
        if not 0 <= index < len(rail.bytes):
            raise self.failed(it, "the index is outside of the rail")
        return rail.bytes[index]

    def of_property(self, it: tree.Property, scope: Scope) -> Any:
        of = self.value(it.of, scope) if it.of else None
        if it.op == "PLACEN" and not 0 <= of < self.places:
            raise self.failed(it, "there is no such place")
        if it.op == "GOPEN":
            assert of.home == self.here
            return of.of
        if it.op == "COUNT":
            return self.places
        if it.op in ("RLEN", "TLEN"):
            return len(of.bytes if it.op == "RLEN" else of.encode("utf-8"))
        return {"NEXTP": (of + 1) % self.places, "PLACEN": of, "PLACEI": of}[it.op] if it.op != "HOME" else of.home


def interpreted(source: Source, places: int) -> Optional[list[str]]:
    """The lines of a run; None where it takes too long."""
    try:
        return Interpreter(source, places).run()
    except TooLong:
        return None
