"""Makes a function of each body of an at or async (lambda lifting): its parameters are the variables that the body captures.
Where the body is a call whose arguments can be computed before, there is no function: the called one is started at once."""

from __future__ import annotations

from typing import Iterator, Optional, Union

from . import tree
from .messages import Fault, Span
from .expressions import MOST_PARAMETERS
from .tree import VOID, Expr, Function, Stmt, Type

Part = Union[Expr, Stmt]


def parts(it: object) -> Iterator[Part]:
    """The expressions and statements directly in a node; of an at or async also its body."""
    for name, value in vars(it).items():
        if name == "call":
            continue
        for part in value if isinstance(value, list) else [value]:
            if isinstance(part, (Expr, Stmt)):
                yield part


def locals_in(it: Part) -> Iterator[tree.Local]:
    """Each use of a variable, in the order of the text."""
    if isinstance(it, tree.Local):
        yield it
    for part in parts(it):
        yield from locals_in(part)


def declared_in(it: Part) -> Iterator[tree.Variable]:
    if isinstance(it, (tree.Declare, tree.Loop)) and it.variable is not None:
        yield it.variable
    for part in parts(it):
        yield from declared_in(part)


def is_early(it: Expr, is_here: bool) -> bool:
    """Whether an expression has the same value when it is computed before the activity begins or goes, and can't fail."""
    if isinstance(it, tree.Here):
        return is_here
    if isinstance(it, tree.Binary):
        return it.op in ("+", "-", "*") and it.type == tree.INT and is_early(it.left, is_here) and is_early(it.right, is_here)
    if isinstance(it, tree.Unary):
        return it.op == "-" and is_early(it.of, is_here)
    if isinstance(it, tree.Property):
        if it.op == "PLACEN":
            return isinstance(it.of, tree.Literal)
        return it.op in ("PLACEI", "NEXTP", "HOME", "COUNT") and (it.of is None or is_early(it.of, is_here))
    return isinstance(it, tree.Literal) or isinstance(it, tree.Local) and not it.variable.is_var


def single(it: Stmt) -> Stmt:
    """The statement that a block consists of."""
    while isinstance(it, tree.Block) and len(it.body) == 1:
        it = it.body[0]
    return it


class Lifter:
    def __init__(self) -> None:
        self.lifted: list[Function] = []
        self.function: Optional[Function] = None

    def lift(self, function: Function) -> None:
        self.function = function
        self.visit(function.body)

    def visit(self, it: Part) -> None:
        if isinstance(it, tree.Async):
            self.visit_async(it)
        elif isinstance(it, tree.At):
            self.visit(it.place)
            body = single(it.body)
            it.is_spawn = isinstance(body, tree.Async)
            it.call = self.going("at", body.body if isinstance(body, tree.Async) else body, it.span)
        elif isinstance(it, tree.AtValue):
            self.visit(it.place)
            it.call = self.going("at", tree.Leave(it.value.span, "return", it.value), it.span, it.type)
        else:
            for part in parts(it):
                self.visit(part)

    def visit_async(self, it: tree.Async) -> None:
        """`async at (p) S` is one instruction where p can be computed before."""
        body = single(it.body)
        if isinstance(body, tree.At) and is_early(body.place, True):
            self.refuse_vars("async", body.place, set())
            it.place, it.body = body.place, body.body
        it.call = self.going("at" if it.place else "async", it.body, it.span)

    def going(self, word: str, body: Stmt, span: Span, result: Type = VOID) -> tree.Going:
        """The function of a body, and what is passed to it."""
        inside = set(declared_in(body))
        self.refuse_vars(word, body, inside)
        call = self.called(body)
        if call is not None and all(is_early(it, word == "async") for it in call.arguments):
            return tree.Going(call.function, call.arguments)
        captured: dict[tree.Variable, Expr] = {}
        for it in locals_in(body):
            if it.variable not in inside:
                captured.setdefault(it.variable, it)
        if len(captured) > MOST_PARAMETERS:
            raise Fault(span, f"the body of `{word}` uses {len(captured)} variables from outside",
                        f"At most {MOST_PARAMETERS} are copied: put some into an object.")
        assert self.function is not None
        made = Function(f"{word} in {self.function.name}", [], None, body, span)
        made.variables, made.result, made.is_lifted = list(captured), result, True
        self.lifted.append(made)
        outside, self.function = self.function, made
        self.visit(body)
        self.function = outside
        return tree.Going(made, list(captured.values()))

    def called(self, body: Stmt) -> Optional[tree.Call]:
        """The call that a body consists of; a result may not be lost by an async, so it has none then."""
        body = single(body)
        if isinstance(body, tree.Leave):
            return body.value if isinstance(body.value, tree.Call) else None
        is_call = isinstance(body, tree.Evaluate) and isinstance(body.of, tree.Call) and body.of.function.result == VOID
        return body.of if is_call and isinstance(body, tree.Evaluate) and isinstance(body.of, tree.Call) else None

    def refuse_vars(self, word: str, it: Part, inside: set[tree.Variable]) -> None:
        for use in locals_in(it):
            variable = use.variable
            if variable.is_var and variable not in inside:
                raise Fault(use.span, f"`{variable.name}` is a var, and `{word}` captures vals alone",
                            f"Copy it before: `val {variable.name}1 = {variable.name};`. What the body changes is a field of "
                            "an object.")


def lift_all(program: tree.Program) -> list[Function]:
    """All functions of a program, also those that bodies have become."""
    lifter = Lifter()
    for it in program.functions:
        lifter.lift(it)
    return [*program.functions, *lifter.lifted]
