"""The tree of a program. Parsing makes Name, Member and Apply; names.py says what these are, and puts the nodes for that in
their place, each expression with its type."""

from __future__ import annotations

from dataclasses import dataclass, field
from typing import Optional, Union

from .messages import Span


@dataclass(frozen=True)
class Type:
    """A type by its name; of a class and a GlobalRef also the name of the class."""

    name: str
    of: str = ""

    def __str__(self) -> str:
        return self.of if self.name == "class" else f"{self.name}[{self.of}]" if self.of else self.name

    def told(self) -> str:
        """With its article."""
        if self == VOID:
            return "a call without a value"
        return f"an {self}" if str(self)[0] in "AEIOUaeiou" else f"a {self}"


INT, BOOLEAN, STRING, PLACE = Type("Int"), Type("Boolean"), Type("String"), Type("Place")
RAIL, NULL, VOID, PLACES = Type("Rail", "Byte"), Type("null"), Type("void"), Type("Place.places()")
Constant = Union[int, bool, str, None]
# a name in a source: its span, that of its declaration, and what it is
Use = tuple[Span, Span, str]


@dataclass(eq=False)
class Variable:
    """A local variable or a parameter. One with a constant needs no register. `range` is from which to which number a variable
    of a loop goes, and of a val that is a new rail 0 and its length; else it says nothing."""

    name: str
    type: Type
    is_var: bool
    span: Span
    constant: Constant = None
    range: tuple[int, int] = (-1, 0)


@dataclass(eq=False)
class TypeName:
    span: Span
    name: str
    argument: str = ""


@dataclass(eq=False)
class Node:
    span: Span


@dataclass(eq=False)
class Expr(Node):
    type: Type = field(default=VOID, init=False)


# As they are read.
@dataclass(eq=False)
class Name(Expr):
    name: str


@dataclass(eq=False)
class Member(Expr):
    of: Expr
    name: str
    name_span: Span


@dataclass(eq=False)
class Apply(Expr):
    of: Expr
    arguments: list[Expr]


@dataclass(eq=False)
class New(Expr):
    class_name: str
    arguments: list[Expr]


# Read, and typed later.
@dataclass(eq=False)
class Literal(Expr):
    """A number, a truth value, a text, or null, whose value is None."""

    value: Constant


@dataclass(eq=False)
class Here(Expr):
    pass


@dataclass(eq=False)
class Unary(Expr):
    op: str
    of: Expr


@dataclass(eq=False)
class Binary(Expr):
    op: str
    left: Expr
    right: Expr


@dataclass(eq=False)
class NewRail(Expr):
    size: Expr


@dataclass(eq=False)
class MakeRef(Expr):
    """GlobalRef(x), or GlobalRef[C](x)."""

    class_name: str
    of: Expr


@dataclass(eq=False)
class AtValue(Expr):
    """at (place) value; what it captures is in `call` after lifting."""

    place: Expr
    value: Expr
    call: Optional[Going] = field(default=None, init=False)


# Made from names, members and applications.
@dataclass(eq=False)
class Local(Expr):
    variable: Variable


@dataclass(eq=False)
class FieldOf(Expr):
    of: Expr
    field: Field


@dataclass(eq=False)
class NewObject(Expr):
    class_: Class
    fields: list[Expr]


@dataclass(eq=False)
class Call(Expr):
    function: Function
    arguments: list[Expr]


@dataclass(eq=False)
class Index(Expr):
    rail: Expr
    index: Expr


@dataclass(eq=False)
class Property(Expr):
    """What one instruction gives of a value or of the run: RLEN, TLEN, PLACEI, NEXTP, HOME, GOPEN, COUNT or PLACEN."""

    op: str
    of: Optional[Expr]


@dataclass(eq=False)
class Going:
    """What an `at` or `async` becomes: a function, and what is passed to it."""

    function: Function
    arguments: list[Expr]


@dataclass(eq=False)
class Stmt(Node):
    pass


@dataclass(eq=False)
class Block(Stmt):
    body: list[Stmt]


@dataclass(eq=False)
class Declare(Stmt):
    name: str
    is_var: bool
    type_name: Optional[TypeName]
    value: Optional[Expr]
    variable: Optional[Variable] = field(default=None, init=False)


@dataclass(eq=False)
class Assign(Stmt):
    """target := value, or target := target op value where there is an op."""

    target: Expr
    op: str
    value: Expr


@dataclass(eq=False)
class Evaluate(Stmt):
    of: Expr


@dataclass(eq=False)
class Print(Stmt):
    of: Expr


@dataclass(eq=False)
class If(Stmt):
    condition: Expr
    then: Stmt
    other: Optional[Stmt]


@dataclass(eq=False)
class Loop(Stmt):
    """A `for` over numbers or places (no `last`), or a `while`. `bound` is how many turns it makes at most."""

    name: str
    first: Expr
    last: Optional[Expr]
    stated: Optional[Expr]
    body: Stmt
    name_span: Span
    variable: Optional[Variable] = field(default=None, init=False)
    bound: int = field(default=0, init=False)
    is_used: bool = field(default=False, init=False)


@dataclass(eq=False)
class While(Stmt):
    condition: Expr
    stated: Optional[Expr]
    body: Stmt
    bound: int = field(default=0, init=False)


@dataclass(eq=False)
class Leave(Stmt):
    """break, continue, or return with or without a value."""

    word: str
    value: Optional[Expr]


@dataclass(eq=False)
class Region(Stmt):
    """finish or atomic."""

    word: str
    body: Stmt


@dataclass(eq=False)
class Async(Stmt):
    """async, or at (p) async, or async at (p): then with a place, after lifting."""

    place: Optional[Expr]
    body: Stmt
    call: Optional[Going] = field(default=None, init=False)


@dataclass(eq=False)
class At(Stmt):
    """`is_spawn`: its body is an async, so it begins there and nobody goes along."""

    place: Expr
    body: Stmt
    call: Optional[Going] = field(default=None, init=False)
    is_spawn: bool = field(default=False, init=False)


@dataclass(eq=False)
class Field:
    name: str
    type_name: TypeName
    is_var: bool
    value: Optional[Expr]
    span: Span
    type: Type = field(default=VOID, init=False)
    number: int = field(default=0, init=False)


@dataclass(eq=False)
class Parameter:
    name: str
    type_name: TypeName
    span: Span


@dataclass(eq=False)
class Function:
    """A def, or the body of an at or async. `level` names the class that it is in, if any."""

    name: str
    parameters: list[Parameter]
    result_name: Optional[TypeName]
    body: Stmt
    span: Span
    class_name: str = ""
    variables: list[Variable] = field(default_factory=list, init=False)
    result: Type = field(default=VOID, init=False)
    is_lifted: bool = field(default=False, init=False)

    def signature(self) -> str:
        result = "" if self.result == VOID else f": {self.result}"
        return f"def {self.name}({', '.join(f'{it.name}: {it.type}' for it in self.variables)}){result}"

    def full_name(self) -> str:
        return f"{self.class_name}.{self.name}" if self.class_name else self.name


@dataclass(eq=False)
class Static:
    """A constant: static val NAME = value."""

    name: str
    value: Expr
    span: Span
    class_name: str = ""


@dataclass(eq=False)
class Class:
    name: str
    fields: list[Field]
    span: Span
    number: int = field(default=0, init=False)


@dataclass
class Program:
    classes: list[Class]
    functions: list[Function]
    statics: list[Static]
