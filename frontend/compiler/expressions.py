"""Says what the names in an expression are and which type it has, or its first fault. Constants are folded."""

from __future__ import annotations

import difflib
from typing import Iterable, NoReturn, Optional

from . import tree
from .messages import Fault, Span
from .tree import BOOLEAN, INT, NULL, PLACE, PLACES, RAIL, STRING, VOID, Constant, Expr, Type

MOST_PARAMETERS, MOST_PLACES = 16, 64
OTHER_NAMES = {"Long": "Int", "int": "Int", "boolean": "Boolean", "string": "String", "Byte": "Int", "UInt": "Int"}
# what is asked of a value behind a dot: its type, the name, whether () follows -> the instruction that gives it, and its type
PROPERTIES = {
    ("Place", "id", False): ("PLACEI", INT), ("Place", "next", True): ("NEXTP", PLACE), ("Rail", "size", False): ("RLEN", INT),
    ("Rail", "length", False): ("RLEN", INT), ("String", "length", True): ("TLEN", INT), ("GlobalRef", "home", False): ("HOME",
                                                                                                                        PLACE),
}


def wrapped(number: int) -> int:
    """A number in 64 bits."""
    return (number + 2**63) % 2**64 - 2**63


def quotient(a: int, b: int) -> int:
    """Truncated toward zero."""
    return wrapped(abs(a) // abs(b) * (1 if (a < 0) == (b < 0) else -1))


def computed(op: str, a: Constant, b: Constant) -> Constant:
    """What an operation gives of two constants; None where it isn't for them."""
    if isinstance(a, str) and isinstance(b, str):
        joined = a + b
        return joined if op == "+" and len(joined.encode("utf-8")) <= 65_535 else None
    if not isinstance(a, int) or not isinstance(b, int):
        return None
    if op in ("/", "%"):
        whole = quotient(a, b) if b else 0
        return None if b == 0 else whole if op == "/" else wrapped(a - whole * b)
    numbers = {"+": a + b, "-": a - b, "*": a * b}
    if op in numbers:
        return wrapped(numbers[op])
    truths = {"<": a < b, ">": a > b, "<=": a <= b, ">=": a >= b, "==": a == b, "!=": a != b, "&&": bool(a and b),
              "||": bool(a or b)}
    return truths[op]


def typed(it: Expr, type_: Type) -> Expr:
    it.type = type_
    return it


def literal(span: Span, value: Constant, type_: Type) -> Expr:
    return typed(tree.Literal(span, value), type_)


def near(name: str, names: Iterable[str], otherwise: str) -> str:
    """A repair that names the nearest one, if any is near."""
    found = difflib.get_close_matches(name, list(names), 1)
    return f"Did you mean `{found[0]}`?" if found else otherwise


class Expressions:
    """The program's names, what is around the expression that is looked at, and the rules of expressions."""

    def __init__(self, program: tree.Program) -> None:
        self.program = program
        self.classes: dict[str, tree.Class] = {}
        self.functions: dict[tuple[str, str], tree.Function] = {}
        self.statics: dict[tuple[str, str], tree.Static] = {}
        self.open_statics: list[tree.Static] = []
        self.scopes: list[dict[str, tree.Variable]] = []
        # the variables that are read somewhere, and those that `val` or `var` declares
        self.used: set[tree.Variable] = set()
        self.declared: set[tree.Variable] = set()
        self.uses: list[tree.Use] = []
        self.class_name = ""
        self.function: Optional[tree.Function] = None
        # of the innermost body of a def, at or async: how many loops are open, and which word it belongs to
        self.loops, self.body_of, self.in_atomic = 0, "", False

    def constant_of(self, it: tree.Static, span: Span) -> Expr:
        """The value of a constant, at a use of it."""
        if it in self.open_statics:
            raise Fault(span, f"`{it.name}` is defined by itself", "Give it a value that doesn't need it.")
        if not isinstance(it.value, tree.Literal) or it.value.type == VOID:
            self.open_statics.append(it)
            outside, self.scopes, class_name, self.class_name = self.scopes, [], self.class_name, it.class_name
            it.value = self.expr(it.value)
            self.scopes, self.class_name = outside, class_name
            self.open_statics.pop()
        if not isinstance(it.value, tree.Literal) or it.value.value is None:
            raise Fault(it.value.span, f"the value of `{it.name}` is no constant",
                        "A static val is a number, a truth value or a text, made from constants.")
        self.uses.append((span, it.span, f"constant {it.name}: {it.value.type}"))
        return literal(span, it.value.value, it.value.type)

    def found(self, name: str) -> Optional[tree.Variable]:
        return next((scope[name] for scope in reversed(self.scopes) if name in scope), None)

    def expr(self, it: Expr) -> Expr:
        made: Expr = getattr(self, "expr_" + type(it).__name__.lower())(it)
        return made

    def wanted(self, it: Expr, type_: Type, what: str) -> Expr:
        """An expression that has to have a type."""
        made = self.expr(it)
        if made.type == NULL and type_.name == "class":
            return typed(made, type_)
        if made.type != type_:
            self.refuse_type(made, type_, what)
        return made

    def refuse_type(self, it: Expr, type_: Type, what: str) -> NoReturn:
        repair = f"Give it {type_.told()}."
        if type_ == STRING and it.type == INT:
            repair = "Nothing turns a number into a text: print them in two lines."
        elif type_ == BOOLEAN and it.type == INT:
            repair = "Compare it, as in `n != 0`."
        elif it.type.name == "GlobalRef" and type_ == Type("class", it.type.of):
            repair = "Open the reference by `()`, at its home."
        elif it.type == PLACES:
            repair = "Places.places() is for loops: `for (p in Place.places()) ..`."
        told = "no value" if it.type == VOID else "null" if it.type == NULL else f"{it.type.told()}"
        raise Fault(it.span, f"{what} is {type_.told()}, and this is {told}", repair)

    def expr_literal(self, it: tree.Literal) -> Expr:
        if isinstance(it.value, int) and not isinstance(it.value, bool) and it.value >= 2**63:
            raise Fault(it.span, "the number is too large", "An Int has 64 bits: at most 9223372036854775807.")
        value = it.value
        return typed(it, NULL if value is None else STRING if isinstance(value, str) else
                     BOOLEAN if isinstance(value, bool) else INT)

    def expr_here(self, it: tree.Here) -> Expr:
        return typed(it, PLACE)

    def told(self, it: tree.Variable) -> str:
        return f"{'var' if it.is_var else 'val'} {it.name}: {it.type}"

    def expr_name(self, it: tree.Name) -> Expr:
        variable = self.found(it.name)
        if variable is not None:
            self.used.add(variable)
            self.uses.append((it.span, variable.span, self.told(variable)))
            if variable.constant is not None:
                return literal(it.span, variable.constant, variable.type)
            return typed(tree.Local(it.span, variable), variable.type)
        static = self.statics.get((self.class_name, it.name)) or self.statics.get(("", it.name))
        if static:
            return self.constant_of(static, it.span)
        names = [name for scope in self.scopes for name in scope] + [name for _, name in self.statics]
        if self.function_named(it.name) or it.name in self.classes:
            raise Fault(it.span, f"`{it.name}` is no value", "Call a def by `()`; make an object by `new`.")
        raise Fault(it.span, f"there is no `{it.name}` here", near(it.name, names, f"Declare it: `val {it.name} = ..;`."))

    def function_named(self, name: str) -> Optional[tree.Function]:
        return self.functions.get((self.class_name, name)) or self.functions.get(("", name))

    def owner(self, it: Expr) -> str:
        """The name of a type that stands before a dot, if it isn't that of a variable."""
        is_type = isinstance(it, tree.Name) and self.found(it.name) is None and (it.name in self.classes or it.name == "Place")
        return it.name if is_type and isinstance(it, tree.Name) else ""

    def expr_member(self, it: tree.Member) -> Expr:
        owner = self.owner(it.of)
        if owner == "Place" and it.name in ("MAX_PLACES", "FIRST_PLACE"):
            zero = literal(it.span, 0, INT)
            is_count = it.name == "MAX_PLACES"
            return typed(tree.Property(it.span, "COUNT" if is_count else "PLACEN", None if is_count else zero),
                         INT if is_count else PLACE)
        if owner:
            if (owner, it.name) in self.statics:
                return self.constant_of(self.statics[owner, it.name], it.span)
            raise Fault(it.name_span, f"`{owner}` has no constant `{it.name}`", "A field belongs to an object: write the object "
                        "before the dot." if owner != "Place" else "Place has MAX_PLACES, FIRST_PLACE, place(i) and places().")
        return self.member_of(self.expr(it.of), it, False)

    def member_of(self, of: Expr, it: tree.Member, is_call: bool) -> Expr:
        """What stands behind a dot of a value: a field, or what one instruction gives."""
        known = PROPERTIES.get((of.type.name, it.name, is_call))
        if known:
            return typed(tree.Property(it.span, known[0], of), known[1])
        if (of.type.name, it.name, not is_call) in PROPERTIES:
            raise Fault(it.name_span, f"`{it.name}` is written {'without' if is_call else 'with'} `()`",
                        f"Write `.{it.name}{'' if is_call else '()'}`.")
        if of.type.name != "class":
            if of.type.name == "GlobalRef":
                raise Fault(it.name_span, f"a GlobalRef has no `{it.name}`", "It has `home`; its object is `g()`, at its home.")
            raise Fault(it.name_span, f"{of.type.told()} has no `{it.name}`",
                        "Place has id and next(), Rail size, String length().")
        fields = {field.name: field for field in self.classes[of.type.of].fields}
        if it.name not in fields:
            raise Fault(it.name_span, f"`{of.type}` has no field `{it.name}`",
                        near(it.name, fields, f"It has {', '.join(fields) or 'none'}."))
        field = fields[it.name]
        self.uses.append((it.name_span, field.span, self.told_field(of.type.of, field)))
        return typed(tree.FieldOf(it.span, of, field), field.type)

    def told_field(self, class_name: str, it: tree.Field) -> str:
        return f"field {'var' if it.is_var else 'val'} {class_name}.{it.name}: {it.type}"

    def expr_apply(self, it: tree.Apply) -> Expr:
        of = it.of
        variable = self.found(of.name) if isinstance(of, tree.Name) else None
        is_applied = variable is not None and variable.type.name in ("Rail", "GlobalRef")
        if isinstance(of, tree.Name) and not is_applied:
            function = self.function_named(of.name)
            if function:
                return self.call(it, function)
        if isinstance(of, tree.Name) and variable is None:
            if of.name == "Place":
                return self.place_of(it)
            names = [name for _, name in self.functions]
            raise Fault(of.span, f"there is no def `{of.name}`",
                        near(of.name, names, f"Write one: `def {of.name}(..) {{ .. }}`."))
        if isinstance(of, tree.Member):
            owner = self.owner(of.of)
            if owner == "Place" and of.name == "places" and not it.arguments:
                return typed(tree.Property(it.span, "PLACES", None), PLACES)
            if owner == "Place" and of.name == "place":
                return self.place_of(it)
            if owner and (owner, of.name) in self.functions:
                return self.call(it, self.functions[owner, of.name])
            if owner and owner != "Place":
                raise Fault(of.name_span, f"`{owner}` has no def `{of.name}`", f"Write `static def {of.name}(..)` in it.")
            if isinstance(of.of, tree.Member) and isinstance(of.of.of, tree.Name) and of.of.of.name == "Console":
                raise Fault(it.span, "println is no value", "Write it as a statement: `Console.OUT.println(x);`.")
            before = self.expr(of.of) if not owner else of.of
            if (before.type.name, of.name, True) in PROPERTIES and not it.arguments:
                return self.member_of(before, of, True)
            if before.type.name == "class" and of.name not in {field.name for field in self.classes[before.type.of].fields}:
                raise Fault(of.name_span, f"`{before.type}` has no field `{of.name}`, and objects have no methods",
                            f"Write a def, and call it by `{of.name}(..)`.")
            return self.opened(it, self.member_of(before, of, False))
        return self.opened(it, self.expr(of))

    def opened(self, it: tree.Apply, of: Expr) -> Expr:
        """r(i) of a rail, or g() of a reference."""
        if of.type == RAIL:
            self.count(it, 1, "an index")
            return typed(tree.Index(it.span, of, self.wanted(it.arguments[0], INT, "an index")), INT)
        if of.type.name == "GlobalRef":
            self.count(it, 0, "opening a reference")
            return typed(tree.Property(it.span, "GOPEN", of), Type("class", of.type.of))
        raise Fault(it.span, f"{of.type.told()} is followed by `(..)`", "A rail has an index and a GlobalRef is opened so; "
                    "a def is called by its name.")

    def count(self, it: tree.Apply, wanted: int, what: str) -> None:
        if len(it.arguments) != wanted:
            raise Fault(it.span, f"{what} has {len(it.arguments)} arguments", f"Give {wanted or 'none'}.")

    def place_of(self, it: tree.Apply) -> Expr:
        self.count(it, 1, "Place(i)")
        number = self.wanted(it.arguments[0], INT, "the number of a place")
        if isinstance(number, tree.Literal) and not 0 <= int(number.value or 0) < MOST_PLACES:
            raise Fault(number.span, "there is no such place", f"Places have the numbers 0 to {MOST_PLACES - 1} at most.")
        return typed(tree.Property(it.span, "PLACEN", number), PLACE)

    def call(self, it: tree.Apply, function: tree.Function) -> Expr:
        if function.name == "main":
            raise Fault(it.span, "main is called", "A run begins with it. Put what it does into another def.")
        if self.in_atomic:
            raise Fault(it.span, "a def is called inside of `atomic`", "Write out here what it does, or call it outside.")
        if len(it.arguments) != len(function.variables):
            signature = ", ".join(f"{at.name}: {at.type}" for at in function.variables)
            raise Fault(it.span,
                        f"`{function.name}` has {len(function.variables)} parameters, and gets {len(it.arguments)} arguments",
                        f"It is `def {function.name}({signature})`.")
        self.uses.append((it.of.name_span if isinstance(it.of, tree.Member) else it.of.span, function.span, function.signature()))
        arguments = [self.wanted(given, at.type, f"`{at.name}`") for given, at in zip(it.arguments, function.variables)]
        return typed(tree.Call(it.span, function, arguments), function.result)

    def expr_new(self, it: tree.New) -> Expr:
        class_ = self.classes.get(it.class_name)
        if class_ is None:
            raise Fault(it.span, f"there is no class `{it.class_name}`",
                        near(it.class_name, self.classes, "Write it, with its fields."))
        given = [field for field in class_.fields if field.value is None]
        by_default = not it.arguments and all(field.is_var and field.type.name in ("Int", "Boolean", "class") for field in given)
        if len(it.arguments) != len(given) and not by_default:
            names = ", ".join(f"{field.name}: {field.type}" for field in given) or "nothing"
            raise Fault(it.span, f"new {class_.name} has {len(it.arguments)} arguments, and {len(given)} fields ask for one",
                        f"Give a value for each field without one, in their order: {names}.")
        values = iter(it.arguments)
        made = [field.value or (self.default_of(it.span, field.type) if by_default else
                self.wanted(next(values), field.type, f"the field `{field.name}`")) for field in class_.fields]
        return typed(tree.NewObject(it.span, class_, made), Type("class", class_.name))

    def default_of(self, span: Span, type_: Type) -> Expr:
        return literal(span, 0 if type_ == INT else False if type_ == BOOLEAN else None, type_)

    def expr_newrail(self, it: tree.NewRail) -> Expr:
        it.size = self.wanted(it.size, INT, "the length of a rail")
        return typed(it, RAIL)

    def expr_makeref(self, it: tree.MakeRef) -> Expr:
        it.of = self.expr(it.of)
        if it.of.type.name != "class":
            raise Fault(it.of.span, f"a GlobalRef names an object, and this is {it.of.type.told()}",
                        "Put the value into an object of a class.")
        if it.class_name and it.class_name != it.of.type.of:
            raise Fault(it.span, f"this is a GlobalRef[{it.class_name}] of {it.of.type.told()}",
                        f"Write `GlobalRef[{it.of.type}](..)`.")
        return typed(it, Type("GlobalRef", it.of.type.of))

    def expr_atvalue(self, it: tree.AtValue) -> Expr:
        it.place = self.wanted(it.place, PLACE, "where `at` goes")
        with_word = self.enter("at", it.span)
        it.value = self.expr(it.value)
        self.leave(with_word)
        if it.value.type in (VOID, NULL, PLACES):
            raise Fault(it.value.span, "the expression of `at` has no value to bring back", "Write `at (p) S` as a statement.")
        return typed(it, it.value.type)

    def expr_unary(self, it: tree.Unary) -> Expr:
        if it.op == "-" and isinstance(it.of, tree.Literal) and it.of.value == 2**63:
            return literal(it.span, -2**63, INT)
        type_ = BOOLEAN if it.op == "!" else INT
        it.of = self.wanted(it.of, type_, f"what `{it.op}` is for")
        if isinstance(it.of, tree.Literal):
            value = int(it.of.value or 0)
            return literal(it.span, not value if type_ == BOOLEAN else value if it.op == "+" else wrapped(-value), type_)
        return it.of if it.op == "+" else typed(it, type_)

    def expr_binary(self, it: tree.Binary) -> Expr:
        if it.op in ("&&", "||"):
            it.left = self.wanted(it.left, BOOLEAN, f"the left of `{it.op}`")
            it.right = self.wanted(it.right, BOOLEAN, f"the right of `{it.op}`")
        else:
            it.left, it.right = self.expr(it.left), self.expr(it.right)
            self.check_operands(it)
        left, right = it.left, it.right
        if it.op in ("/", "%") and isinstance(right, tree.Literal) and right.value == 0:
            raise Fault(right.span, "the divisor is 0", "Divide by another number.")
        type_ = left.type if it.op in ("+", "-", "*", "/", "%") else BOOLEAN
        if isinstance(left, tree.Literal) and isinstance(right, tree.Literal):
            value = it.op == "==" if left.type == right.type == NULL else computed(it.op, left.value, right.value)
            if value is not None:
                return literal(it.span, value, type_)
        return typed(it, type_)

    def check_operands(self, it: tree.Binary) -> None:
        left, right = it.left, it.right
        if it.op in ("==", "!="):
            names = {left.type.name, right.type.name}
            if names == {"class",
                         "null"} or names == {"null"} or (left.type == right.type and left.type in (INT, BOOLEAN, PLACE)):
                return
            if left.type != right.type:
                raise Fault(it.span, f"{left.type.told()} and {right.type.told()} are compared", "Compare values of one type.")
            instead = {"class": "a number that tells them apart, such as a field", "GlobalRef": "`.home`"}.get(left.type.name)
            raise Fault(it.span, f"nothing compares two values of the type {left.type}",
                        f"Compare {instead or 'their lengths, or a number that goes with them'}.")
        if it.op == "+" and STRING in (left.type, right.type):
            if left.type == right.type:
                return
            other = right if left.type == STRING else left
            self.refuse_type(other, STRING, "the other side of `+`")
        for side in (left, right):
            if side.type != INT:
                self.refuse_type(side, INT, f"what `{it.op}` is for")

    def enter(self, word: str, span: Span) -> tuple[int, str]:
        """Begins the body of an at or async; what it gives goes back to `leave`."""
        if self.in_atomic:
            raise Fault(span, f"`{word}` is inside of `atomic`", "Nothing starts or goes elsewhere inside of it: put it outside.")
        before = self.loops, self.body_of
        self.loops, self.body_of = 0, word
        return before

    def leave(self, before: tuple[int, str]) -> None:
        self.loops, self.body_of = before
