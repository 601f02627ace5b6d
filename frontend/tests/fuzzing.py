"""Writes random programs that are well typed, end, and print the same in every order of their activities."""

from __future__ import annotations

import random
from dataclasses import dataclass, field, replace
from typing import Callable, Optional

NUMBERS = [0, 1, 2, 3, 5, 7, 10, 63, 64, 100, 255, 256, 65535, 9223372036854775807, -9223372036854775808, -1, -2, -7]
WORDS = ["", "a", "two", "\\n", "\\\"quoted\\\"", "grün", "back\\\\slash"]


@dataclass
class Var:
    name: str
    type: str
    is_var: bool = False
    is_object: bool = False
    is_home: bool = False


@dataclass
class Around:
    """What is around a statement: variables, whether it is in a loop, may be a `return`, is in an atomic."""

    variables: list[Var] = field(default_factory=list)
    in_loop: bool = False
    may_return: bool = True
    in_atomic: bool = False
    depth: int = 0
    loops: int = 0

    def inner(self, **changes: object) -> Around:
        made = replace(self, variables=list(self.variables), depth=self.depth + 1)
        return replace(made, **changes)


class ProgramWriter:
    def __init__(self, seed: int) -> None:
        self.random = random.Random(seed)
        self.classes: dict[str, list[tuple[str, str, bool]]] = {}
        self.defs: list[tuple[str, list[str], str]] = []
        self.count = 0
        self.result = "void"
        self.lines: list[str] = []

    def chance(self, part: float) -> bool:
        return self.random.random() < part

    def pick(self, them: list) -> object:  # type: ignore[type-arg]
        return self.random.choice(them)

    def fresh(self, letter: str) -> str:
        self.count += 1
        return f"{letter}{self.count}"

    def program(self) -> str:
        for _ in range(self.random.randint(1, 3)):
            name = self.fresh("C")
            self.classes[name] = []
            for _ in range(self.random.randint(1, 4)):
                self.classes[name].append((self.fresh("f"), self.any_type(is_field=True), self.chance(0.8)))
        text = "".join(f"class {name} {{ " + " ".join(f"{'var' if is_var else 'val'} {it}: {type_};" for it, type_,
                                                      is_var in fields)
                       + " }\n" for name, fields in self.classes.items())
        text += "static val LIMIT = 3 + 1;\n"
        for name in self.classes:
            text += self.maker(name)
        for _ in range(self.random.randint(1, 4)):
            text += self.function()
        self.result = "void"
        return text + f"def main() {{\n{self.body(Around(), 9)}}}\n"

    def any_type(self, is_plain: bool = False, is_field: bool = False) -> str:
        name = str(self.pick(list(self.classes)))
        types = ["Int", "Int", "Int", "Boolean", "String", "Place"]
        # (a class has references to those before it alone: so values have an end)
        earlier = [] if is_field and name == list(self.classes)[-1] else [f"GlobalRef[{name}]"]
        return str(self.pick(types if is_plain else [*types, name, name, *earlier, "Rail[Byte]"]))

    def maker(self, name: str) -> str:
        """A def that gives a reference: it may not fail."""
        made = self.fresh("make")
        self.defs.append((made, ["Int"], f"GlobalRef[{name}]"))
        values = ", ".join(self.safe_value(type_) for _, type_, _ in self.classes[name])
        if "GlobalRef" in values:
            self.defs.pop()
            return ""
        return f"def {made}(n: Int): GlobalRef[{name}] = GlobalRef(new {name}({values}));\n"

    def safe_value(self, type_: str) -> str:
        if type_ in self.classes:
            return "null"
        # (a rail or reference can't be made without a value at hand, or a way to fail)
        return {"Int": "n", "Boolean": "true", "String": '"made"', "Place": "here"}.get(type_, "GlobalRef")

    def function(self) -> str:
        name, parameters = self.fresh("d"), [Var(self.fresh("p"), self.any_type()) for _ in range(self.random.randint(0, 4))]
        self.result = str(self.pick(["void", "void", self.any_type(True), "Int", str(self.pick(list(self.classes)))]))
        around = Around([*parameters])
        body = self.body(around, 5)
        if self.result != "void":
            body += f"  return {self.expr(self.result, around, 2)};\n"
        signature = ", ".join(f"{it.name}: {it.type}" for it in parameters)
        self.defs.append((name, [it.type for it in parameters], self.result))
        return f"def {name}({signature}){'' if self.result == 'void' else ': ' + self.result} {{\n{body}}}\n"

    # --- statements

    def body(self, around: Around, most: int) -> str:
        return "".join("  " * (around.depth + 1) + self.stmt(around) + "\n" for _ in range(self.random.randint(1, most)))

    def block(self, around: Around, most: int = 3) -> str:
        return "{\n" + self.body(around, most) + "  " * around.depth + "}"

    def stmt(self, around: Around) -> str:
        kinds: list[Callable[[Around], str]] = [self.declare, self.declare, self.print, self.print, self.assign, self.assign]
        if around.depth < 4:
            kinds += [self.if_stmt, self.if_stmt, self.ask_null, self.for_stmt, self.while_stmt, self.call_stmt, self.ask_home]
            if not around.in_atomic:
                kinds += [self.at_stmt, self.at_home, self.async_stmt, self.finish_stmt, self.atomic_stmt, self.many,
                          self.places_loop]
        if around.depth and self.chance(0.3):
            kinds += [self.leave] * 3
        return self.random.choice(kinds)(around)

    def declare(self, around: Around) -> str:
        type_, is_var = self.any_type(), self.chance(0.5)
        name, value = self.fresh("v"), self.expr(type_, around, 3)
        is_home = value.startswith("GlobalRef(")
        around.variables.append(Var(name, type_, is_var, value.startswith("new C") and not is_var, is_home and not is_var))
        return f"{'var' if is_var else 'val'} {name}: {type_} = {value};"

    def print(self, around: Around) -> str:
        return f"Console.OUT.println({self.expr(str(self.pick(['Int', 'Int', 'Boolean', 'String'])), around, 3)});"

    def assign(self, around: Around) -> str:
        target, type_ = self.target(around)
        if target is None:
            return self.print(around)
        if type_ == "Int" and self.chance(0.4):
            op = str(self.pick(["+=", "-=", "*=", "/=", "%="]))
            return f"{target} {op} {self.varying(around) if op in ('/=', '%=') else self.expr('Int', around, 2)};"
        if type_ == "Int" and self.chance(0.1):
            return f"{target}++;"
        return f"{target} = {self.expr(type_, around, 3)};"

    def target(self, around: Around) -> tuple[Optional[str], str]:
        """A variable, field or byte that may be given a value, and its type."""
        found = [(it.name, it.type) for it in around.variables if it.is_var and not it.is_object]
        for it in around.variables:
            if it.is_object or it.is_home:
                of = it.name if it.is_object else f"{it.name}()"
                class_name = it.type if it.is_object else it.type[10:-1]
                found += [(f"{of}.{name}", type_) for name, type_, is_var in self.classes[class_name] if is_var]
            if it.type == "Rail[Byte]":
                found.append((f"{it.name}({self.expr('Int', around, 1)})", "Int"))
        return self.random.choice(found) if found else (None, "")

    def if_stmt(self, around: Around) -> str:
        text = f"if ({self.expr('Boolean', around, 3)}) {self.block(around.inner())}"
        return text + (f" else {self.block(around.inner())}" if self.chance(0.5) else "")

    def ask_null(self, around: Around) -> str:
        them = [it for it in around.variables if it.type in self.classes]
        if not them:
            return self.print(around)
        it: Var = self.random.choice(them)
        if it.is_var:
            name = self.fresh("o")
            around.variables.append(Var(name, it.type))
            return f"val {name} = {it.name};"
        known = around.inner()
        known.variables = [replace(other, is_object=True) if other is it else other for other in known.variables]
        if self.chance(0.5):
            return f"if ({it.name} != null) {self.block(known)} else {self.block(around.inner())}"
        return f"if ({it.name} == null) {self.block(around.inner())} else {self.block(known)}"

    def ask_home(self, around: Around) -> str:
        them = [it for it in around.variables if it.type.startswith("GlobalRef") and not it.is_var]
        if not them:
            return self.print(around)
        it: Var = self.random.choice(them)
        known = around.inner()
        known.variables = [replace(other, is_home=True) if other is it else other for other in known.variables]
        return f"if (here == {it.name}.home) {self.block(known)}"

    def for_stmt(self, around: Around) -> str:
        if around.loops > 1:
            return self.print(around)
        name = self.fresh("i")
        inner = around.inner(in_loop=True, loops=around.loops + 1)
        inner.variables.append(Var(name, "Int"))
        if self.chance(0.5):
            first = self.random.randint(-2, 2)
            return f"for ({name} in {first}..{first + self.random.randint(-1, 3)}) {self.block(inner)}"
        begin, end = (f"({self.expr('Int', around, 1)}) % 4" for _ in range(2))
        return f"for ({name} in {begin}..{end}) @bound({self.pick([1, 2, 3, 9])}) {self.block(inner)}"

    def while_stmt(self, around: Around) -> str:
        if around.loops > 1:
            return self.print(around)
        name = self.fresh("w")
        inner = around.inner(in_loop=True, loops=around.loops + 1)
        condition = f"{name} < LIMIT && {self.expr('Boolean', around, 1)}"
        return (f"var {name}: Int = 0; while ({condition}) @bound({self.pick([2, 4, 9])}) {{ {name} += 1; {self.block(inner)} }}")

    def call_stmt(self, around: Around) -> str:
        them = [it for it in self.defs if it[2] == "void"]
        if not them or around.in_atomic:
            return self.print(around)
        return self.call(self.random.choice(them), around, 2) + ";"

    def call(self, it: tuple[str, list[str], str], around: Around, depth: int) -> str:
        return f"{it[0]}({', '.join(self.expr(type_, around, depth - 1) for type_ in it[1])})"

    def leave(self, around: Around) -> str:
        if around.in_loop and self.chance(0.6):
            return str(self.pick(["break;", "continue;"]))
        if around.may_return:
            return "return;" if self.result == "void" else f"return {self.expr(self.result, around, 2)};"
        return self.print(around)

    def elsewhere(self, around: Around, is_home: bool) -> Around:
        """What the body of an at (or of an async, at home) knows."""
        kept = [it if is_home else replace(it, is_home=False) for it in around.variables if not it.is_var]
        return around.inner(variables=kept, in_loop=False, may_return=False)

    def at_stmt(self, around: Around) -> str:
        inner = self.elsewhere(around, False)
        return f"at ({self.expr('Place', around, 2)}) {self.block(replace(inner, depth=around.depth + 1))}"

    def at_home(self, around: Around) -> str:
        them = [it for it in around.variables if it.type.startswith("GlobalRef") and not it.is_var]
        if not them:
            return self.print(around)
        it: Var = self.random.choice(them)
        inner = replace(self.elsewhere(around, False), depth=around.depth + 1)
        inner.variables = [replace(other, is_home=other.name == it.name) for other in inner.variables]
        return f"{self.pick(['', 'finish async '])}at ({it.name}.home) {self.block(inner)}"

    def async_stmt(self, around: Around) -> str:
        if self.chance(0.5):
            inner = replace(self.elsewhere(around, True), depth=around.depth + 1)
            return f"finish async {self.block(inner)}"
        seen = replace(around, variables=[it for it in around.variables if not it.is_var])
        inner = replace(self.elsewhere(around, False), depth=around.depth + 1)
        return f"finish async at ({self.expr('Place', seen, 1)}) {self.block(inner)}"

    def finish_stmt(self, around: Around) -> str:
        return f"finish {self.block(around.inner())}"

    def atomic_stmt(self, around: Around) -> str:
        return f"atomic {self.block(around.inner(in_atomic=True))}"

    def many(self, around: Around) -> str:
        """Activities that add to one field: in every order the sum is the same."""
        them = [it for it in around.variables if it.is_object and not it.is_var]
        fields = [(it.name, name) for it in them for name, type_, is_var in self.classes[it.type] if type_ == "Int" and is_var]
        if not fields:
            return self.print(around)
        of, name = self.random.choice(fields)
        turns = self.random.randint(1, 3)
        index = self.fresh("i")
        return f"finish for ({index} in 1..{turns}) async atomic {of}.{name} += {index};"

    def places_loop(self, around: Around) -> str:
        if around.loops > 0:
            return self.print(around)
        name = self.fresh("q")
        inner = around.inner(in_loop=True, loops=2)
        inner.variables.append(Var(name, "Place"))
        return f"for ({name} in Place.places()) {self.block(inner, 2)}"

    # --- expressions

    def expr(self, type_: str, around: Around, depth: int) -> str:
        found = [it.name for it in around.variables if it.type == type_]
        for it in around.variables:
            if it.is_object or it.is_home:
                of = it.name if it.is_object else f"{it.name}()"
                class_name = it.type if it.is_object else it.type[10:-1]
                found += [f"{of}.{name}" for name, field_type, _ in self.classes[class_name] if field_type == type_]
        if found and self.chance(0.4 if depth > 0 else 0.8):
            return str(self.pick(found))
        if depth > 0 and self.chance(0.25) and not around.in_atomic:
            defs = [it for it in self.defs if it[2] == type_]
            if defs:
                return self.call(self.random.choice(defs), around, depth)
        is_brought = not type_.startswith(("GlobalRef", "Rail"))
        if depth > 1 and self.chance(0.1) and not around.in_atomic and is_brought:
            inner = self.elsewhere(around, False)
            value = self.expr(type_, inner, depth - 1)
            if value != "null":
                return f"(at ({self.expr('Place', around, 1)}) {value})"
        return self.made(type_, around, depth)

    def made(self, type_: str, around: Around, depth: int) -> str:
        less = depth - 1
        if type_ == "Int":
            return self.number(around, depth)
        if type_ == "Boolean":
            return self.truth(around, depth)
        if type_ == "String":
            literal = f'"{self.pick(WORDS)}"'
            is_plain = depth < 1 or self.chance(0.6)
            return literal if is_plain else f"({self.expr('String', around, less)} + {self.expr('String', around, less)})"
        if type_ == "Place":
            if depth < 1 or self.chance(0.5):
                return str(self.pick(["here", "here.next()", "Place(0)", "Place(1)", "Place.FIRST_PLACE"]))
            return str(self.pick([f"{self.expr('Place', around, less)}.next()", f"Place({self.varying(around)} % 3)"]))
        if type_ == "Rail[Byte]":
            size = self.pick([0, 1, 3, 8]) if depth < 1 or self.chance(0.7) else self.expr("Int", around, less)
            return f"new Rail[Byte]({size})"
        if type_ in self.classes:
            if depth < 1 or self.chance(0.3):
                return "null"
            return f"new {type_}({', '.join(self.expr(it, around, less) for _, it, _ in self.classes[type_])})"
        class_name = type_[10:-1]
        return f"GlobalRef(new {class_name}({', '.join(self.expr(it, around, less) for _, it, _ in self.classes[class_name])}))"

    def number(self, around: Around, depth: int) -> str:
        if depth < 1 or self.chance(0.3):
            return f"({self.pick(NUMBERS)})" if self.chance(0.5) else str(self.random.randint(0, 9))
        less = depth - 1
        kind = self.random.randrange(10)
        rails = [it.name for it in around.variables if it.type == "Rail[Byte]"]
        if kind == 0 and rails:
            return str(self.pick([f"{self.pick(rails)}({self.expr('Int', around, less)})", f"{self.pick(rails)}.size"]))
        if kind == 1:
            return f"{self.expr('String', around, less)}.length()"
        if kind == 2:
            return str(self.pick([f"{self.expr('Place', around, less)}.id", "Place.MAX_PLACES", "LIMIT"]))
        if kind == 3:
            return f"(-{self.expr('Int', around, less)})"
        left = self.expr("Int", around, less)
        if self.chance(0.4):
            return f"({left} {self.pick(['/', '%'])} {self.varying(around)})"
        return f"({left} {self.pick(['+', '-', '*'])} {self.expr('Int', around, less)})"

    def varying(self, around: Around) -> str:
        """A number that is no constant, or at least not the constant 0, which is refused as a divisor."""
        numbers = [it.name for it in around.variables if it.type == "Int" and it.is_var]
        return str(self.pick(numbers)) if numbers else "1"

    def truth(self, around: Around, depth: int) -> str:
        if depth < 1 or self.chance(0.2):
            return str(self.pick(["true", "false"]))
        less = depth - 1
        kind = self.random.randrange(6)
        if kind == 0:
            op = self.pick(["&&", "||", "==", "!="])
            return f"({self.expr('Boolean', around, less)} {op} {self.expr('Boolean', around, less)})"
        if kind == 1:
            return f"!{self.expr('Boolean', around, less)}"
        if kind == 2:
            return f"({self.expr('Place', around, less)} {self.pick(['==', '!='])} {self.expr('Place', around, less)})"
        if kind == 3:
            return f"({self.expr(str(self.pick(list(self.classes))), around, less)} {self.pick(['==', '!='])} null)"
        op = self.pick(["<", "<=", ">", ">=", "==", "!="])
        return f"({self.expr('Int', around, less)} {op} {self.expr('Int', around, less)})"


def random_program(seed: int) -> str:
    return ProgramWriter(seed).program()
