"""Says what each name of a program is and which type each expression has, or the first fault of these."""

from __future__ import annotations

from typing import Optional

from . import tree
from .expressions import MOST_PARAMETERS, MOST_PLACES, OTHER_NAMES, Expressions, literal, near
from .messages import Fault, Span
from .tree import BOOLEAN, INT, NULL, PLACE, PLACES, RAIL, STRING, VOID, Expr, Stmt, Type

MOST_TURNS, MOST_FIELDS = 65_535, 16


def completes(it: Stmt) -> bool:
    """Whether the statement after this one can be reached."""
    if isinstance(it, tree.Block):
        return all(completes(part) for part in it.body)
    if isinstance(it, tree.If):
        return it.other is None or completes(it.then) or completes(it.other)
    if isinstance(it, tree.Region):
        return completes(it.body)
    return not isinstance(it, tree.Leave)


class Checker(Expressions):
    # --- declarations

    def check(self) -> tree.Function:
        """Checks the program, and returns main."""
        for number, it in enumerate(self.program.classes):
            it.number = number
            self.add(self.classes, it.name, it, it.span, "class")
            if it.name in ("Int", "Boolean", "String", "Place", "Rail", "GlobalRef", "Console"):
                raise Fault(it.span, f"there is a type {it.name} already", "Take another name.")
        for static in self.program.statics:
            self.add(self.statics, (static.class_name, static.name), static, static.span, "constant")
        for function in self.program.functions:
            self.add(self.functions, (function.class_name, function.name), function, function.span, "def")
        for it in self.program.classes:
            self.check_class(it)
        main = self.find_main()
        for function in self.program.functions:
            self.check_signature(function, function is main)
        for function in self.program.functions:
            self.uses.append((function.span, function.span, function.signature()))
            self.check_function(function)
        for static in self.program.statics:
            self.constant_of(static, static.span)  # (which is a use at its own name)
        return main

    def add(self, them: dict, name: object, it: object, span: Span, what: str) -> None:  # type: ignore[type-arg]
        if name in them:
            raise Fault(span, f"there is a {what} of this name already", "Give one of the two another name.")
        them[name] = it

    def check_class(self, it: tree.Class) -> None:
        if len(it.fields) > MOST_FIELDS:
            raise Fault(it.fields[MOST_FIELDS].span, f"`{it.name}` has {len(it.fields)} fields",
                        f"A class has at most {MOST_FIELDS}: put some into an object of another class.")
        self.uses.append((it.span, it.span, f"class {it.name}"))
        names: dict[str, tree.Field] = {}
        for number, field in enumerate(it.fields):
            self.add(names, field.name, field, field.span, "field")
            field.number, field.type = number, self.type_of(field.type_name)
            self.uses.append((field.span, field.span, self.told_field(it.name, field)))
            if field.value is not None:
                field.value = self.wanted(field.value, field.type, f"the field `{field.name}`")
                if not isinstance(field.value, tree.Literal):
                    raise Fault(field.value.span, "the first value of a field is no constant", "Give it to `new`.")

    def find_main(self) -> tree.Function:
        found = [it for it in self.program.functions if it.name == "main"]
        if len(found) == 1:
            return found[0]
        span = found[1].span if found else Span(0, 1, 1, 1)
        raise Fault(span, "there is a second main" if found else "there is no main",
                    "Give it another name." if found else "Write `def main() { .. }`; a run begins there, at place 0.")

    def check_signature(self, it: tree.Function, is_main: bool) -> None:
        if is_main and [it.type_name.argument for it in it.parameters] == ["String"]:
            it.parameters = []
        if len(it.parameters) > MOST_PARAMETERS:
            raise Fault(it.span, f"`{it.name}` has {len(it.parameters)} parameters",
                        f"A def has at most {MOST_PARAMETERS}: put some into an object.")
        it.variables = [tree.Variable(at.name, self.type_of(at.type_name), False, at.span) for at in it.parameters]
        is_void = it.result_name is None or (it.result_name.name, it.result_name.argument) == ("void", "")
        it.result = VOID if is_void or it.result_name is None else self.type_of(it.result_name)
        if is_main and (it.variables or it.result != VOID):
            raise Fault(it.span, "main has a parameter or a result", "Write `def main() { .. }`.")

    def check_function(self, it: tree.Function) -> None:
        self.function, self.class_name, self.scopes, self.loops, self.body_of = it, it.class_name, [{}], 0, ""
        for variable in it.variables:
            self.declare(variable)
        it.body = self.stmt(it.body)
        if it.result != VOID and completes(it.body):
            raise Fault(it.span, f"`{it.name}` can end without a result",
                        f"Put `return ..;` at its end: it gives {it.result.told()}.")

    def type_of(self, it: tree.TypeName) -> Type:
        of = it.argument or it.name
        if of in self.classes:
            self.uses.append((it.span, self.classes[of].span, f"class {of}"))
        if it.argument and it.name == "GlobalRef" and it.argument in self.classes:
            return Type("GlobalRef", it.argument)
        if it.name == "Rail" and it.argument == "Byte":
            return RAIL
        if not it.argument and it.name in ("Int", "Boolean", "String", "Place"):
            return Type(it.name)
        if not it.argument and it.name in self.classes:
            return Type("class", it.name)
        if it.name == "Rail":
            raise Fault(it.span, "a rail has bytes alone", "Write `Rail[Byte]`; a list of objects takes the place of others.")
        if it.name == "GlobalRef":
            raise Fault(it.span, "a GlobalRef names an object of a class",
                        "Write `GlobalRef[C]`, where C is a class of this program.")
        names = ["Int", "Boolean", "String", "Place", *self.classes]
        known = OTHER_NAMES.get(it.name)
        repair = f"Write `{known}`; it has 64 bits." if known == "Int" else f"Write `{known}`." if known else \
            near(it.name, names, "The types are Int, Boolean, String, Place, Rail[Byte], GlobalRef[C] and the classes.")
        raise Fault(it.span, f"there is no type `{it.name}{'[' + it.argument + ']' if it.argument else ''}`", repair)


    def declare(self, it: tree.Variable) -> None:
        if any(it.name in scope for scope in self.scopes):
            raise Fault(it.span, f"there is a variable `{it.name}` here already", "Give one of the two another name.")
        self.scopes[-1][it.name] = it
        self.uses.append((it.span, it.span, self.told(it)))

    # --- statements

    def stmt(self, it: Stmt) -> Stmt:
        made: Stmt = getattr(self, "stmt_" + type(it).__name__.lower())(it)
        return made

    def scoped(self, it: Stmt) -> Stmt:
        self.scopes.append({})
        made = self.stmt(it)
        self.scopes.pop()
        return made

    def stmt_block(self, it: tree.Block) -> Stmt:
        self.scopes.append({})
        it.body = [self.stmt(part) for part in it.body]
        self.scopes.pop()
        return it

    def stmt_declare(self, it: tree.Declare) -> Stmt:
        if it.value is None:
            raise Fault(it.span, f"`{it.name}` has no value", f"Write `{'var' if it.is_var else 'val'} {it.name} = ..;`.")
        type_ = self.type_of(it.type_name) if it.type_name else None
        it.value = self.wanted(it.value, type_, f"`{it.name}`") if type_ else self.expr(it.value)
        if it.value.type in (NULL, VOID, PLACES):
            raise Fault(it.value.span, "this has no type" if it.value.type == NULL else "this is no value",
                        f"Write the type: `{it.name}: C`." if it.value.type == NULL else "Take an expression with a value.")
        constant = it.value.value if isinstance(it.value, tree.Literal) and not it.is_var else None
        it.variable = tree.Variable(it.name, it.value.type, it.is_var, it.span, constant)
        if isinstance(it.value, tree.NewRail) and isinstance(it.value.size, tree.Literal) and not it.is_var:
            it.variable.range = 0, int(it.value.size.value or 0)
        self.declare(it.variable)
        self.declared.add(it.variable)
        return it

    def stmt_assign(self, it: tree.Assign) -> Stmt:
        if isinstance(it.target, tree.Name):
            variable = self.found(it.target.name)
            if variable is not None and not variable.is_var:
                raise Fault(it.target.span, f"`{variable.name}` is a val, and gets a second value", "Declare it by `var`."
                            if variable in self.declared else f"Copy it: `var {variable.name}1 = {variable.name};`.")
        it.target = self.expr(it.target)
        if isinstance(it.target, tree.FieldOf) and not it.target.field.is_var:
            raise Fault(it.target.span, f"the field `{it.target.field.name}` is a val", "Declare it by `var` in its class.")
        if not isinstance(it.target, (tree.Local, tree.FieldOf, tree.Index)):
            raise Fault(it.target.span, "this can't be given a value",
                        "A variable, a field of an object and a byte of a rail can.")
        if it.op and it.target.type not in (INT, STRING) or it.op not in ("", "+") and it.target.type == STRING:
            raise Fault(it.span, f"`{it.op}=` is for numbers", "Write out the assignment.")
        it.value = self.wanted(it.value, it.target.type, "what is on the left")
        if it.op in ("/", "%") and isinstance(it.value, tree.Literal) and it.value.value == 0:
            raise Fault(it.value.span, "the divisor is 0", "Divide by another number.")
        return it

    def stmt_evaluate(self, it: tree.Evaluate) -> Stmt:
        of = it.of
        if isinstance(of, tree.Apply) and isinstance(of.of, tree.Member) and of.of.name in ("println", "print"):
            return self.println(of, of.of)
        it.of = self.expr(of)
        if not isinstance(it.of, (tree.Call, tree.AtValue)):
            raise Fault(it.span, "this statement does nothing", "Use the value, or take the statement out.")
        return it

    def println(self, it: tree.Apply, member: tree.Member) -> Stmt:
        out = member.of
        is_console = isinstance(out, tree.Member) and isinstance(out.of, tree.Name) and (out.of.name, out.name) == ("Console",
                                                                                                                    "OUT")
        if not is_console or member.name != "println":
            raise Fault(it.span, "this isn't how a line is printed", "Write `Console.OUT.println(x);`.")
        if len(it.arguments) > 1:
            raise Fault(it.span, "println has more than one argument", "Print each in a line of its own.")
        of = self.expr(it.arguments[0]) if it.arguments else literal(it.span, "", STRING)
        if of.type not in (INT, STRING, BOOLEAN):
            raise Fault(of.span, f"{of.type.told()} can't be printed",
                        "Print its `id`." if of.type == PLACE else "Print a number, a truth value or a text.")
        return tree.Print(it.span, of)

    def stmt_if(self, it: tree.If) -> Stmt:
        it.condition = self.wanted(it.condition, BOOLEAN, "the condition")
        it.then = self.scoped(it.then)
        it.other = self.scoped(it.other) if it.other else None
        return it

    def stated(self, it: Optional[Expr], span: Span, example: str) -> int:
        if it is None:
            raise Fault(span, "the loop doesn't say how many turns it makes at most", f"Write `{example} @bound(1000) ..`.")
        made = self.wanted(it, INT, "the bound of a loop")
        if not isinstance(made, tree.Literal) or not 1 <= int(made.value or 0) <= MOST_TURNS:
            raise Fault(made.span, "the bound of a loop is no constant from 1 to 65535",
                        "More turns are made by a loop in a loop.")
        return int(made.value or 0)

    def stmt_loop(self, it: tree.Loop) -> Stmt:
        if it.last is None:
            it.first = self.expr(it.first)
            if it.first.type != PLACES:
                raise Fault(it.first.span, "a loop goes over a range or over the places", "Write `1..n`, or `Place.places()`.")
            it.bound = MOST_PLACES
        else:
            it.first, it.last = self.wanted(it.first, INT, "the first number"), self.wanted(it.last, INT, "the last number")
            if isinstance(it.first, tree.Literal) and isinstance(it.last, tree.Literal):
                it.bound = max(0, int(it.last.value or 0) - int(it.first.value or 0) + 1)
                if it.bound > MOST_TURNS:
                    raise Fault(it.first.span.to(it.last.span), f"the loop makes {it.bound} turns",
                                f"At most {MOST_TURNS}; take a loop in a loop.")
            else:
                it.bound = self.stated(it.stated, it.first.span.to(it.last.span), f"for ({it.name} in ..)")
        it.variable = tree.Variable(it.name, PLACE if it.last is None else INT, False, it.name_span)
        if isinstance(it.first, tree.Literal) and isinstance(it.last, tree.Literal):
            it.variable.range = int(it.first.value or 0), int(it.last.value or 0)
        self.scopes.append({})
        self.declare(it.variable)
        it.body = self.loop_body(it.body)
        self.scopes.pop()
        it.is_used = it.variable in self.used
        return it

    def loop_body(self, it: Stmt) -> Stmt:
        self.loops += 1
        made = self.scoped(it)
        self.loops -= 1
        return made

    def stmt_while(self, it: tree.While) -> Stmt:
        it.condition = self.wanted(it.condition, BOOLEAN, "the condition")
        it.bound = self.stated(it.stated, it.condition.span, "while (..)")
        it.body = self.loop_body(it.body)
        return it

    def stmt_leave(self, it: tree.Leave) -> Stmt:
        if it.word != "return":
            if not self.loops:
                if self.body_of:
                    raise Fault(it.span, f"`{it.word}` is in no loop of this `{self.body_of}`",
                                f"Nothing jumps out of the body of `{self.body_of}`.")
                raise Fault(it.span, f"`{it.word}` is in no loop", "Put it into the body of a loop.")
            return it
        if self.body_of:
            raise Fault(it.span, f"`return` is in the body of `{self.body_of}`",
                        "Nothing jumps out of it: write what is left to do under an `if`.")
        assert self.function is not None
        result = self.function.result
        if it.value is None and result != VOID:
            raise Fault(it.span, f"`{self.function.name}` gives {result.told()}, and this is none",
                        "Write `return ..;` with a value.")
        if it.value is not None:
            if result == VOID:
                raise Fault(it.value.span, f"`{self.function.name}` has no result",
                            f"Write the type behind its parameters: `def {self.function.name}(..): Int`.")
            it.value = self.wanted(it.value, result, "the result")
        return it

    def stmt_region(self, it: tree.Region) -> Stmt:
        if self.in_atomic:
            if it.word == "finish":
                raise Fault(it.span, "`finish` is inside of `atomic`", "Nothing waits inside of it: put the finish around it.")
            return self.scoped(it.body)
        self.in_atomic = it.word == "atomic"
        it.body = self.scoped(it.body)
        self.in_atomic = False
        return it



    def stmt_async(self, it: tree.Async) -> Stmt:
        before = self.enter("async", it.span)
        it.body = self.scoped(it.body)
        self.leave(before)
        return it

    def stmt_at(self, it: tree.At) -> Stmt:
        it.place = self.wanted(it.place, PLACE, "where `at` goes")
        before = self.enter("at", it.span)
        it.body = self.scoped(it.body)
        self.leave(before)
        return it
