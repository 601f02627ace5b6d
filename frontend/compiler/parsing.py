"""Reads a source: from its text to its tree, or the first fault of its spelling."""

from __future__ import annotations

import re
from pathlib import Path
from typing import Any, Optional

from lark import Lark, Transformer, v_args
from lark.exceptions import UnexpectedCharacters, UnexpectedInput, UnexpectedToken, VisitError
from lark.tree import Meta

from . import tree
from .messages import Fault, Source, Span

WORDS = re.compile(r"import[ \t]+x10\.io\.Console[ \t]*;|//[^\n]*|/\*(?:.|\n)*?\*/|\"(?:\\.|[^\"\\\n])*\""
                   r"|(?P<word>[A-Za-z_][A-Za-z0-9_]*)")
# words of X10 that the subset doesn't have, and what to write in their place
NO_EXCEPTIONS = "Nothing can be thrown: what fails prints a line and ends its function. Ask before it, by `if`."
NO_METHODS = "Write a def that has the object as a parameter."
NO_CLASSES = "A class has fields alone, and stands by itself."
NO_CLOCKS = "`finish` is the one way to wait for others."
OUTSIDE = {
    "try": NO_EXCEPTIONS, "catch": NO_EXCEPTIONS, "throw": NO_EXCEPTIONS, "throws": NO_EXCEPTIONS,
    "this": NO_METHODS, "super": NO_METHODS, "operator": NO_METHODS, "property": NO_METHODS, "abstract": NO_METHODS,
    "interface": NO_CLASSES, "extends": NO_CLASSES, "implements": NO_CLASSES, "struct": NO_CLASSES, "instanceof": NO_CLASSES,
    "when": NO_CLOCKS, "clocked": NO_CLOCKS, "resume": NO_CLOCKS, "offer": NO_CLOCKS, "offers": NO_CLOCKS,
    "import": "A program is one file; it may import x10.io.Console.", "package": "A program is one file.",
    "native": "A def has a body.",
    "ateach": "Write `for (p in Place.places()) async at (p) ..`.", "do": "Write `while (..) @bound(N) ..`.",
    "switch": "Write `if` and `else`.", "as": "There are no conversions between types.",
}
# what a terminal of the grammar is called
TOLD = {"LPAR": "(", "RPAR": ")", "LBRACE": "{", "RBRACE": "}", "SEMICOLON": ";", "COLON": ":", "COMMA": ",", "LSQB": "[",
        "RSQB": "]", "DOT": ".", "__ANON_0": "..", "EQUAL": "="}
ESCAPES = {"n": "\n", "t": "\t", '"': '"', "\\": "\\"}


def span_of(it: Any) -> Span:
    """The span of a token, or of what a rule has read."""
    if getattr(it, "start_pos", None) is None:
        return Span(0, 0, 1, 1)
    return Span(it.start_pos, it.end_pos, it.line, it.column)


@v_args(meta=True, inline=True)
class Builder(Transformer):  # type: ignore[type-arg]
    """Makes the tree: a method for each rule of the grammar that has a name."""

    def start(self, meta: Meta, *items: Any) -> tree.Program:
        program = tree.Program([], [], [])
        for it in items:
            self.add(program, it, "")
        return program

    def add(self, program: tree.Program, it: Any, class_name: str) -> None:
        """Adds a declaration, and what stands in a class. (A class comes with its members.)"""
        if isinstance(it, tuple):
            it, members = it
            program.classes.append(it)
            for member in members:
                self.add(program, member, it.name)
            return
        if isinstance(it, tree.Field):
            raise Fault(it.span, f"`{it.name}` is a variable outside of classes and defs",
                        "Write `static val NAME = VALUE;` for a constant, or make it a field of an object.")
        it.class_name = class_name
        if isinstance(it, tree.Function):
            program.functions.append(it)
        else:
            program.statics.append(it)

    def class_decl(self, meta: Meta, *parts: Any) -> Any:
        parts = tuple(it for it in parts if getattr(it, "type", "") != "MODIFIER")
        name, properties, *members = parts
        fields = [*(properties or []), *(it for it in members if isinstance(it, tree.Field))]
        made = tree.Class(str(name), fields, span_of(name))
        return made, [it for it in members if not isinstance(it, tree.Field)]

    def properties(self, meta: Meta, *parameters: Optional[tree.Parameter]) -> list[tree.Field]:
        return [tree.Field(it.name, it.type_name, False, None, it.span) for it in parameters if it]

    def value_decl(self, meta: Meta, *parts: Any) -> Any:
        *modifiers, word, name, type_name, value = parts
        if "static" not in modifiers:
            if type_name is None:
                raise Fault(span_of(name), f"the field `{name}` has no type", f"Write `{word} {name}: TYPE;`.")
            return tree.Field(str(name), type_name, word == "var", value, span_of(name))
        if word == "var" or value is None:
            raise Fault(span_of(name), f"`{name}` is static, and no constant", "Write `static val NAME = VALUE;`; "
                        "what changes is the field of an object.")
        return tree.Static(str(name), value, span_of(name))

    def def_decl(self, meta: Meta, *parts: Any) -> tree.Function:
        *_, name, parameters, result, body = parts
        if isinstance(body, tree.Expr):
            body = tree.Block(body.span, [tree.Leave(body.span, "return", body)])
        return tree.Function(str(name), parameters or [], result, body, span_of(name))

    def parameters(self, meta: Meta, *them: tree.Parameter) -> list[tree.Parameter]:
        return list(them)

    def parameter(self, meta: Meta, name: Any, type_name: tree.TypeName) -> tree.Parameter:
        return tree.Parameter(str(name), type_name, span_of(name))

    def type(self, meta: Meta, name: Any, argument: Any) -> tree.TypeName:
        return tree.TypeName(span_of(meta), str(name), str(argument or ""))

    def block(self, meta: Meta, *body: tree.Stmt) -> tree.Block:
        return tree.Block(span_of(meta), list(body))

    def empty(self, meta: Meta) -> tree.Block:
        return tree.Block(span_of(meta), [])

    def declare(self, meta: Meta, word: Any, name: Any, type_name: Any, value: Any) -> tree.Declare:
        return tree.Declare(span_of(name), str(name), word == "var", type_name, value)

    def assign(self, meta: Meta, target: tree.Expr, op: Any, value: Any) -> tree.Stmt:
        if op is None:
            return tree.Evaluate(target.span, target)
        return tree.Assign(span_of(meta), target, str(op)[:-1], value)

    def step(self, meta: Meta, target: tree.Expr, op: Any) -> tree.Stmt:
        return tree.Assign(span_of(meta), target, str(op)[0], tree.Literal(span_of(op), 1))

    def if_stmt(self, meta: Meta, condition: tree.Expr, then: tree.Stmt, other: Optional[tree.Stmt]) -> tree.If:
        return tree.If(span_of(meta), condition, then, other)

    def for_stmt(self, meta: Meta, name: Any, first: Any, last: Any, stated: Any, body: tree.Stmt) -> tree.Loop:
        return tree.Loop(span_of(meta), str(name), first, last, stated, body, span_of(name))

    def while_stmt(self, meta: Meta, condition: tree.Expr, stated: Any, body: tree.Stmt) -> tree.While:
        return tree.While(span_of(meta), condition, stated, body)

    def bound(self, meta: Meta, turns: tree.Expr) -> tree.Expr:
        return turns

    def leave(self, meta: Meta, word: Any, value: Any) -> tree.Leave:
        if value is not None and word != "return":
            raise Fault(value.span, f"`{word}` has a value", f"Write `{word};`. It leaves the innermost loop.")
        return tree.Leave(span_of(meta), str(word), value)

    def region(self, meta: Meta, word: Any, body: tree.Stmt) -> tree.Region:
        return tree.Region(span_of(meta), str(word), body)

    def async_stmt(self, meta: Meta, body: tree.Stmt) -> tree.Async:
        return tree.Async(span_of(meta), None, body)

    def at_stmt(self, meta: Meta, place: tree.Expr, body: tree.Stmt) -> tree.At:
        return tree.At(span_of(meta), place, body)

    def at_value(self, meta: Meta, place: tree.Expr, value: tree.Expr) -> tree.AtValue:
        return tree.AtValue(span_of(meta), place, value)

    def binary(self, meta: Meta, left: tree.Expr, op: Any, right: tree.Expr) -> tree.Binary:
        return tree.Binary(span_of(meta), str(op), left, right)

    def unary(self, meta: Meta, op: Any, of: tree.Expr) -> tree.Expr:
        return tree.Unary(span_of(meta), str(op), of)

    def member(self, meta: Meta, of: tree.Expr, name: Any) -> tree.Member:
        return tree.Member(span_of(meta), of, str(name), span_of(name))

    def apply(self, meta: Meta, of: tree.Expr, arguments: Any) -> tree.Apply:
        return tree.Apply(span_of(meta), of, arguments or [])

    def arguments(self, meta: Meta, *them: tree.Expr) -> list[tree.Expr]:
        return list(them)

    def name(self, meta: Meta, name: Any) -> tree.Name:
        return tree.Name(span_of(name), str(name))

    def number(self, meta: Meta, word: Any) -> tree.Literal:
        value = int(word, 16) if word[:2] in ("0x", "0X") else int(word)
        if value > 2**63:
            raise Fault(span_of(word), "the number is too large", "An Int has 64 bits: at most 9223372036854775807.")
        return tree.Literal(span_of(word), value)

    def text(self, meta: Meta, word: Any) -> tree.Literal:
        span = span_of(word)
        for escape in re.finditer(r"\\(.)", word):
            if escape[1] not in ESCAPES:
                raise Fault(span, f"`{escape[0]}` is no escape", r'The escapes of a text are \n, \t, \" and \\.')
        value = re.sub(r"\\(.)", lambda it: ESCAPES[it[1]], word[1:-1])
        if len(value.encode("utf-8")) > 65_535:
            raise Fault(span, "the text is too long", "A text has at most 65,535 bytes.")
        return tree.Literal(span, value)

    def word(self, meta: Meta, word: Any) -> tree.Expr:
        if word == "here":
            return tree.Here(span_of(word))
        return tree.Literal(span_of(word), {"true": True, "false": False, "null": None}[word])

    def inside(self, meta: Meta, of: tree.Expr) -> tree.Expr:
        return of

    def new(self, meta: Meta, name: Any, arguments: Any) -> tree.New:
        return tree.New(span_of(meta), str(name), arguments or [])

    def new_rail(self, meta: Meta, element: Any, size: tree.Expr) -> tree.NewRail:
        if element != "Byte":
            raise Fault(span_of(element), f"there is no Rail[{element}]", "A rail has bytes: write Rail[Byte]. "
                        "A list of objects takes the place of other rails.")
        return tree.NewRail(span_of(meta), size)

    def make_ref(self, meta: Meta, name: Any, of: tree.Expr) -> tree.MakeRef:
        return tree.MakeRef(span_of(meta), str(name or ""), of)


PARSER = Lark((Path(__file__).parent / "grammar.lark").read_text(encoding="utf-8"), parser="lalr", propagate_positions=True,
              maybe_placeholders=True)


def refuse_outside(source: Source) -> None:
    """A word that X10 has and the subset doesn't, wherever it stands."""
    for it in WORDS.finditer(source.text):
        word = it["word"]
        if word in OUTSIDE:
            line = source.text.count("\n", 0, it.start()) + 1
            column = it.start() - source.text.rfind("\n", 0, it.start())
            raise Fault(Span(it.start(), it.end(), line, column), f"`{word}` isn't part of the subset", OUTSIDE[word])


def behind_last_word(source: Source, before: int) -> Span:
    """The character behind the last word that ends before a place."""
    text = source.text[:before]
    ends = [it.end() for it in re.finditer(r"//[^\n]*|/\*(?:.|\n)*?\*/|\S", text) if it[0][:2] not in ("//", "/*")]
    end = ends[-1] if ends else 0
    return Span(end, end + 1, text.count("\n", 0, end) + 1, end - text.rfind("\n", 0, end))


def spelling_fault(source: Source, wrong: UnexpectedInput) -> Fault:
    if isinstance(wrong, UnexpectedCharacters):
        at = wrong.pos_in_stream or 0
        span = Span(at, at + 1, wrong.line, wrong.column)
        if source.text[span.start] == '"':
            return Fault(span, "the text has no closing quote", 'A text is closed by `"` in its line; a line feed in it is \\n.')
        return Fault(span, f"`{source.text[span.start]}` doesn't belong here", "Take it out.")
    assert isinstance(wrong, UnexpectedToken)
    expected = wrong.accepts or wrong.expected
    if wrong.token.type == "$END":
        return Fault(behind_last_word(source, len(source.text)), "the source ends too early",
                     "Close what is open: a `}` is missing." if "RBRACE" in expected else "The last statement isn't complete.")
    span = span_of(wrong.token)
    if "NAME" in expected and len(expected) < 3 and wrong.token.isidentifier():
        return Fault(span, f"`{wrong.token}` is a word of X10, and no name", "Take another name.")
    if "SEMICOLON" in expected and wrong.token.type in ("SIGN", "FACTOR", "RELATION", "EQUALITY", "AND",
                                                        "OR") and "ASSIGN" in expected:
        return Fault(span, "a statement is no value",
                     "A statement is a call, an assignment, a declaration or begins with a word.")
    if "SEMICOLON" in expected:
        return Fault(behind_last_word(source, span.start), "a `;` is missing", f"Write `;` before `{wrong.token}`.")
    names = [TOLD[it] for it in TOLD if it in expected]
    told = " or ".join(f"`{it}`" for it in names)
    if "NAME" in expected and len(names) < 2:
        told = "a name" if "NUMBER" not in expected else "a value"
    return Fault(span, f"`{wrong.token}` doesn't belong here",
                 f"Write {told or 'something else'} in front of it, or take it out.")


def parse(source: Source) -> tree.Program:
    refuse_outside(source)
    try:
        program: tree.Program = Builder().transform(PARSER.parse(source.text))
    except UnexpectedInput as wrong:
        raise spelling_fault(source, wrong) from None
    except VisitError as wrong:
        if isinstance(wrong.orig_exc, (Fault, RecursionError)):
            raise wrong.orig_exc from None
        raise
    return program
