"""x10c lsp: a language server over standard input and output. It tells faults while a source is typed, what a name is, where it is
declared, and which classes and defs there are."""

from __future__ import annotations

import json
import sys
from pathlib import Path
from typing import Any, BinaryIO, Optional
from urllib.parse import unquote, urlparse

from .compiling import compiled
from .messages import Fault, Source, Span
from .text import Text

Json = dict[str, Any]
KINDS = {"class": 5, "field": 8, "def": 12, "constant": 14}
CAPABILITIES = {"textDocumentSync": 1, "hoverProvider": True, "definitionProvider": True, "documentSymbolProvider": True}


class Document:
    """A source that is open, and the last text that it was compiled to without a fault."""

    def __init__(self, uri: str) -> None:
        self.uri = uri
        self.source = Source(Path(unquote(urlparse(uri).path)).name, "")
        self.good: Optional[tuple[Source, Text]] = None
        self.fault: Optional[Fault] = None

    def change(self, text: str) -> None:
        self.source, self.fault = Source(self.source.name, text), None
        try:
            self.good = self.source, compiled(self.source)
        except Fault as fault:
            self.fault = fault

    def diagnostics(self) -> list[Json]:
        if self.fault is None:
            return []
        told = {"severity": 1, "source": "x10c", "message": f"{self.fault.cause}\n{self.fault.repair}"}
        return [{"range": range_of(self.source, self.fault.span), **told}]

    def use_at(self, position: Json) -> Optional[tuple[Span, Span, str]]:
        """The name at a position: its span, that of its declaration, and what it is."""
        if self.good is None:
            return None
        source, text = self.good
        at = offset_of(source, position)
        return next((use for use in text.uses if use[0].start <= at <= use[0].end), None)

    def hover(self, position: Json) -> Optional[Json]:
        use = self.use_at(position)
        if use is None or self.good is None:
            return None
        span, declared, told = use
        bounds = [bound for it, bound in zip(self.good[1].functions, self.good[1].bounds) if it.span == declared]
        steps = f"\n\nAt most {bounds[0]} steps." if bounds else ""
        return {"contents": {"kind": "markdown", "value": f"```x10\n{told}\n```{steps}"}, "range": range_of(self.good[0], span)}

    def definition(self, position: Json) -> Optional[Json]:
        use = self.use_at(position)
        return None if use is None or self.good is None else {"uri": self.uri, "range": range_of(self.good[0], use[1])}

    def symbols(self) -> list[Json]:
        """The classes, fields, constants and defs: what is declared at its own name."""
        if self.good is None:
            return []
        source, text = self.good
        found = []
        for span, declared, told in text.uses:
            word = told.split()[0] if told.split()[0] in KINDS else ""
            if span == declared and word:
                place = range_of(source, span)
                name = source.text[span.start:span.end]
                found.append({"name": name, "kind": KINDS[word], "range": place, "selectionRange": place, "detail": told})
        return sorted(found, key=lambda it: (it["range"]["start"]["line"], it["range"]["start"]["character"]))


def units(text: str) -> int:
    """How long a text is in the units of the protocol, those of UTF-16."""
    return len(text.encode("utf-16-le")) // 2


def position_of(source: Source, offset: int) -> Json:
    begin = source.text.rfind("\n", 0, offset) + 1
    return {"line": source.text.count("\n", 0, offset), "character": units(source.text[begin:offset])}


def range_of(source: Source, span: Span) -> Json:
    return {"start": position_of(source, span.start), "end": position_of(source, max(span.end, span.start + 1))}


def offset_of(source: Source, position: Json) -> int:
    lines = source.lines[:position["line"]]
    line = source.lines[position["line"]] if position["line"] < len(source.lines) else ""
    column = next((it for it in range(len(line) + 1) if units(line[:it]) >= position["character"]), len(line))
    return sum(len(it) + 1 for it in lines) + column


class Server:
    def __init__(self, given: BinaryIO, told: BinaryIO) -> None:
        self.given, self.told = given, told
        self.documents: dict[str, Document] = {}

    def read(self) -> Optional[Json]:
        length = 0
        while True:
            line = self.given.readline()
            if not line:
                return None
            if not line.strip():
                break
            name, _, value = line.decode("ascii", "replace").partition(":")
            length = int(value) if name.lower() == "content-length" else length
        message: Json = json.loads(self.given.read(length))
        return message

    def write(self, message: Json) -> None:
        data = json.dumps({"jsonrpc": "2.0", **message}).encode("utf-8")
        self.told.write(b"Content-Length: %d\r\n\r\n%s" % (len(data), data))
        self.told.flush()

    def serve(self) -> int:
        while True:
            message = self.read()
            if message is None or message.get("method") == "exit":
                return 0
            result = self.answer(str(message.get("method")), message.get("params") or {})
            if "id" in message and "method" in message:
                self.write({"id": message["id"], "result": result})

    def answer(self, method: str, words: Json) -> object:
        if method == "initialize":
            return {"capabilities": CAPABILITIES, "serverInfo": {"name": "x10c"}}
        uri = words.get("textDocument", {}).get("uri", "")
        if method == "textDocument/didOpen":
            self.change(uri, words["textDocument"]["text"])
        elif method == "textDocument/didChange":
            self.change(uri, words["contentChanges"][-1]["text"])
        elif method == "textDocument/didClose":
            self.documents.pop(uri, None)
        document = self.documents.get(uri)
        if document is None:
            return None
        if method == "textDocument/hover":
            return document.hover(words["position"])
        if method == "textDocument/definition":
            return document.definition(words["position"])
        return document.symbols() if method == "textDocument/documentSymbol" else None

    def change(self, uri: str, text: str) -> None:
        document = self.documents.setdefault(uri, Document(uri))
        document.change(text)
        told = {"uri": uri, "diagnostics": document.diagnostics()}
        self.write({"method": "textDocument/publishDiagnostics", "params": told})


def serve() -> int:
    return Server(sys.stdin.buffer, sys.stdout.buffer).serve()
