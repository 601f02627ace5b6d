"""The language server: messages that an editor sends, and what comes back."""

from __future__ import annotations

import io
import json
import unittest
from typing import Any

from compiler.server import Server

URI = "file:///sources/box%20one.x10"
SOURCE = """class Box { var n: Int; }
static val STEP = 2;
def add(b: Box): Int = b.n + STEP;
def main() {
  val s = "𝄞"; val b = new Box(1);
  Console.OUT.println(add(b));
}
"""


def conversation(*messages: tuple[str, Any]) -> list[Any]:
    """What the server writes when it gets these messages, each with its number."""
    given = b""
    for number, (method, words) in enumerate(messages):
        data = json.dumps({"jsonrpc": "2.0", "id": number, "method": method, "params": words}).encode("utf-8")
        given += b"Content-Length: %d\r\n\r\n" % len(data) + data
    told = io.BytesIO()
    Server(io.BytesIO(given), told).serve()
    found, data = [], told.getvalue()
    while data:
        head, _, rest = data.partition(b"\r\n\r\n")
        length = int(head.split(b":")[1])
        found.append(json.loads(rest[:length]))
        data = rest[length:]
    return found


def opened(text: str) -> tuple[str, Any]:
    return "textDocument/didOpen", {"textDocument": {"uri": URI, "languageId": "x10", "version": 1, "text": text}}


def asked(method: str, line: int, character: int) -> tuple[str, Any]:
    return f"textDocument/{method}", {"textDocument": {"uri": URI}, "position": {"line": line, "character": character}}


class Servers(unittest.TestCase):
    def test_tells_what_it_can(self) -> None:
        found = conversation(("initialize", {}), ("initialized", {}), ("shutdown", None))
        self.assertTrue(found[0]["result"]["capabilities"]["hoverProvider"])
        self.assertIsNone(found[-1]["result"])

    def test_tells_faults_while_typing(self) -> None:
        changed = {"textDocument": {"uri": URI}, "contentChanges": [{"text": SOURCE.replace("b.n + ", "b.m + ")}]}
        found = conversation(opened(SOURCE), ("textDocument/didChange", changed))
        told = [it["params"]["diagnostics"] for it in found if it.get("method") == "textDocument/publishDiagnostics"]
        self.assertEqual([], told[0])
        self.assertEqual({"start": {"line": 2, "character": 25}, "end": {"line": 2, "character": 26}}, told[1][0]["range"])
        self.assertEqual("`Box` has no field `m`\nIt has n.", told[1][0]["message"])

    def test_tells_what_a_name_is(self) -> None:
        places = [(5, 23), (2, 25), (2, 30), (5, 0)]
        found = conversation(opened(SOURCE), *(asked("hover", *place) for place in places))
        told = [it["result"] and it["result"]["contents"]["value"] for it in found if "id" in it][1:]
        wanted = ["```x10\ndef add(b: Box): Int\n```\n\nAt most 4 steps.", "```x10\nfield var Box.n: Int\n```",
                  "```x10\nconstant STEP: Int\n```", None]
        self.assertEqual(wanted, told)

    def test_goes_to_declarations(self) -> None:
        found = conversation(opened(SOURCE), asked("definition", 5, 26), asked("definition", 2, 11))
        told = [it["result"]["range"]["start"] for it in found if it.get("id")]
        # (the character before b takes two units)
        self.assertEqual([{"line": 4, "character": 20}, {"line": 0, "character": 6}], told)

    def test_lists_what_there_is(self) -> None:
        found = conversation(opened(SOURCE), ("textDocument/documentSymbol", {"textDocument": {"uri": URI}}))
        self.assertEqual(["Box", "n", "STEP", "add", "main"], [it["name"] for it in found[-1]["result"]])

    def test_knows_the_last_good_source(self) -> None:
        changed = {"textDocument": {"uri": URI}, "contentChanges": [{"text": SOURCE + "def"}]}
        found = conversation(opened(SOURCE), ("textDocument/didChange", changed), asked("hover", 2, 5))
        self.assertIn("def add", found[-1]["result"]["contents"]["value"])
