"""The command line: what x10c prints, and its status."""

from __future__ import annotations

import json
import os
import subprocess
import sys
import tempfile
import unittest
from pathlib import Path

from support import TOP

GOOD = """class Counter { var n: Int; }
def add(c: GlobalRef[Counter]) { at (c.home) { atomic { c().n = c().n + 1; } } }
def main() {
  val c = new Counter(7);
  val r = GlobalRef(c);
  finish for (p in Place.places()) async at (p) add(r);
  Console.OUT.println(c.n);
}
"""
BAD = "def main() {\n  val n = 1;\n  n = 2;\n}\n"


class Commands(unittest.TestCase):
    def setUp(self) -> None:
        self.room = tempfile.TemporaryDirectory()
        self.folder = Path(self.room.name)
        (self.folder / "good.x10").write_text(GOOD, encoding="utf-8")
        (self.folder / "bad.x10").write_text(BAD, encoding="utf-8")

    def tearDown(self) -> None:
        self.room.cleanup()

    def x10c(self, *words: str, given: bytes = b"", **environment: str) -> tuple[int, str, str]:
        ran = subprocess.run([sys.executable, str(TOP / "x10c"), *words], stdout=subprocess.PIPE, stderr=subprocess.PIPE,
                             input=given,
                             cwd=self.folder, env={**os.environ, **environment}, timeout=60)
        return ran.returncode, ran.stdout.decode("utf-8"), ran.stderr.decode("utf-8")

    def test_writes_the_text(self) -> None:
        self.assertEqual((0, "", ""), self.x10c("good.x10", "-o", "there.asm"))
        self.assertTrue((self.folder / "there.asm").read_text(encoding="utf-8").endswith("entry 2\n"))

    def test_names_the_text_after_the_source(self) -> None:
        self.assertEqual((0, "", ""), self.x10c("good.x10"))
        self.assertTrue((self.folder / "good.asm").is_file())
        self.assertEqual((0, "", ""), self.x10c("good.x10"))

    def test_replaces_no_text_of_others(self) -> None:
        (self.folder / "good.asm").write_text("; by hand\nplaces 1\n", encoding="utf-8")
        told = "x10c: good.asm is there, and x10c hasn't written it: to replace it, say `-o good.asm`\n"
        self.assertEqual((4, "", told), self.x10c("good.x10"))
        self.assertEqual((0, "", ""), self.x10c("good.x10", "-o", "good.asm"))

    def test_nests(self) -> None:
        """A sum of 500 numbers, and one that is too long."""
        for count, status in ((500, 0), (20_000, 1)):
            sum_ = " + ".join(["n"] * count)
            (self.folder / "sum.x10").write_text(f"def main() {{ val n = here.id; Console.OUT.println({sum_}); }}", encoding="utf-8")
            self.assertEqual(status, self.x10c("sum.x10")[0])

    def test_reads_and_writes_the_standard_streams(self) -> None:
        status, out, told = self.x10c("-", "-o", "-", given=GOOD.encode())
        self.assertEqual((0, ""), (status, told))
        self.assertIn("\nversion 2\nplaces 1\n", out)

    def test_runs(self) -> None:
        self.assertEqual((0, "0: 11\n", ""), self.x10c("run", "good.x10", "--places", "4"))
        self.assertEqual((0, '{"place":0,"number":11}\n', ""), self.x10c("run", "good.x10", "--places", "4", "--json"))

    def test_passes_the_status_of_a_run_on(self) -> None:
        status, out, told = self.x10c("run", "good.x10", "--places", "4", "--limit", "5")
        self.assertEqual((2, ""), (status, out))
        self.assertIn("x10p: limit", told)

    def test_checks(self) -> None:
        self.assertEqual((0, "", ""), self.x10c("check", "good.x10"))
        status, out, _ = self.x10c("check", "good.x10", "--json")
        self.assertEqual((0, {"file": "good.x10", "verified": True, "faults": []}), (status, json.loads(out)))

    def test_tells_bounds(self) -> None:
        wanted = "at in add (line 2): at most 8 steps\nadd (line 2): at most 11 steps\nmain (line 3): at most 331 steps\n"
        self.assertEqual((0, wanted, ""), self.x10c("bounds", "good.x10"))
        status, out, _ = self.x10c("bounds", "good.x10", "--json")
        self.assertEqual({"name": "add", "line": 2, "bound": 11}, json.loads(out)["bounds"][1])

    def test_tells_a_fault(self) -> None:
        wanted = "bad.x10:3:3: `n` is a val, and gets a second value\n      n = 2;\n      ^\nDeclare it by `var`.\n"
        self.assertEqual((1, "", wanted), self.x10c("bad.x10"))
        for command in ("run", "check", "bounds"):
            self.assertEqual((1, "", wanted), self.x10c(command, "bad.x10"))
        self.assertFalse((self.folder / "bad.asm").exists())

    def test_tells_a_fault_as_json(self) -> None:
        status, out, told = self.x10c("check", "bad.x10", "--json")
        fault = {"file": "bad.x10", "line": 3, "column": 3, "end_line": 3, "end_column": 4,
                 "cause": "`n` is a val, and gets a second value", "repair": "Declare it by `var`."}
        self.assertEqual((1, ""), (status, told))
        self.assertEqual({"file": "bad.x10", "verified": False, "faults": [fault]}, json.loads(out))

    def test_refuses_an_image(self) -> None:
        (self.folder / "image.x10").write_bytes(b"X10P\0\1\0\1")
        self.assertEqual((4, "", "x10c: image.x10 is an image of x10p, and no source: run it by `x10p run`\n"),
                         self.x10c("image.x10"))

    def test_refuses_what_is_no_file_or_text(self) -> None:
        (self.folder / "bytes.x10").write_bytes(b"def\xff")
        self.assertEqual((4, "", "x10c: bytes.x10 isn't UTF-8, at byte 3\n"), self.x10c("bytes.x10"))
        self.assertEqual((4, "", "x10c: none.x10: No such file or directory\n"), self.x10c("none.x10"))
        self.assertEqual((4, "", "x10c: no/there.asm: No such file or directory\n"), self.x10c("good.x10", "-o", "no/there.asm"))

    def test_refuses_other_words(self) -> None:
        self.assertEqual(2, self.x10c("good.x10", "--what")[0])
        self.assertEqual(2, self.x10c()[0])

    def test_tells_a_fault_of_the_verifier_by_the_source(self) -> None:
        """A verifier that refuses everything: its fault is told at the line that the instruction comes from."""
        fault = {"line": 12, "cause": "Home", "asked": "GOPEN asks it.", "known": "it isn't known", "repair": "Ask."}
        program = self.folder / "x10p"
        (self.folder / "told").write_text(json.dumps({"faults": [fault]}), encoding="utf-8")
        program.write_text("#!/bin/sh\ncat told\nexit 1\n", encoding="utf-8")
        program.chmod(0o755)
        status, out, told = self.x10c("check", "good.x10", X10P=str(program))
        self.assertEqual((1, ""), (status, out))
        self.assertRegex(told, r"^good.x10:2:\d+: x10p refuses this: it isn't known\n")
