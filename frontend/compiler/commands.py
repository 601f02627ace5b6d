"""The command line of x10c."""

from __future__ import annotations

import argparse
import json
import os
import shutil
import signal
import subprocess
import sys
import tempfile
from pathlib import Path
from typing import Optional

from .compiling import compiled
from .messages import Fault, Source
from .server import serve
from .text import WRITTEN, Text

IMAGE = b"X10P"
MOST_CALLS = 5000
USAGE = """x10c FILE.x10 [-o FILE.asm] [--json]
       x10c run FILE.x10 [OPTION of x10p run ..]
       x10c check FILE.x10 [--json]
       x10c bounds FILE.x10 [--json]
       x10c lsp"""


class Refused(Exception):
    """What is no fault of a program: a line, and the status."""

    def __init__(self, line: str, status: int) -> None:
        super().__init__(line)
        self.status = status


def read(name: str) -> Source:
    try:
        data = Path(name).read_bytes() if name != "-" else sys.stdin.buffer.read()
    except OSError as wrong:
        raise Refused(f"{name}: {wrong.strerror}", 4) from None
    if data.startswith(IMAGE):
        raise Refused(f"{name} is an image of x10p, and no source: run it by `x10p run`", 4)
    try:
        return Source(name, data.decode("utf-8-sig"))
    except UnicodeDecodeError as wrong:
        raise Refused(f"{name} isn't UTF-8, at byte {wrong.start}", 4) from None


def program() -> str:
    """The program that runs texts: X10P names it, or it is on the path, or built in this repository."""
    built = Path(__file__).resolve().parents[2] / "crates" / "x10p" / "out" / "x10p"
    found = os.environ.get("X10P") or shutil.which("x10p") or (str(built) if built.is_file() else None)
    if not found:
        raise Refused("there is no x10p: put it on the path, or name it in the variable X10P", 4)
    return found


def write(text: Text, name: str) -> None:
    try:
        if name == "-":
            sys.stdout.write(text.text())
        else:
            Path(name).write_text(text.text(), encoding="utf-8")
    except OSError as wrong:
        raise Refused(f"{name}: {wrong.strerror}", 4) from None


def compile_command(words: argparse.Namespace, rest: list[str]) -> int:
    source = read(words.file)
    name = words.output or (words.file[:-4] if words.file.endswith(".x10") else words.file) + ".asm"
    if words.output is None and words.file == "-":
        name = "-"
    text = compiled(source)
    if words.output is None and name != "-" and not is_replaced(name):
        raise Refused(f"{name} is there, and x10c hasn't written it: to replace it, say `-o {name}`", 4)
    write(text, name)
    return 0


def is_replaced(name: str) -> bool:
    """Whether a text may be written without being asked for: there is none, or it is one of x10c's."""
    try:
        with open(name, encoding="utf-8", errors="replace") as it:
            return it.readline().rstrip("\n").endswith(WRITTEN)
    except FileNotFoundError:
        return True
    except OSError:
        return False


def run_command(words: argparse.Namespace, rest: list[str]) -> int:
    """Compiles, and has x10p verify and run the text."""
    text = compiled(read(words.file))
    with tempfile.TemporaryDirectory() as folder:
        name = f"{folder}/{Path(words.file).stem}.asm"
        write(text, name)
        return subprocess.run([program(), "run", name, *rest, *(["--json"] if words.json else [])]).returncode


def bounds_command(words: argparse.Namespace, rest: list[str]) -> int:
    text = compiled(read(words.file))
    rows = [(it.full_name(), it.span.line, bound) for it, bound in zip(text.functions, text.bounds)]
    if words.json:
        told = [{"name": name, "line": line, "bound": bound} for name, line, bound in rows]
        print(json.dumps({"file": words.file, "bounds": told}))
    else:
        for name, line, bound in rows:
            print(f"{name} (line {line}): at most {bound} steps")
    return 0


def check_command(words: argparse.Namespace, rest: list[str]) -> int:
    """Compiles, and has x10p verify the text. What it refuses is told by the lines of the source."""
    source = read(words.file)
    text = compiled(source)
    with tempfile.TemporaryDirectory() as folder:
        name = f"{folder}/{Path(words.file).stem}.asm"
        write(text, name)
        ran = subprocess.run([program(), "check", name, "--json"], stdout=subprocess.PIPE, stderr=subprocess.PIPE,
                             encoding="utf-8")
    try:
        told = json.loads(ran.stdout)
    except ValueError:
        raise Refused(f"x10p check: {ran.stderr.strip()}", ran.returncode or 2) from None
    fault = verifier_fault(text, told)
    if fault:
        raise fault
    if words.json:
        print(json.dumps({"file": words.file, "verified": True, "faults": []}))
    return 0


def verifier_fault(text: Text, told: dict) -> Optional[Fault]:  # type: ignore[type-arg]
    """The first fault of the verifier, at the line of the source that its instruction comes from."""
    for it in told.get("faults", []):
        line = it.get("line") or 1
        spans = [span for span in text.spans[:line] if span is not None]
        repair = f"x10p: {it['cause']} in line {line} of the text. {it['asked']} {it['repair']}"
        return Fault(spans[-1] if spans else text.functions[-1].span, f"x10p refuses this: {it['known'] or it['cause']}", repair)
    return None


def lsp_command(words: argparse.Namespace, rest: list[str]) -> int:
    return serve()


COMMANDS = {"lsp": lsp_command, "run": run_command, "check": check_command, "bounds": bounds_command}


def parsed(arguments: list[str]) -> tuple[argparse.Namespace, list[str]]:
    command = arguments[0] if arguments and arguments[0] in COMMANDS else ""
    parser = argparse.ArgumentParser(prog="x10c", usage=USAGE, description="Compiles a subset of X10 to the text of x10p.")
    if command != "lsp":
        parser.add_argument("file", metavar="FILE.x10")
    parser.add_argument("--json", action="store_true", help="faults and answers as JSON")
    if not command:
        parser.add_argument("-o", dest="output", metavar="FILE.asm", help="where the text goes; `-` is standard output")
    words, rest = parser.parse_known_args(arguments[1:] if command else arguments)
    if rest and command != "run":
        parser.error(f"unknown: {' '.join(rest)}")
    words.command = command
    return words, rest


def main(arguments: list[str]) -> int:
    words, rest = parsed(arguments)
    # (long sums and chains of else nest deeply)
    sys.setrecursionlimit(MOST_CALLS)
    # a reader that has gone, as `head`, ends this program without a word
    signal.signal(signal.SIGPIPE, signal.SIG_DFL)
    try:
        return COMMANDS.get(words.command, compile_command)(words, rest)
    except Refused as refused:
        print(f"x10c: {refused}", file=sys.stderr)
        return refused.status
    except Fault as fault:
        source = read(words.file)
        if words.json:
            print(json.dumps({"file": words.file, "verified": False, "faults": [fault.as_json(source)]}))
        else:
            sys.stderr.write(fault.told(source))
        return 1
