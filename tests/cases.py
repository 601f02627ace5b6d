"""What tests/run tries: cases, which are files of tests/ and examples/ and programs in the pages of docs/, and scripts.

README.md beside this file says what a case is.
"""

import re
import shlex
from dataclasses import dataclass, field
from pathlib import Path

TOP = Path(__file__).resolve().parent.parent
REPEAT = r"\{\{(\d+) \* (.*?)\}\}"
CHARACTER = r"\{\{U\+([0-9A-F]{4,6})\}\}"


@dataclass
class Command:
    """A command of the program, and what it promises."""

    line: int
    words: list
    lines: list = field(default_factory=list)
    status: int = 0
    fault: str = ""
    explained: str = ""
    events: int = 0
    times: int = 1
    in_any_order: bool = False

    def take(self, comment):
        """Reads a comment below the command."""
        if found := re.fullmatch(r"status (\d+)(?:: (.+))?", comment):
            self.status = int(found[1])
            self.fault = f"x10p: {found[2]}\n" if found[2] else None
        elif re.match(r">( |$)", comment):
            self.explained += comment[2:] + "\n"
        elif found := re.fullmatch(r"takes (\d+) events?", comment):
            self.events = int(found[1])
        elif found := re.fullmatch(r"(\d+) times", comment):
            self.times = int(found[1])
        elif comment == "in any order":
            self.in_any_order = True
        else:
            self.lines += written_out(comment).split("\n")


class Case:
    """A file of tests/ or examples/, or a program in a page."""

    def __init__(self, path, text, is_text, line=None):
        self.path, self.line, self.is_text = path, line, is_text
        self.must_fail = path.parent == TOP / "tests" / "wrong"
        self.commands, self.same_as, self.is_canonical = [], None, False
        self.bytes = written_out(text).encode("utf-8") if is_text else bytes_in(text)
        self.read_comments(re.split(r"\r?\n", text))
        self.name = self.name_in_commands() if line else path.stem

    def name_in_commands(self):
        """The name by which its commands call a program of a page."""
        words = [word for it in self.commands for word in it.words if re.fullmatch(r"\w+\.(x10|asm)", word)]
        return Path(words[0]).stem if words else "program"

    def read_comments(self, lines):
        command = None
        for number, line in enumerate(lines, 1):
            comment = line[1:].removeprefix(" ") if line.startswith(";") else ""
            if comment.startswith("$ x10p"):
                command = Command(number, shlex.split(comment)[2:])
                self.commands.append(command)
            elif not comment:
                command = None
            elif command:
                command.take(comment)
            elif comment.startswith("same image as "):
                self.same_as = self.path.parent / comment.removeprefix("same image as ")
            elif comment == "canonical":
                self.is_canonical = True


class Script:
    """A shell script of tests/scripts, which prints what is wrong, and what it skips."""

    def __init__(self, path):
        self.path, self.line, self.must_fail = path, None, False


def written_out(text):
    """The text with each {{N * PIECE}} written out, as lines where nothing else stands on its line, and each {{U+HEX}}."""

    def as_lines(found):
        return "\n".join(int(found[1]) * [found[2].replace(" | ", "\n")])

    text = re.sub(f"(?m)^{REPEAT}$", as_lines, text)
    text = re.sub(REPEAT, lambda found: int(found[1]) * found[2], text)
    return re.sub(CHARACTER, lambda found: chr(int(found[1], 16)), text)


def bytes_in(text):
    """The bytes of hexadecimal digits, without what stands behind a semicolon."""
    return bytes.fromhex(" ".join(line.partition(";")[0] for line in text.splitlines()))


def programs_in(page):
    """The fenced blocks of a page that are programs: the line where each begins, what it holds, whether it is a text. Not those
    that a script tries: files, which are called `asm`, and commands, which are called `console`."""
    for block in re.finditer(r"(?ms)^```([^\n]*)\n(.*?)^```$", page):
        if block[1] in ("asm", "console"):
            continue
        if re.search(r"(?m)^(; \$ x10p|places )", block[2]):
            yield page.count("\n", 0, block.start()) + 1, block[2], block[1] != "hex"


def cases_in(path):
    """The case that a file is, or those in a page."""
    if path.suffix == ".sh":
        return [Script(path)]
    text = path.read_bytes().decode("utf-8")
    if path.suffix != ".md":
        return [Case(path, text, path.suffix == ".asm")]
    return [Case(path, block, is_text, line) for line, block, is_text in programs_in(text)]


def cases(word):
    """The cases, each by its path, in a page with its line; where a file can't be read, what is wrong with it."""
    files = [f"{place}/**/*.{end}" for place in ("tests", "examples") for end in ("asm", "hex")]
    paths = [it for pattern in [*files, "tests/scripts/*.sh", "tests/wrong/*.md", "docs/**/*.md"] for it in TOP.glob(pattern)]
    for path in sorted(it for it in paths if word in str(it.relative_to(TOP))):
        name = str(path.relative_to(TOP))
        try:
            for case in cases_in(path):
                yield f"{name}:{case.line}" if case.line else name, case, None
        except (UnicodeError, ValueError) as it:
            yield name, None, f"{type(it).__name__}: {it}"
