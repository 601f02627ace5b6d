"""What the tests share: compiling a source, and running its text by x10p."""

from __future__ import annotations

import os
import subprocess
import tempfile
from pathlib import Path
from typing import Optional

from compiler.compiling import compiled
from compiler.messages import Source
from compiler.text import Text

TOP = Path(__file__).resolve().parent.parent
# in which orders the activities of a program are run
ORDERS: list[list[str]] = [[], ["--threads"], ["--seed", "1"], ["--seed", "2"], ["--schedule", "newest"], ["--schedule", "oldest"]]


def x10p(*words: str) -> tuple[int, list[str], str]:
    """The status of a command, its lines, and what it says on standard error."""
    ran = subprocess.run([os.environ["X10P"], *words], stdout=subprocess.PIPE, stderr=subprocess.PIPE, encoding="utf-8",
                         timeout=60)
    return ran.returncode, ran.stdout.split("\n")[:-1], ran.stderr.strip()


def text_of(name: str, source: str) -> Text:
    return compiled(Source(name, source))


class Runs:
    """A text as a file, while it is run."""

    def __init__(self, text: Text) -> None:
        self.folder = tempfile.TemporaryDirectory()
        self.name = f"{self.folder.name}/program.asm"
        Path(self.name).write_text(text.text(), encoding="utf-8")

    def __enter__(self) -> Runs:
        return self

    def __exit__(self, *_: object) -> None:
        self.folder.cleanup()

    def run(self, *words: str) -> tuple[int, list[str], str]:
        return x10p("run", self.name, *words)

    def bounds(self) -> tuple[int, list[str], str]:
        return x10p("bounds", self.name)

    def refusal(self) -> Optional[str]:
        """Why the verifier refuses the text, if it does."""
        status, _, told = x10p("verify", self.name)
        return told if status else None
