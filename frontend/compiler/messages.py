"""Where something stands in a source, and how a fault in it is told."""

from __future__ import annotations

from dataclasses import dataclass, field


@dataclass(frozen=True)
class Span:
    """A part of a source: from which character to which (exclusive), and the line and column of the first, from 1 on."""

    start: int
    end: int
    line: int
    column: int

    def to(self, other: Span) -> Span:
        return Span(self.start, max(self.end, other.end), self.line, self.column)


@dataclass
class Source:
    name: str
    text: str
    lines: list[str] = field(default_factory=list)

    def __post_init__(self) -> None:
        self.lines = self.text.split("\n")

    def of(self, span: Span) -> str:
        """The words of a span, on one line."""
        words = " ".join(self.text[span.start:span.end].split())
        return words if len(words) <= 40 else words[:37] + "..."


class Fault(Exception):
    """A program is refused: one cause, where it is, and how it is usually put right."""

    def __init__(self, span: Span, cause: str, repair: str) -> None:
        super().__init__(cause)
        self.span, self.cause, self.repair = span, cause, repair

    def told(self, source: Source) -> str:
        """file:line:column: the cause; the line; a caret below each character at fault; the repair."""
        at = self.span
        line = source.lines[at.line - 1].rstrip("\r") if at.line <= len(source.lines) else ""
        # (tabs stay tabs, so that the carets stand below what they mark)
        before = "".join("\t" if it == "\t" else " " for it in line[:at.column - 1])
        width = max(1, min(at.end - at.start, len(line) - at.column + 1))
        return (f"{source.name}:{at.line}:{at.column}: {self.cause}\n    {line}\n    {before}{'^' * width}\n{self.repair}\n")

    def as_json(self, source: Source) -> dict[str, object]:
        at = self.span
        before = source.text[:at.end]
        return {"file": source.name, "line": at.line, "column": at.column, "end_line": before.count("\n") + 1,
                "end_column": at.end - before.rfind("\n"), "cause": self.cause, "repair": self.repair}
