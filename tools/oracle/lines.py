"""Lines of a file, and what is wrong with one."""
from __future__ import annotations

from dataclasses import dataclass


class Fault(Exception):
    """A line that is not what it must be, told with its file and number."""


@dataclass(frozen=True)
class Line:
    """A line without its end. Where the file is too short for it, the text is None."""

    file: str
    number: int
    text: str | None

    def fault(self, expected: str) -> Fault:
        """Says that this was expected here in place of what stands here."""
        found = "the end of the file" if self.text is None else f"`{self.text}`"
        return Fault(f"{self.file}, line {self.number}: expected {expected}, found {found}")

    def require(self, holds: bool, expected: str) -> None:
        """Refuses the line with what was expected, unless the condition holds."""
        if not holds:
            raise self.fault(expected)


class Lines:
    """The lines of a file, taken one after the other."""

    def __init__(self, file: str, text: str) -> None:
        self.file = file
        self.texts = text.removesuffix("\n").split("\n") if text else []
        self.ends_in_a_line = not text.endswith("\n")
        self.taken = 0

    def at_end(self) -> bool:
        """Whether all lines are taken."""
        return self.taken >= len(self.texts)

    def take(self) -> Line:
        """The next line; after the last one a line without a text."""
        text = None if self.at_end() else self.texts[self.taken]
        self.taken += 1
        return Line(self.file, self.taken, text)

    def expect(self, text: str) -> None:
        """Takes a line that must have this text."""
        line = self.take()
        line.require(line.text == text, f"`{text}`")

    def expect_end(self) -> None:
        """Expects that all lines are taken, and that the last one ended with a line feed."""
        line = self.take()
        line.require(line.text is None, "the end of the report")
        line.require(not self.ends_in_a_line, "a line feed before the end")
