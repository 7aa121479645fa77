"""A document's text: its lines and columns as the protocol counts them, and changes of it.

The protocol counts lines and columns from 0, columns in units of UTF-16; a line ends at a line feed, a
carriage return, or both. The text is kept as the bytes that the server counts.
"""

import re
from bisect import bisect_right
from dataclasses import dataclass
from functools import cached_property

LINE_END = re.compile(rb"\r\n|\n|\r")
HALF = re.compile("[\ud800-\udfff]")


def units(text: str) -> int:
    """How many units of UTF-16 a text has."""
    return len(text) + sum(letter > "\uffff" for letter in text)


def bytes_of(text: str) -> bytes:
    """The text in UTF-8. The half of a pair of units is no text; a sign of as many units stands for it."""
    return HALF.sub("\ufffd", text).encode()


class Text:
    """The text of a document; it doesn't change."""

    def __init__(self, text: str | bytes):
        self.source = text if isinstance(text, bytes) else bytes_of(text)

    @cached_property
    def starts(self) -> list[int]:
        """The byte at which each line begins."""
        return [0, *(end.end() for end in LINE_END.finditer(self.source))]

    def line(self, number: int) -> bytes:
        """The bytes of a line, without its end."""
        start = self.starts[number]
        end = self.starts[number + 1] if number + 1 < len(self.starts) else len(self.source)
        return self.source[start:end].rstrip(b"\r\n")

    def position(self, at: int) -> dict:
        """The protocol's position of a byte."""
        number = bisect_right(self.starts, at) - 1
        before = self.source[self.starts[number] : at].decode("utf-8", errors="ignore")
        return {"line": number, "character": units(before)}

    def range(self, start: int, end: int) -> dict:
        """The protocol's range from one byte to another."""
        return {"start": self.position(start), "end": self.position(end)}

    def byte(self, line: int, character: int) -> int:
        """The byte at a position: beyond the last line the text's end, beyond a line's end the end of it, and
        within a pair of units the letter's first byte."""
        if line >= len(self.starts):
            return len(self.source)
        passed = 0
        at = self.starts[line]
        for letter in self.line(line).decode("utf-8", errors="replace"):
            passed += units(letter)
            if passed > character:
                break
            at += len(letter.encode())
        return at

    def changed(self, start: int, end: int, text: str) -> "Text":
        """The text in which another one stands from one byte to another."""
        start, end = min(start, end), max(start, end)
        return Text(self.source[:start] + bytes_of(text) + self.source[end:])


@dataclass(frozen=True)
class Version:
    """A text of a document, and its number in the editor, where it has one."""

    text: Text
    number: int | None
