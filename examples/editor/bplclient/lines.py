"""Findings as lines in Boogie's form, `FILE(LINE,COL): Error: ..`, as error lists of editors read them.

Lines and columns are counted from 1, columns in bytes.
"""

from collections.abc import Iterator

from .findings import Finding
from .source import line_and_column


def lines_of(file: str, source: bytes, findings: list[Finding]) -> Iterator[str]:
    """The lines of some findings: each an error, and then the places that belong to it."""
    for finding in findings:
        yield f"{place(file, source, finding.start)}: Error: {finding.message}"
        for related in finding.related:
            yield f"{place(file, source, related.start)}: Related location: {related.message}"


def place(file: str, source: bytes, at: int) -> str:
    """A place of a file."""
    line, column = line_and_column(source, at)
    return f"{file}({line},{column})"
