"""Cuts the text of a Boogie program into declarations and clauses, and tells lines and columns.

Comments, strings and attributes are read as `bplserve` reads them. A place within this module is the
number of a byte of the text, from 0. The server tells places as `LINE:COL`, counted from 1 and from the
first byte of a declaration, in bytes; `byte_at` finds the byte, `line_and_column` tells it for the file.
"""

import codecs
import re
from collections.abc import Iterator
from dataclasses import dataclass

# A comment without an end reaches to the end of the text; it is a token here, so that it belongs to the
# declaration before it, as does each byte at which no token begins: the server tells what is wrong.
TOKEN = re.compile(
    rb"""(?P<blank>[ \t\r\n]+|//[^\n]*|/\*.*?\*/)
       | (?P<name>[A-Za-z'~\#$^_.?`][A-Za-z0-9'~\#$^_.?`]*)
       | (?P<open>[({\[])
       | (?P<close>[)}\]])
       | (?P<end>;)
       | [0-9]+ | "[^"\n]*" | /\*.*
       | <==>|==>|<==|:=|::|==|!=|<=|>=|<:|&&|\|\||\+\+
       | .""",
    re.VERBOSE | re.DOTALL,
)

# Within brackets only these count, and a declaration ends at none of them.
INSIDE = re.compile(
    rb"""(?P<open>[({\[]) | (?P<close>[)}\]]) | //[^\n]* | /\*.*?\*/ | /\*.* | "[^"\n]*" | [^(){}\[\]"/]+ | .""",
    re.VERBOSE | re.DOTALL,
)

HEADS = {b"const", b"function", b"axiom", b"var", b"type", b"procedure", b"implementation"}

# The byte that stands for one that is no UTF-8. No token begins with it, as with the byte itself.
NO_TEXT = "\x01"
codecs.register_error("no-text", lambda error: (NO_TEXT * (error.end - error.start), error.end))


def text_of(source: bytes) -> str:
    """The text of these bytes; what is no UTF-8 becomes as many bytes at which no token begins."""
    return source.decode("utf-8", errors="no-text")


@dataclass(frozen=True)
class Declaration:
    """A declaration: its name in a session, empty where it has none, and the bytes from which it goes on."""

    name: str
    start: int
    text: bytes

    @property
    def end(self) -> int:
        return self.start + len(self.text)


@dataclass(frozen=True)
class Clause:
    """A statement or a clause of a contract: its word, and from which byte to which it stands."""

    word: str
    start: int
    end: int
    free: bool = False


def tokens(source: bytes, start: int = 0, end: int | None = None) -> Iterator[re.Match[bytes]]:
    """The tokens between two places, without blanks and comments."""
    for token in TOKEN.finditer(source, start, len(source) if end is None else end):
        if token.lastgroup != "blank":
            yield token


@dataclass
class Piece:
    """A declaration while it is being read: its first word, its first name, where its last token ends."""

    head: bytes
    start: int
    end: int
    name: bytes = b""


def spans(source: bytes) -> Iterator[tuple[re.Match[bytes], int]]:
    """The text in order, without blanks: tokens outside brackets, and longer spans within them. Each comes
    with the number of brackets around it."""
    depth = 0
    at = 0
    while found := (INSIDE if depth else TOKEN).match(source, at):
        at = found.end()
        if found.lastgroup == "close":
            depth = max(0, depth - 1)
        if found.lastgroup != "blank":
            yield found, depth
        if found.lastgroup == "open":
            depth += 1


def pieces_of(source: bytes) -> list[Piece]:
    """The pieces of a text, each from one of the words of `HEADS` outside all brackets to the next."""
    pieces: list[Piece] = []
    for span, depth in spans(source):
        word = span.group() if span.lastgroup == "name" and depth == 0 else b""
        if word in HEADS or not pieces:
            # what no word begins is a piece of its own, so that it isn't lost
            pieces.append(Piece(word if word in HEADS else b"", span.start(), span.end()))
            continue
        pieces[-1].end = span.end()
        if word and word != b"unique" and not pieces[-1].name:
            pieces[-1].name = word
    return pieces


def cut(source: bytes) -> list[Declaration]:
    """The declarations of a text, by the names that they have in a session."""
    found = []
    axioms = 0
    for piece in pieces_of(source):
        name = piece.name.decode() if piece.head else ""
        if piece.head == b"axiom":
            axioms += 1
            name = f"@{axioms}"
        elif piece.head == b"implementation" and name:
            name = f"implementation {name}"
        found.append(Declaration(name, piece.start, source[piece.start : piece.end]))
    return found


def edit_of(old: list[Declaration], new: list[Declaration]) -> dict | None:
    """The smallest edit that makes the new declarations of the old ones, or None where none does.

    What is put under a name stands where that name stood, or at the end. So a new declaration elsewhere,
    and declarations in another order, need the whole text.
    """
    before = {each.name: each.text for each in old}
    after = {each.name: each.text for each in new}
    if len(before) != len(old) or len(after) != len(new) or "" in after:
        return None
    kept = [name for name in before if name in after]
    added = [name for name in after if name not in before]
    if kept + added != list(after):
        return None
    put = [
        {"name": name, "text": text_of(text)} for name, text in after.items() if before.get(name) != text
    ]
    return {"op": "edit", "put": put, "drop": [name for name in before if name not in after]}


def clause_at(source: bytes, start: int) -> Clause:
    """The statement or clause whose word stands at a place, up to its semicolon."""
    end = start
    word = ""
    for token in tokens(source, start):
        word = word or text_of(token.group())
        if token.lastgroup == "name" and token.group() in HEADS:
            break
        end = token.end()
        if token.lastgroup == "end":
            break
    return Clause(word, start, end)


def contract_of(source: bytes, procedure: Declaration) -> list[Clause]:
    """The `requires` and `ensures` of a procedure, in order."""
    found = []
    depth = 0
    before = b""
    for token in tokens(source, procedure.start, procedure.end):
        word = token.group()
        if token.lastgroup == "open":
            depth += 1
        elif token.lastgroup == "close":
            depth = max(0, depth - 1)
        elif depth == 0 and word in (b"requires", b"ensures"):
            clause = clause_at(source, token.start())
            found.append(Clause(clause.word, clause.start, clause.end, free=before == b"free"))
        before = word
    return found


def called_by(source: bytes, call: Clause) -> str:
    """The name of the procedure that a `call` calls: the name before its first `(` outside attributes."""
    depth = 0
    name = ""
    for token in tokens(source, call.start, call.end):
        word = token.group()
        if word == b"(" and depth == 0:
            return name
        depth += {b"{": 1, b"}": -1}.get(word, 0)
        if token.lastgroup == "name":
            name = word.decode()
    return name


def token_at(source: bytes, start: int) -> tuple[int, int]:
    """Where the token at a place begins and ends; where none begins, a letter; at a blank it is empty. Of a
    comment without an end it is the first line."""
    token = TOKEN.match(source, start)
    if token is None or token.lastgroup == "blank":
        return start, start
    end = token.end()
    while end < len(source) and 0x80 <= source[end] < 0xC0:
        # the rest of a letter that isn't ASCII
        end += 1
    line_end = source.find(b"\n", start)
    return start, end if line_end < 0 else min(end, line_end)


def byte_at(source: bytes, start: int, told: str) -> int:
    """The place that is told as `LINE:COL` from the byte `start` on; 0:0 is the text's first byte."""
    line, column = (int(number) for number in told.split(":"))
    if line == 0:
        return 0
    at = start
    for _ in range(line - 1):
        at = source.find(b"\n", at) + 1
    return min(at + column - 1, len(source))


def line_and_column(source: bytes, at: int) -> tuple[int, int]:
    """The line and the column of a place in the file, counted from 1, the column in bytes."""
    return source.count(b"\n", 0, at) + 1, at - source.rfind(b"\n", 0, at)
