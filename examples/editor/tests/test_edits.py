"""After any edits a session says of a text what `check` says of it, at the same places."""

import random
import unittest

from bplclient.findings import Program, Report
from bplclient.session import Options, Session
from bplclient.source import cut
from check import report_of

from .editor import FOLDER, SERVER

TURNS = 2000
EXAMPLES = ["queue", "free_clauses", "logical_functions", "user_types", "axioms", "forward_goto"]
PIECES = [
    b";",
    b"{",
    b"}",
    b"(",
    b"/*",
    b'"',
    b"\xc3\xa9",
    b"var z: int;",
    b"procedure",
    b"requires false;",
]


def without_a_declaration(text: bytes, chance: random.Random) -> bytes:
    gone = chance.choice(cut(text))
    return text[: gone.start] + text[gone.end :]


def with_a_declaration_moved_to_the_end(text: bytes, chance: random.Random) -> bytes:
    moved = chance.choice(cut(text))
    return text[: moved.start] + text[moved.end :] + b"\n" + moved.text


def with_another_procedure(text: bytes, chance: random.Random) -> bytes:
    start = chance.choice(cut(text)).start
    relation = chance.choice([b"<", b">", b"!="])
    new = b"procedure Q%d(n: int) { assert n %s 3; } /* \xc3\xa9 } */ " % (chance.randrange(99), relation)
    return text[:start] + new + text[start:]


def with_other_signs(text: bytes, chance: random.Random) -> bytes:
    old, new = chance.choice(
        [(b"1", b"2"), (b"<=", b"<"), (b"+", b"-"), (b" x", b" (x)"), (b"int", b"bool")]
    )
    return text.replace(old, new, chance.randrange(1, 4))


def without_a_line(text: bytes, chance: random.Random) -> bytes:
    lines = text.split(b"\n")
    del lines[chance.randrange(len(lines))]
    return b"\n".join(lines)


def with_other_line_ends(text: bytes, chance: random.Random) -> bytes:
    return text.replace(b"\n", chance.choice([b"\n\n", b"\r\n", b" // y\n"]), chance.randrange(9))


def with_a_piece(text: bytes, chance: random.Random) -> bytes:
    at = chance.randrange(len(text))
    return text[:at] + chance.choice(PIECES) + text[at + chance.randrange(3) :]


EDITS = [
    without_a_declaration,
    with_a_declaration_moved_to_the_end,
    with_another_procedure,
    with_other_signs,
    without_a_line,
    with_other_line_ends,
    with_a_piece,
]


class Edits(unittest.TestCase):
    def test_edits_at_random(self):
        chance = random.Random(47)
        command = [SERVER, "check", "--turns", str(TURNS)]
        for example in EXAMPLES:
            whole = text = (FOLDER.parent / f"{example}.bpl").read_bytes()
            session = Session(Options(SERVER, TURNS, 0))
            self.addCleanup(session.end)
            for _ in range(15):
                # a text that is no longer accepted is taken back now and then
                before = text if cut(text) and chance.random() < 0.7 else whole
                text = chance.choice(EDITS)(before, chance)
                program = Program(text)
                wrong = session.send(program)
                found = Report([wrong], []) if wrong else session.report()
                self.assertEqual(found, report_of(text, command), text.decode())


if __name__ == "__main__":
    unittest.main()
