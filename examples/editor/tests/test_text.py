"""Lines and columns in UTF-16, and changes, beside a plain model of them."""

import random
import unittest

from lsp.text import Text, bytes_of

LETTERS = ["a", "b", ";", "\u00e9", "\u20ac", "\U0001f600", "\n", "\r\n", "\r"]


def model_lines(text: str) -> list[str]:
    """The lines of a text with their ends."""
    lines = [""]
    at = 0
    while at < len(text):
        end = text[at : at + 2] if text[at : at + 2] == "\r\n" else text[at]
        lines[-1] += end
        at += len(end)
        if end[0] in "\r\n":
            lines.append("")
    return lines


class Positions(unittest.TestCase):
    def test_units(self):
        text = Text("x\U0001f600\u00e9y\n")
        self.assertEqual(text.position(len("x\U0001f600\u00e9".encode())), {"line": 0, "character": 4})
        self.assertEqual(text.byte(0, 4), 7)
        # within a pair, beyond the line, beyond the text
        self.assertEqual(text.byte(0, 2), 1)
        self.assertEqual(text.byte(0, 99), 8)
        self.assertEqual(text.byte(7, 0), 9)

    def test_halves_of_pairs(self):
        self.assertEqual(bytes_of("a\ud83d"), "a\ufffd".encode())

    def test_beside_a_model(self):
        chance = random.Random(47)
        for _ in range(300):
            text = "".join(chance.choice(LETTERS) for _ in range(chance.randrange(12)))
            at = 0
            for number, line in enumerate(model_lines(text)):
                letters = line.rstrip("\r\n")
                for count in range(len(letters) + 1):
                    character = len(letters[:count].encode("utf-16-le")) // 2
                    byte = len((text[:at] + letters[:count]).encode())
                    self.assertEqual(Text(text).byte(number, character), byte)
                    self.assertEqual(Text(text).position(byte), {"line": number, "character": character})
                at += len(line)


class Changes(unittest.TestCase):
    def test_a_change(self):
        text = Text("a\U0001f600b\nc")
        self.assertEqual(
            text.changed(text.byte(0, 1), text.byte(0, 3), "\u00e9").source.decode(), "a\u00e9b\nc"
        )
        self.assertEqual(text.changed(text.byte(1, 1), text.byte(0, 4), "").source.decode(), "a\U0001f600b")


if __name__ == "__main__":
    unittest.main()
