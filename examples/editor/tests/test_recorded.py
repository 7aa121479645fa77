"""The bridge against a recorded session of messages, malformed ones among them, and against noise."""

import json
import random
import unittest

from .editor import FOLDER, SECONDS, Editor

RECORDED = FOLDER / "tests" / "recorded.messages"
URI = "file:///program.bpl"


class Recorded(unittest.TestCase):
    def test_the_recorded_session(self):
        with Editor() as editor:
            for number, line in enumerate(RECORDED.read_text().splitlines(), 1):
                kind, _, rest = line.partition(" ")
                with self.subTest(line=number):
                    if kind == ">":
                        editor.body(rest.encode())
                    elif kind == "!":
                        editor.raw(json.loads(rest).encode("latin-1"))
                    elif kind == "<":
                        self.assertEqual(editor.next(), json.loads(rest))
            self.assertEqual(editor.bridge.wait(timeout=SECONDS), 0)
            self.assertIsNone(editor.next())

    def test_an_exit_without_shutdown(self):
        for last in (
            b"Content-Length: 33\r\n\r\n" + b'{"jsonrpc":"2.0","method":"exit"}',
            b"Content-Length: 99\r\n\r\n{",
            b"Content-",
        ):
            with Editor() as editor:
                editor.start()
                editor.raw(last)
                editor.bridge.stdin.close()
                self.assertEqual(editor.bridge.wait(timeout=SECONDS), 1)

    def test_an_editor_that_tells_nothing_of_itself(self):
        for params in (None, [], {}, {"capabilities": None}, {"capabilities": "all"}):
            with Editor() as editor:
                editor.ask("initialize", params)
                self.assertEqual(editor.ask("none")["error"]["code"], -32601)

    def test_deep_and_long_messages(self):
        with Editor() as editor:
            editor.start()
            editor.body(b"[" * 200_000)
            self.assertEqual(editor.next()["error"]["code"], -32700)
            editor.body(b'{"jsonrpc":"2.0","id":' + b"9" * 5000 + b"}")
            self.assertEqual(editor.next()["error"]["code"], -32700)
            self.assertEqual(editor.ask("none")["error"]["code"], -32601)


class Noise(unittest.TestCase):
    """Messages whose parts are taken at random: the bridge goes on, and answers each request once."""

    METHODS = [
        "textDocument/didOpen",
        "textDocument/didChange",
        "textDocument/didSave",
        "textDocument/didClose",
        "textDocument/codeLens",
        "none",
    ]

    def value(self, chance: random.Random, depth: int = 0):
        leaves = [None, True, -1, 0, 3, 1.5, "", "x", URI, "procedure P() { assert 1 == 2; }", [], {}]
        if depth > 3 or chance.random() < 0.2:
            return chance.choice(leaves)
        names = [
            "textDocument",
            "uri",
            "version",
            "text",
            "contentChanges",
            "range",
            "start",
            "end",
            "line",
            "character",
        ]
        if chance.random() < 0.2:
            return [self.value(chance, depth + 1) for _ in range(chance.randrange(3))]
        return {name: self.value(chance, depth + 1) for name in chance.sample(names, chance.randrange(5))}

    def params(self, chance: random.Random):
        """Parameters that are almost right."""
        if chance.random() < 0.3:
            return self.value(chance)
        where = {"line": chance.randrange(-1, 3), "character": chance.choice([0, 1, 40, "1", None])}
        change = {
            "text": chance.choice(["", "procedure P() { }", "\ud83d", 5]),
            "range": chance.choice([None, {"start": where, "end": where}]),
        }
        return {
            "textDocument": {
                "uri": URI,
                "version": chance.choice([1, None, "2"]),
                "text": "procedure P() { assert 1 == 2; }",
            },
            "contentChanges": [change],
        }

    def test_noise(self):
        chance = random.Random(1)
        asked = [f"n{number}" for number in range(300) if chance.random() < 0.5]
        with Editor() as editor:
            editor.start()
            for number in range(300):
                message = {"method": chance.choice(self.METHODS), "params": self.params(chance)}
                editor.send(message | ({"id": f"n{number}"} if f"n{number}" in asked else {}))
            editor.send({"id": "last", "method": "none"})
            answered = []
            while (message := editor.next()).get("id") != "last":
                # what has a method too is asked of the editor, where it was idle for a while
                answered += [message["id"]] if "id" in message and "method" not in message else []
            self.assertEqual(answered, asked)
            self.assertEqual(editor.end(), 0)


if __name__ == "__main__":
    unittest.main()
