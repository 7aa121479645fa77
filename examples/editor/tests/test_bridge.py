"""The bridge with a server: diagnostics, lenses, servers that are killed, changes that come fast."""

import time
import unittest

from bplclient.program import takes_workers

from .editor import SECONDS, SERVER, Editor, check_time, kill_servers, place

URI = "file:///program.bpl"
OPEN = """procedure P() {
  var x: int;
  assume x > 0;
  x := x + 1;
  assert x > 2;
}
"""
CALLS = """procedure Need(n: int);
  free requires n != 7;
  requires n > 0;
procedure Use() {
  call Need(0);
}
"""
BEFORE = "procedure Before() { /* \U0001f600\u00e9 */ assert 1 > 2; }\n"


def at(line: int, start: int, end: int, text: str) -> dict:
    """A change of a part of a line."""
    return {
        "range": {"start": {"line": line, "character": start}, "end": {"line": line, "character": end}},
        "text": text,
    }


def generated(count: int) -> str:
    """A program of many procedures, each with a loop."""
    one = """procedure P%d(x: int) returns (r: int)
  requires 0 <= x;
  ensures r >= x;
{
  var i: int;
  i := 0;
  r := x;
  while (i < 7)
    invariant 0 <= i && i <= 7;
    invariant r == x + i;
  {
    i := i + 1;
    r := r + 1;
  }
  assert r >= x + 7;
}
"""
    return "".join(one % number for number in range(count))


def pigeons(count: int) -> str:
    """So many pigeons in holes of one fewer: what the search takes very long to refute."""
    holes = range(count - 1)
    rows = [[f"p{pigeon}_{hole}" for hole in holes] for pigeon in range(count)]
    inside = ["  assume " + " || ".join(row) + ";" for row in rows]
    inside += [
        f"  assume !{rows[i][hole]} || !{rows[k][hole]};"
        for hole in holes
        for i in range(count)
        for k in range(i)
    ]
    names = ", ".join(f"{name}: bool" for row in rows for name in row)
    return "\n".join([f"procedure Pigeons({names}) {{", *inside, "  assert false;", "}", ""])


class WithBridge(unittest.TestCase):
    """A test with a bridge that has been started."""

    words: tuple[str, ...] = ()

    def setUp(self):
        self.editor = Editor(*self.words)
        self.addCleanup(self.editor.end)
        self.editor.start()


class Diagnostics(WithBridge):
    def test_a_goal_a_mend_and_a_fault(self):
        self.editor.open(URI, OPEN)
        (found,) = self.editor.diagnostics(URI, 1)
        self.assertEqual(place(found), (4, 2, 4, 15))
        self.assertEqual(
            (found["message"], found["code"]), ("This assertion might not hold.", "assert open")
        )
        self.editor.change(URI, 2, at(4, 13, 14, "1"))
        self.assertEqual(self.editor.diagnostics(URI, 2), [])
        self.editor.change(URI, 3, at(4, 9, 10, "true"))
        (found,) = self.editor.diagnostics(URI, 3)
        self.assertEqual((place(found), found["code"]), ((4, 9, 4, 13), "Sort"))
        self.assertIn("of a wrong sort (true)", found["message"])
        self.editor.change(URI, 4, {"text": OPEN})
        self.assertEqual(len(self.editor.diagnostics(URI, 4)) or len(self.editor.diagnostics(URI, 4)), 1)

    def test_a_precondition_with_the_callees_clause(self):
        self.editor.open(URI, CALLS)
        (found,) = self.editor.diagnostics(URI, 1)
        self.assertEqual((place(found), found["code"]), ((4, 2, 4, 15), "requires(1) open"))
        self.assertEqual(found["message"], "A precondition for this call might not hold.")
        (related,) = found["relatedInformation"]
        self.assertEqual((place(related["location"]), related["location"]["uri"]), ((2, 2, 2, 17), URI))
        self.assertEqual(related["message"], "This is the precondition that might not hold.")

    def test_columns_are_those_of_utf_16(self):
        self.editor.open(URI, BEFORE + OPEN)
        first, second = self.editor.diagnostics(URI, 1)
        start = len(BEFORE[: BEFORE.index("assert")].encode("utf-16-le")) // 2
        self.assertEqual(place(first), (0, start, 0, start + len("assert 1 > 2;")))
        self.assertEqual(place(second), (5, 2, 5, 15))
        self.editor.change(URI, 2, at(0, start + 11, start + 12, "0"))
        self.assertEqual(len(self.editor.diagnostics(URI, 2)), 1)

    def test_a_text_that_ends_too_early_or_has_no_token(self):
        self.editor.open(URI, "procedure P() { assert true;\n")
        (found,) = self.editor.diagnostics(URI, 1)
        self.assertEqual((place(found), found["code"]), ((0, 28, 0, 28), "Syntax"))
        self.editor.change(URI, 2, {"text": OPEN + "/* no end\n"})
        (found,) = self.editor.diagnostics(URI, 2)
        self.assertEqual((place(found), found["code"]), ((6, 0, 6, 9), "Lex"))
        self.editor.change(URI, 3, {"text": "no word " + OPEN})
        (found,) = self.editor.diagnostics(URI, 3)
        self.assertEqual((place(found), found["code"]), ((0, 0, 0, 2), "Syntax"))

    def test_a_lens_over_each_procedure(self):
        self.editor.open(URI, CALLS + OPEN + "implementation Need(n: int) { assert n > 0; assert n != 8; }")
        self.editor.diagnostics(URI, 1)
        self.editor.until(lambda message: message.get("method") == "workspace/codeLens/refresh")
        lenses = self.editor.ask("textDocument/codeLens", {"textDocument": {"uri": URI}})["result"]
        told = [(each["range"]["start"]["line"], each["command"]["title"]) for each in lenses]
        self.assertEqual(
            told, [(12, "1 of 2 goals proved"), (3, "0 of 1 goals proved"), (6, "0 of 1 goals proved")]
        )

    def test_a_closed_document_has_none(self):
        self.editor.open(URI, OPEN)
        self.editor.diagnostics(URI, 1)
        self.editor.notify("textDocument/didClose", {"textDocument": {"uri": URI}})
        self.editor.until(lambda message: message.get("params") == {"uri": URI, "diagnostics": []})
        self.editor.open(URI, OPEN, 7)
        self.assertEqual(len(self.editor.diagnostics(URI, 7)), 1)

    def test_two_documents(self):
        self.editor.open(URI, OPEN)
        self.editor.open(URI + "2", CALLS)
        self.assertEqual([each["code"] for each in self.editor.diagnostics(URI, 1)], ["assert open"])
        self.editor.change(URI + "2", 2, at(4, 12, 13, "1"))
        self.assertEqual(self.editor.diagnostics(URI + "2", 2), [])

    def test_a_text_too_long_for_a_request(self):
        self.editor.open(URI, "//" + "x" * (1 << 20) + "\n" + OPEN)
        (found,) = self.editor.diagnostics(URI, 1)
        self.assertEqual(found["code"], "Long")


class Servers(WithBridge):
    def test_a_killed_server_is_followed_by_a_new_one(self):
        self.editor.open(URI, OPEN)
        self.assertEqual(len(self.editor.diagnostics(URI, 1)), 1)
        for version in range(2, 5):
            self.assertEqual(kill_servers(self.editor.bridge), 1)
            self.editor.change(URI, version, at(4, 13, 14, str(version % 2 + 1)))
            self.assertEqual(len(self.editor.diagnostics(URI, version)), version % 2)

    def test_no_server(self):
        with Editor("--server", "/no/such/program") as editor:
            editor.start()
            editor.open(URI, OPEN)
            (found,) = editor.diagnostics(URI, 1)
            self.assertEqual(found["code"], "server")

    def test_a_program_that_is_no_server(self):
        with Editor("--server", "echo", "--workers", "0") as editor:
            editor.start()
            editor.open(URI, OPEN)
            self.assertEqual([each["code"] for each in editor.diagnostics(URI, 1)], ["server"])


class Slow(WithBridge):
    words = ("--turns", "1000000")

    def test_a_long_proof_holds_nothing_up(self):
        self.editor.open(URI, pigeons(11))
        time.sleep(1)
        begun = time.monotonic()
        lenses = self.editor.ask("textDocument/codeLens", {"textDocument": {"uri": URI}})
        self.assertEqual(lenses["result"], [])
        self.editor.open(URI + "2", OPEN)
        self.assertEqual(len(self.editor.diagnostics(URI + "2", 1)), 1)
        self.assertEqual(self.editor.end(), 0)
        self.assertLess(time.monotonic() - begun, SECONDS)

    def test_a_newer_text_is_answered_while_workers_prove(self):
        if not takes_workers(SERVER, 2):
            self.skipTest("the server takes no workers")
        self.editor.open(URI, pigeons(11) + OPEN)
        self.editor.until(lambda message: message.get("method") == "$/progress")
        self.editor.change(URI, 2, {"text": pigeons(11) + "procedure P() { assert x; }"})
        self.assertEqual([each["code"] for each in self.editor.diagnostics(URI, 2)], ["Unknown"])
        self.editor.change(URI, 3, {"text": OPEN})
        self.assertEqual(self.editor.diagnostics(URI, 3), [])
        self.assertEqual([each["code"] for each in self.editor.diagnostics(URI, 3)], ["assert open"])


class Speed(WithBridge):
    def test_changes_that_come_fast_are_taken_together(self):
        self.editor.open(URI, generated(200))
        for version in range(2, 300):
            self.editor.change(URI, version, at(0, 0, 0, "/"))
        self.editor.change(URI, 300, at(0, 0, 298, ""))
        self.assertEqual(self.editor.diagnostics(URI, 300), [])

    def test_an_edit_among_a_thousand_procedures(self):
        text = generated(1000)
        self.editor.open(URI, text)
        self.assertEqual(self.editor.diagnostics(URI, 1), [])
        line = text[: text.index("P500")].count("\n") + 14
        quickest = SECONDS
        for version in range(2, 12, 2):
            begun = time.monotonic()
            self.editor.change(URI, version, at(line, 18, 19, "8"))
            self.assertEqual(
                [place(each) for each in self.editor.diagnostics(URI, version)], [(line, 2, line, 20)]
            )
            quickest = min(quickest, time.monotonic() - begun)
            self.editor.change(URI, version + 1, at(line, 18, 19, "7"))
            self.assertEqual(self.editor.diagnostics(URI, version + 1), [])
        check_time(self, quickest)


if __name__ == "__main__":
    unittest.main()
