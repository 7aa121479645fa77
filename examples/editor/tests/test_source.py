"""The cutting of texts, without a server."""

import unittest

from bplclient.findings import Program
from bplclient.source import byte_at, called_by, clause_at, cut, edit_of, line_and_column, text_of, token_at

PROGRAM = rb"""// procedure Hidden();
const {:a "procedure X;"} unique a, b: T; /* axiom true; */
type T;
axiom {:b "}"} a != b;
function {:inline} f(x: int): int { x + 1 }
axiom (forall k: int :: {f(k)} f(k) > k);
procedure {:c f(1)} P(x: int) returns (r: int);
  free requires x > 1;
  requires {:msg "a;b"} (forall k: int :: k > x ==> f(k) > x);
  requires x > 0; // one; two
  ensures r > x;
implementation P(x: int) returns (r: int) { call {:d f(2)} r := Q(f(x)); assert r > x; }
procedure Q(x: int) returns (r: int) { r := x; }
"""


class Cutting(unittest.TestCase):
    def test_names(self):
        names = [each.name for each in cut(PROGRAM)]
        self.assertEqual(names, ["a", "T", "@1", "f", "@2", "P", "implementation P", "Q"])

    def test_each_text_is_a_declaration(self):
        for each in cut(PROGRAM):
            self.assertIn(each.text[-1:], b";}")
            self.assertEqual(PROGRAM[each.start : each.end], each.text)

    def test_what_no_word_begins_is_kept(self):
        self.assertEqual([each.text for each in cut(b"x y; var z: int;")], [b"x y;", b"var z: int;"])
        self.assertEqual(
            [each.text for each in cut(b"procedure P() } ; ? var z: int;")][0], b"procedure P() } ; ?"
        )

    def test_open_brackets_comments_and_strings(self):
        self.assertEqual(len(cut(b"procedure P() { procedure Q();")), 1)
        self.assertEqual(len(cut(b"procedure P(); /* procedure Q();")), 1)
        self.assertEqual(len(cut(b'procedure P(); " procedure Q();')), 2)

    def test_words_are_whole(self):
        self.assertEqual(
            [each.name for each in cut(b"var variable, var.x: int; var x'var: int;")], ["variable", "x'var"]
        )

    def test_bytes_that_are_no_text(self):
        self.assertEqual(text_of(b"a\xff\xfeb \xc3\xa9"), "a\x01\x01b \u00e9")


class Edits(unittest.TestCase):
    def edit(self, old: bytes, new: bytes):
        return edit_of(cut(old), cut(new))

    def test_what_is_put_and_dropped(self):
        old = b"var x: int; procedure P(); procedure Q();"
        self.assertEqual(
            self.edit(old, b"var x: int;   procedure P(); procedure Q();"),
            {"op": "edit", "put": [], "drop": []},
        )
        new = b"var x: int; procedure P() { } procedure R();"
        put = [{"name": "P", "text": "procedure P() { }"}, {"name": "R", "text": "procedure R();"}]
        self.assertEqual(self.edit(old, new), {"op": "edit", "put": put, "drop": ["Q"]})

    def test_an_axiom_before_others(self):
        edit = self.edit(b"axiom true; axiom 1 < 2;", b"axiom 0 < 1; axiom true; axiom 1 < 2;")
        self.assertEqual([each["name"] for each in edit["put"]], ["@1", "@2", "@3"])

    def test_what_needs_the_whole_text(self):
        old = b"procedure P(); procedure Q();"
        for new in (
            b"procedure Q(); procedure P();",
            b"procedure R(); procedure P(); procedure Q();",
            b"procedure P(); procedure P();",
            b"; procedure P(); procedure Q();",
        ):
            self.assertIsNone(self.edit(old, new))


class Places(unittest.TestCase):
    def test_a_place_counts_from_the_declaration(self):
        source = b"\xc3\xa9 first\n  second\nthird"
        self.assertEqual(line_and_column(source, byte_at(source, 3, "1:1")), (1, 4))
        self.assertEqual(line_and_column(source, byte_at(source, 3, "2:3")), (2, 3))
        self.assertEqual(byte_at(source, 3, "0:0"), 0)

    def test_statements_end_at_their_semicolon(self):
        start = PROGRAM.index(b"requires {:msg")
        clause = clause_at(PROGRAM, start)
        self.assertEqual(
            PROGRAM[clause.start : clause.end],
            b'requires {:msg "a;b"} (forall k: int :: k > x ==> f(k) > x);',
        )

    def test_what_a_call_calls(self):
        self.assertEqual(called_by(PROGRAM, clause_at(PROGRAM, PROGRAM.index(b"call {:d"))), "Q")

    def test_a_token(self):
        self.assertEqual(token_at(b"a <==> b", 2), (2, 6))
        self.assertEqual(token_at(b"a /* b\nc", 2), (2, 6))
        self.assertEqual(token_at(b"a ", 1), (1, 1))
        self.assertEqual(token_at(b"a", 1), (1, 1))
        self.assertEqual(token_at("x\u20acy".encode(), 1), (1, 4))


class Findings(unittest.TestCase):
    def text(self, start: int, end: int) -> bytes:
        return PROGRAM[start:end]

    def test_a_report(self):
        lines = ["P 1:74 assert turns", "P 5:3 ensures open", "P not proved", "Q correct"]
        report = Program(PROGRAM).report(lines)
        self.assertEqual(
            [self.text(each.start, each.end) for each in report.findings],
            [b"assert r > x;", b"ensures r > x;"],
        )
        self.assertEqual([each.code for each in report.findings], ["assert turns", "ensures open"])
        self.assertEqual(
            [(each.procedure, each.correct, each.proved, each.goals) for each in report.verdicts],
            [("P", False, 0, 2), ("Q", True, 0, 0)],
        )

    def test_a_precondition_is_that_of_the_callee(self):
        source = PROGRAM + b"procedure R() { var y: int; call y := P(y); }"
        finding = Program(source).goal("R", "1:29", "requires(2)", "open")
        self.assertEqual(source[finding.start : finding.end], b"call y := P(y);")
        self.assertEqual([source[each.start : each.end] for each in finding.related], [b"requires x > 0;"])

    def test_the_second_of_two_declarations(self):
        source = b"procedure P();\nvar x: int;\nprocedure P();"
        fault = Program(source).fault({"fault": "Twice", "in": "P", "place": "1:11", "word": "P"})
        self.assertEqual(line_and_column(source, fault.start), (3, 11))

    def test_a_declaration_that_ends_too_early(self):
        source = b"procedure P()\n/* no body */\nvar x: int;"
        fault = Program(source).fault({"fault": "Syntax", "in": "P", "place": "1:14", "word": "-"})
        self.assertEqual(
            (source[fault.start : fault.end], line_and_column(source, fault.start)), (b"var", (3, 1))
        )

    def test_a_fault_line(self):
        fault = Program(PROGRAM).fault_line("fault Sort implementation P 1:74 assert")
        self.assertEqual(self.text(fault.start, fault.end), b"assert")
        self.assertIsNone(Program(PROGRAM).fault_line("fault"))


if __name__ == "__main__":
    unittest.main()
