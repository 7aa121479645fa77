"""From what the server says to places in the file: what is wrong where, and which procedures are correct."""

import re
from dataclasses import dataclass, field

from . import words
from .source import (
    Clause,
    Declaration,
    byte_at,
    called_by,
    clause_at,
    contract_of,
    cut,
    text_of,
    token_at,
    tokens,
)

# A fault line of `bplserve check`; the declaration is `-`, a name, or that of an implementation.
FAULT_LINE = re.compile(r"fault (\w+) (implementation \S+|\S+) (\d+:\d+) (.*)")


@dataclass(frozen=True)
class Related:
    """Another place of the file that belongs to a finding."""

    start: int
    end: int
    message: str


@dataclass(frozen=True)
class Finding:
    """Something that is wrong with the file: from which byte to which, and what."""

    start: int
    end: int
    message: str
    code: str
    related: list[Related] = field(default_factory=list)


@dataclass(frozen=True)
class Verdict:
    """What is said of a procedure: where its body's declaration begins, and how many goals are proved."""

    procedure: str
    start: int
    correct: bool
    proved: int
    goals: int


@dataclass(frozen=True)
class Report:
    """A report of the server, its places found in the file."""

    findings: list[Finding]
    verdicts: list[Verdict]


class Program:
    """A text and its declarations."""

    def __init__(self, source: bytes):
        self.source = source
        self.declared = cut(source)
        self.by_name: dict[str, list[Declaration]] = {}
        for each in self.declared:
            self.by_name.setdefault(each.name, []).append(each)

    def named(self, name: str) -> Declaration | None:
        """The first declaration of a name."""
        found = self.by_name.get(name)
        return found[0] if found else None

    def body_of(self, procedure: str) -> Declaration | None:
        """The declaration that has a procedure's body: its implementation, or itself."""
        return self.named(f"implementation {procedure}") or self.named(procedure)

    def report(self, lines: list[str]) -> Report:
        """What the lines of a report say of this text."""
        findings = []
        verdicts = []
        proved = goals = 0
        for parts in (line.split(" ") for line in lines):
            if len(parts) == 4:
                goals += 1
                proved += parts[3] == "proved"
                if parts[3] != "proved":
                    findings.append(self.goal(*parts))
            else:
                body = self.body_of(parts[0])
                start = body.start if body else 0
                verdicts.append(Verdict(parts[0], start, parts[1:] == ["correct"], proved, goals))
                proved = goals = 0
        return Report(findings, verdicts)

    def goal(self, procedure: str, told: str, kind: str, verdict: str) -> Finding:
        """What is said of a goal that isn't proved, over its statement or clause."""
        holder = self.named(procedure) if kind == "ensures" else self.body_of(procedure)
        clause = clause_at(self.source, byte_at(self.source, holder.start if holder else 0, told))
        related = self.precondition(clause, kind) if kind.startswith("requires(") else []
        return Finding(clause.start, clause.end, words.of_goal(kind, verdict), f"{kind} {verdict}", related)

    def precondition(self, call: Clause, kind: str) -> list[Related]:
        """The callee's clause that a goal `requires(k)` is about: its k-th that isn't free."""
        callee = self.named(called_by(self.source, call))
        number = int(kind[len("requires(") : -1])
        if callee is None:
            return []
        contract = contract_of(self.source, callee)
        checked = [each for each in contract if each.word == "requires" and not each.free]
        return [Related(each.start, each.end, words.PRECONDITION) for each in checked[number - 1 : number]]

    def fault(self, reply: dict) -> Finding:
        """What is said of the program's fault, at its token. The reply is that of a session."""
        kind, word = reply["fault"], reply["word"]
        start = byte_at(self.source, self.fault_begins(reply), reply["place"])
        following = next(tokens(self.source, start), None)
        if kind == "Syntax" and word == "-" and following:
            # a declaration that was put ends too early: in the file the next token is the fault
            start, word = following.start(), text_of(following.group())
        return Finding(*token_at(self.source, start), words.of_fault(kind, word), kind)

    def fault_begins(self, reply: dict) -> int:
        """The byte from which a fault's place counts."""
        named = self.by_name.get(reply["in"], [])
        if reply["fault"] == "Twice" and len(named) > 1:
            # of two declarations of one name it is the second that is told, unless the first has one too
            own_name = byte_at(self.source, named[1].start, reply["place"])
            if reply["word"] in reply["in"].split(" ") and self.source.startswith(
                reply["word"].encode(), own_name
            ):
                return named[1].start
        return named[0].start if named else 0

    def fault_line(self, line: str) -> Finding | None:
        """What is said of a fault that `check` tells, or None where the line tells none."""
        found = FAULT_LINE.fullmatch(line)
        if found is None:
            return None
        kind, declaration, place, word = found.groups()
        return self.fault({"fault": kind, "in": declaration, "place": place, "word": word})

    def refusal(self, error: str) -> Finding:
        """What is said where the server refuses a request, at the text's first byte."""
        return Finding(0, 0, words.of_refusal(error), error)
