"""The text of a program, in which each goal's place is noted; its layout is drawn where the language is free."""
from __future__ import annotations

import random

from player import trees
from player.trees import Clause, Expression, Procedure, Program, Statement, Type, Variable

# how tightly the signs bind, loosest first
TIGHTNESS = {"<==>": 0, "==>": 1, "&&": 2, "||": 2, "+": 4, "-": 4, "*": 5}
RELATION = 3
PREFIX = 6
INDEXED = 7
COMMENTS = ["  // assert false;", " /* { */", " /* // */"]
ATTRIBUTES = ['{:mark "a;b"} ', "{:weight 3, 4} ", "{:hint} "]


class Printer:
    """Prints one program; `heads` has the heads of the goals of each procedure that has a body."""

    def __init__(self, program: Program, seed: str):
        self.program = program
        self.random = random.Random(seed)
        self.lines: list[str] = []
        self.first = 0
        self.heads: dict[str, list[str]] = {}

    def text(self) -> str:
        """The declarations, in any order."""
        program, made = self.program, []
        made += [(self.line, f"type {self.attribute()}{name};") for name in program.types]
        made += [(self.line, f"type {name} = {self.type(it, True)};") for name, it in program.synonyms.items()]
        made += [(self.constants, it) for it in self.runs(program.constants)]
        made += [(self.function, it) for it in program.functions]
        made += [(self.axiom, it) for it in program.axioms]
        made += [(self.variables, it) for it in self.runs(program.variables)]
        for it in program.procedures:
            made += [(self.procedure, it)] + [(self.implementation, it)] * it.apart
        if self.random.random() < 0.5:
            self.random.shuffle(made)
        for write, declaration in made:
            self.first = len(self.lines)
            write(declaration)
        for procedure in program.procedures:
            if procedure.body is not None:
                self.heads[procedure.name] = heads_of(procedure, program)
        return "\n".join(self.lines) + "\n"

    def line(self, text: str) -> None:
        """Ends a line."""
        comment = self.random.choice(COMMENTS) if self.random.random() < 0.02 else ""
        self.lines.append(text + comment)

    def place(self, before: str) -> tuple[int, int]:
        """The place, in its declaration, behind what stands in the next line."""
        return len(self.lines) - self.first + 1, len(before) + 1

    def attribute(self) -> str:
        """An attribute, seldom."""
        return self.random.choice(ATTRIBUTES) if self.random.random() < 0.04 else ""

    def type(self, type: Type, whole: bool = False) -> str:
        """A type, by its synonym where it has one."""
        if type.spelt and not whole:
            return type.spelt
        return type.name if type.range is None else f"[int]{self.type(type.range)}"

    def runs(self, declared: list) -> list[list]:
        """Variables or constants that stand behind one another and are declared alike, together at times."""
        runs: list[list] = []
        for it in declared:
            alike = runs and all(self.kind(other) == self.kind(it) for other in runs[-1])
            if alike and self.random.random() < 0.5:
                runs[-1].append(it)
            else:
                runs.append([it])
        return runs

    def kind(self, it: Variable | trees.Constant) -> tuple:
        """What must be alike in those that are declared together."""
        unlike = it.where and id(it) if isinstance(it, Variable) else it.unique
        return it.type, it.type.spelt, unlike

    def constants(self, run: list[trees.Constant]) -> None:
        """A line of constants."""
        names = ", ".join(it.name for it in run)
        self.line(f"const {self.attribute()}{'unique ' * run[0].unique}{names}: {self.type(run[0].type)};")

    def function(self, it: trees.Function) -> None:
        """A function's line."""
        given = ", ".join(f"{name}: {self.type(type)}" for name, type in it.parameters)
        result = self.type(it.result)
        result = f": {result}" if self.random.random() < 0.5 else f" returns ({result})"
        self.line(f"function {self.attribute()}{it.name}({given}){result} {{ {self.expression(it.body)} }}")

    def axiom(self, it: Expression) -> None:
        """An axiom's line."""
        self.line(f"axiom {self.attribute()}{self.expression(it)};")

    def variables(self, run: list[Variable]) -> None:
        """A line of globals."""
        self.line(f"var {self.attribute()}{self.groups(run)};")

    def groups(self, variables: list[Variable], where: bool = True) -> str:
        """Variables with their types and clauses."""
        written = []
        for run in self.runs(variables):
            first, names = run[0], ", ".join(it.name for it in run)
            clause = f" where {self.expression(first.where)}" if where and first.where is not None else ""
            written.append(f"{names}: {self.type(first.type)}{clause}")
        return ", ".join(written)

    def signature(self, it: Procedure, where: bool) -> str:
        """The name, parameters and results of a procedure."""
        outs = f" returns ({self.groups(it.outs, where)})" if it.outs or self.random.random() < 0.1 else ""
        return f"{it.name}({self.groups(it.ins, where)}){outs}"

    def procedure(self, it: Procedure) -> None:
        """A procedure, with its body unless that stands apart."""
        apart = it.body is None or it.apart
        self.line(f"procedure {self.attribute()}{self.signature(it, True)}" + ";" * apart)
        if it.modifies or self.random.random() < 0.05:
            self.line(f"  modifies {', '.join(it.modifies)};")
        for word, clauses in (("requires", it.requires), ("ensures", it.ensures)):
            for clause in clauses:
                self.clause(word, clause, "  ")
        if not apart:
            self.body(it)

    def implementation(self, it: Procedure) -> None:
        """A body that stands apart."""
        self.line(f"implementation {self.attribute()}{self.signature(it, False)}")
        self.body(it)

    def clause(self, word: str, clause: Clause, before: str) -> None:
        """A clause's line."""
        before += "free " * clause.free
        clause.place = self.place(before)
        self.line(f"{before}{word} {self.attribute()}{self.expression(clause.condition)};")

    def body(self, it: Procedure) -> None:
        """The locals and statements of a procedure."""
        self.line("{")
        for run in [it.locals] if it.locals and self.random.random() < 0.2 else self.runs(it.locals):
            self.line(f"  var {self.attribute()}{self.groups(run)};")
        self.statements(it.body, "  ")
        self.line("}")

    def statements(self, statements: list[Statement], indent: str) -> None:
        """A list of statements, each on lines of its own."""
        for statement in statements:
            before = indent + "".join(f"{label}: " for label in statement.labels)
            statement.place = self.place(before)
            if isinstance(statement, trees.If):
                self.branches(statement, before, indent)
            elif isinstance(statement, trees.While):
                self.loop(statement, before, indent)
            else:
                self.line(f"{before}{self.statement(statement)};")

    def branches(self, statement: trees.If, before: str, indent: str) -> None:
        """An `if` with its branches."""
        self.line(f"{before}if ({self.guard(statement.guard)}) {{")
        self.statements(statement.then, indent + "  ")
        if statement.chained:
            self.branches(statement.other[0], indent + "} else ", indent)
            return
        if statement.other is not None:
            self.line(indent + "} else {")
            self.statements(statement.other, indent + "  ")
        self.line(indent + "}")

    def loop(self, statement: trees.While, before: str, indent: str) -> None:
        """A loop with its invariants."""
        self.line(f"{before}while ({self.guard(statement.guard)})")
        for clause in statement.invariants:
            self.clause("invariant", clause, indent + "  ")
        self.line(indent + "{")
        self.statements(statement.body, indent + "  ")
        self.line(indent + "}")

    def guard(self, guard: Expression | None) -> str:
        """A guard."""
        return "*" if guard is None else self.expression(guard)

    def statement(self, statement: Statement) -> str:
        """A statement of one line."""
        match statement:
            case trees.Assert(condition) | trees.Assume(condition):
                word = type(statement).__name__.lower()
                return f"{word} {self.attribute()}{self.expression(condition)}"
            case trees.Havoc(names):
                return f"havoc {', '.join(names)}"
            case trees.Assign(targets, values):
                written = [name + "".join(f"[{self.expression(it)}]" for it in indices) for name, indices in targets]
                return f"{', '.join(written)} := {self.expressions(values)}"
            case trees.Call(targets, callee, arguments):
                given = f"{', '.join(targets)} := " if targets else ""
                return f"call {self.attribute()}{given}{callee}({self.expressions(arguments)})"
            case trees.Break(label):
                return "break" if label is None else f"break {label}"
            case trees.Goto(to):
                return f"goto {', '.join(to)}"
        return "return"

    def expressions(self, given) -> str:
        """Expressions behind one another."""
        return ", ".join(map(self.expression, given))

    def expression(self, tree: Expression, tightness: int = 0) -> str:
        """An expression, in parentheses where what stands around it binds as tightly or by chance."""
        match tree:
            case trees.Number(value) if value >= 0:
                return str(value)
            case trees.Number(value):
                return self.within(PREFIX, f"-{-value}", tightness)
            case trees.Truth(value):
                return str(value).lower()
            case trees.Name(name):
                return name
            case trees.Old(body):
                return f"old({self.expression(body)})"
            case trees.Apply(function, arguments):
                return f"{function}({self.expressions(arguments)})"
            case trees.Read(table, index):
                return f"{self.expression(table, INDEXED)}[{self.expression(index)}]"
            case trees.Write(table, index, value):
                inner = f"{self.expression(index)} := {self.expression(value)}"
                return f"{self.expression(table, INDEXED)}[{inner}]"
            case trees.Unary(sign, body):
                return self.within(PREFIX, sign + self.expression(body, PREFIX), tightness)
            case trees.Choice(condition, then, other):
                written = f"if {self.expression(condition)} then {self.expression(then)} else {self.expression(other)}"
                return f"({written})" if tightness else written
            case trees.Quantified():
                return self.quantified(tree)
        return self.joined(tree, tightness)

    def within(self, own: int, text: str, tightness: int) -> str:
        """A text, in parentheses where it binds less tightly than it must."""
        return f"({text})" if own < tightness or self.random.random() < 0.03 else text

    def joined(self, tree: trees.Binary, tightness: int) -> str:
        """Two operands with a sign between them."""
        own = TIGHTNESS.get(tree.sign, RELATION)
        left, right = own, own + 1
        if tree.sign == "==>":
            left, right = own + 1, own
        elif own == RELATION:
            left = own + 1
        elif tree.sign in ("&&", "||") and isinstance(tree.left, trees.Binary) and tree.left.sign != tree.sign:
            left = own + 1
        text = f"{self.expression(tree.left, left)} {tree.sign} {self.expression(tree.right, right)}"
        return self.within(own, text, tightness)

    def quantified(self, tree: trees.Quantified) -> str:
        """A quantifier with its triggers."""
        given = ", ".join(f"{name}: {self.type(type)}" for name, type in tree.variables)
        triggers = "".join(f"{{{self.expressions(it)}}} " for it in tree.triggers)
        return f"({tree.word} {given} :: {self.attribute()}{triggers}{self.expression(tree.body)})"


def heads_of(procedure: Procedure, program: Program) -> list[str]:
    """The heads of a procedure's goals, by the places noted."""
    found = []

    def add(place: tuple[int, int], kind: str) -> None:
        found.append(f"{procedure.name} {place[0]}:{place[1]} {kind}")

    for statement in trees.every(procedure.body):
        if isinstance(statement, trees.Assert):
            add(statement.place, "assert")
        elif isinstance(statement, trees.While):
            for clause in statement.invariants:
                if not clause.free:
                    add(clause.place, "invariant-entry")
                    add(clause.place, "invariant-kept")
        elif isinstance(statement, trees.Call):
            required = [it for it in program.procedure(statement.callee).requires if not it.free]
            for k in range(1, len(required) + 1):
                add(statement.place, f"requires({k})")
    for clause in procedure.ensures:
        if not clause.free:
            add(clause.place, "ensures")
    return found
