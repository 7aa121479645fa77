"""Random programs, of all that docs/LANGUAGE.md has."""
from __future__ import annotations

import random

from player import trees
from player.claims import Claims
from player.facts import equal, joined
from player.loops import Loops
from player.playing import Ended, Player
from player.terms import Terms, over
from player.trees import (
    BOOL, FLAGS, GRID, INT, ROW, Binary, Clause, Constant, Expression, Function, Name, Number, Old, Procedure,
    Program, Read, Statement, Type, Variable,
)
from player.values import Undecided

NAMES = {INT: "nxyzabijk", BOOL: "pqt", ROW: "mwv", FLAGS: "sf", GRID: "ug"}
USER_NAMES = "cde"


class Programs:
    """Draws one program."""

    def __init__(self, seed: str):
        self.random = random.Random(seed)
        self.program = Program()
        self.types = [INT] * 5 + [BOOL] * 2 + [ROW] * 2 + [FLAGS, GRID]

    def chance(self, often: float) -> bool:
        """True so often."""
        return self.random.random() < often

    def draw(self) -> Program:
        """Its declarations, one kind after the other, since each may name those before."""
        self.draw_types()
        self.draw_constants()
        for number in range(self.random.choice([0, 1, 1, 2, 3])):
            self.draw_function(number)
        if self.program.constants:
            terms = self.terms({it.name: it.type for it in self.program.constants})
            self.program.axioms = [terms.formula() for _ in range(self.random.choice([0, 0, 1, 2]))]
            if not self.is_met(Procedure("", [], [])) and self.chance(0.95):
                self.program.axioms = []
        self.draw_globals()
        for number in range(self.random.choice([1, 2, 2, 3])):
            self.draw_abstract(number)
        if self.chance(0.2):
            self.program.procedures.append(recursive(self.random))
        for number in range(self.random.choice([1, 2, 2, 3])):
            self.draw_procedure(number)
        return self.program

    def terms(self, names: dict[str, Type], entry: dict[str, Type] | None = None) -> Terms:
        """Terms over names."""
        return Terms(self.random, self.program.functions, names, entry or {})

    def draw_types(self) -> None:
        """User types, and synonyms."""
        if self.chance(0.4):
            self.program.types = ["Color", "Node"][: self.random.choice([1, 1, 2])]
            self.types += [Type(name) for name in self.program.types]
            self.types += [Type("map", Type("Color"))] * self.chance(0.4)
        synonyms = {"Row": ROW, "Count": INT, "Grid": GRID, "Paint": Type("Color")}
        for name, type in synonyms.items():
            known = type.range is not None or type == INT or type.name in self.program.types
            if known and self.chance(0.2):
                self.program.synonyms[name] = type
                self.types.append(Type(type.name, type.range, name))

    def draw_constants(self) -> None:
        """Constants; each user type has some, mostly unique ones."""
        for name in self.program.types:
            for k in range(self.random.choice([1, 2, 2, 3])):
                self.program.constants.append(Constant(f"{name[0]}{k}", Type(name), self.chance(0.8)))
        for name, type in (("limit", INT), ("n", INT), ("table", ROW), ("on", BOOL)):
            if self.chance(0.3):
                self.program.constants.append(Constant(name, type))

    def draw_function(self, number: int) -> None:
        """A function of constants, its parameters, and functions before it."""
        names = {it.name: it.type for it in self.program.constants}
        logical = self.chance(0.35)
        pool = self.random.sample("abkijn", 2)
        parameters = [(name, INT) for name in pool[: self.random.choice([1, 1, 2])]]
        if logical or self.chance(0.2):
            parameters.append(("m", ROW))
        if self.program.types and self.chance(0.2):
            parameters.append(("c", Type(self.program.types[0])))
        terms = self.terms(names | dict(parameters))
        rows = [ROW for _, type in parameters if type == ROW]
        result = BOOL if logical else self.random.choice([INT, INT, BOOL, *rows])
        if logical:
            body = terms.about_map(Name("m"))
            body = Binary("&&", body, terms.condition(1)) if self.chance(0.3) else body
        else:
            body = terms.term(result, 2)
        name = ("F%d" if logical else "f%d") % number
        self.program.functions.append(Function(name, parameters, result, body, logical))

    def variables(self, count: int, taken: set[str], names: dict[str, Type]) -> list[Variable]:
        """Variables whose names aren't taken; at times a clause says something of one and those before."""
        found: list[Variable] = []
        for _ in range(count):
            type = self.random.choice(self.types)
            free = [it for it in NAMES.get(type, USER_NAMES) if it not in taken]
            if not free:
                continue
            variable = Variable(self.random.choice(free), type)
            taken.add(variable.name)
            names[variable.name] = type
            if self.chance(0.12):
                variable.where = self.about(variable, names)
            found.append(variable)
        return found

    def about(self, variable: Variable, names: dict[str, Type]) -> Expression:
        """A condition on a variable."""
        terms = self.terms({name: type for name, type in names.items() if name != variable.name})
        if variable.type == INT:
            return Binary(self.random.choice(["<=", "<", ">="]), terms.term(INT, 0), Name(variable.name))
        if variable.type == ROW:
            return terms.about_map(Name(variable.name))
        if variable.type.range is not None:
            return self.about_place(Name(variable.name), variable.type, terms)
        return Binary(self.random.choice(["==", "!="]), Name(variable.name), terms.term(variable.type, 0))

    def about_place(self, table: Expression, type: Type, terms: Terms) -> Expression:
        """A condition on what a map has at some place."""
        while type.range is not None:
            table, type = Read(table, Number(self.random.randint(0, 2))), type.range
        if type == BOOL:
            return table
        return Binary("<=", Number(0), table) if type == INT else Binary("!=", table, terms.term(type, 0))

    def draw_globals(self) -> None:
        """Globals: clauses name constants and globals."""
        taken = {it.name for it in self.program.constants}
        names = {it.name: it.type for it in self.program.constants}
        self.program.variables = self.variables(self.random.choice([0, 1, 2, 3, 4]), taken, names)

    def heading(self, name: str) -> Procedure:
        """A procedure's parameters, results and `modifies`."""
        taken: set[str] = set()
        outer = {it.name: it.type for it in [*self.program.constants, *self.program.variables]}
        ins = self.variables(self.random.choice([0, 1, 2, 2, 3]), taken, outer)
        outs = self.variables(self.random.choice([0, 1, 1, 2]), taken, outer)
        modifies = [it.name for it in self.program.variables if it.name not in taken and self.chance(0.6)]
        self.settle(ins + outs, taken)
        return Procedure(name, ins, outs, modifies=modifies)

    def settle(self, own: list[Variable], taken: set[str]) -> None:
        """Leaves out clauses that would name a variable behind, which a name of a global hides."""
        seen: set[str] = set()
        for variable in own:
            seen.add(variable.name)
            if variable.where is not None and trees.free(variable.where) & (taken - seen):
                variable.where = None

    def scope(self, procedure: Procedure, outs: bool) -> tuple[dict[str, Type], dict[str, Type]]:
        """The names that a contract may read, and the globals among them."""
        own = procedure.ins + (procedure.outs if outs else [])
        hidden = {it.name for it in procedure.ins + procedure.outs}
        globals = {it.name: it.type for it in self.program.variables if it.name not in hidden}
        names = {it.name: it.type for it in self.program.constants if it.name not in hidden}
        return names | globals | {it.name: it.type for it in own}, globals

    def require(self, procedure: Procedure) -> None:
        """Preconditions."""
        names, _ = self.scope(procedure, False)
        terms = self.terms(names)
        for _ in range(self.random.choice([0, 0, 1, 1, 2])):
            condition = terms.formula() if self.chance(0.5) else terms.condition(1)
            procedure.requires.append(Clause(condition, self.chance(0.12)))
        if not self.is_met(procedure) and self.chance(0.95):
            procedure.requires = []

    def is_met(self, procedure: Procedure) -> bool:
        """Whether an entry state of a procedure is found soon."""
        player = Player(self.program, "met")
        for _ in range(3):
            try:
                player.entry(procedure)
                return True
            except (Ended, Undecided):
                pass
        return False

    def draw_abstract(self, number: int) -> None:
        """A procedure without a body, that says what it gives."""
        procedure = self.heading("A%d" % number)
        self.require(procedure)
        names, globals = self.scope(procedure, True)
        inputs = {name: type for name, type in names.items() if name not in {it.name for it in procedure.outs}}
        inputs = {name: type for name, type in inputs.items() if name not in procedure.modifies or name not in globals}
        terms = self.terms(inputs, globals)
        for it in procedure.outs + [Variable(name, globals[name]) for name in procedure.modifies if name in globals]:
            if self.chance(0.75) and terms.has(it.type):
                procedure.ensures.append(Clause(self.given(it, terms, it.name in globals), self.chance(0.1)))
        self.program.procedures.append(procedure)

    def given(self, it: Variable, terms: Terms, is_global: bool) -> Expression:
        """What a procedure without a body says of one variable."""
        mine = Name(it.name)
        if it.type == INT:
            order = self.random.choice(["==", "==", "<=", ">="])
            return Binary(order, mine, terms.term(INT, 1))
        if it.type == ROW and self.chance(0.7):
            read = Read(mine, Name("k"))
            other: Expression = Read(Old(mine), Name("k")) if is_global else Number(self.random.randint(0, 2))
            claim: Expression = Binary(self.random.choice(["==", "<="]), other, read)
            if self.chance(0.5):
                claim = Binary("==>", Binary("!=", Name("k"), Number(self.random.randint(0, 2))), claim)
            return over("forall", ("k",), (read,), claim)
        return Binary("==", mine, terms.term(it.type, 1))

    def draw_procedure(self, number: int) -> None:
        """A procedure with a body, whose postconditions are drawn from what holds at its end."""
        procedure = self.heading("P%d" % number)
        self.require(procedure)
        taken = {it.name for it in procedure.ins + procedure.outs}
        outer, _ = self.scope(procedure, True)
        procedure.locals = self.variables(self.random.choice([1, 2, 3, 4, 5]), taken, outer)
        self.settle(procedure.ins + procedure.outs + procedure.locals, taken)
        body = Loops(self.random, self.program, procedure, list(self.program.procedures))
        procedure.body = body.draw()
        procedure.apart = self.chance(0.2)
        self.ensure(procedure, body)
        self.program.procedures.append(procedure)

    def ensure(self, procedure: Procedure, body: Loops) -> None:
        """Postconditions: facts of the end that name no local."""
        early = [] if body.slips() and body.facts is not None else body.arrived["return"]
        ends = [it for it in [body.facts, *early] if it is not None]
        names = {it.name for it in procedure.locals}
        facts = [it for it in joined(ends) if not trees.free(it) & names] if ends else []
        scope, globals = self.scope(procedure, True)
        claims = Claims(self.terms(scope, globals), frozenset(globals))
        for _ in range(self.random.choice([0, 1, 1, 2]) if facts else 0):
            claim = claims.claim(facts)
            claim = claims.spoiled(claim) if self.chance(body.noise) else claim
            procedure.ensures.append(Clause(claim, self.chance(0.07)))


def recursive(chance: random.Random) -> Procedure:
    """A procedure that calls itself."""
    factor, start = chance.randint(1, 3), chance.randint(-1, 2)
    n, r = Name("n"), Name("r")
    claim = equal(r, Binary("+", Binary("*", Number(factor), n), Number(start + chance.choice([0, 0, 0, 1]))))
    back = Number(chance.choice([1, 1, 1, 2]))
    step: list[Statement] = [
        trees.Call(["r"], "R", [Binary("-", n, back)]),
        trees.Assign([("r", [])], [Binary("+", r, Number(factor))]),
    ]
    guard = Binary(chance.choice(["==", "<="]), n, Number(0))
    base: list[Statement] = [trees.Assign([("r", [])], [Number(start)])]
    requires = [Clause(Binary("<=", Number(0), n))]
    body: list[Statement] = [trees.If(guard, base, step)]
    return Procedure("R", [Variable("n", INT)], [Variable("r", INT)], requires, [], [Clause(claim)], [], body)
