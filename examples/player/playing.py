"""Random executions of procedures, as docs/EXECUTIONS.md says what one may do."""
from __future__ import annotations

import collections
import random
from dataclasses import dataclass, replace

from player import trees
from player.meaning import Meaning, Scope
from player.states import Drawing, Wanted
from player.trees import Expression, Procedure, Program, Statement, Type, Variable
from player.values import Map, Value

# a loop's rounds, and an execution's statements, after which it is left
ROUNDS = 12
STATEMENTS = 400
# so often no entry state is found before none is sought
MISSES = 3


class Failed(Exception):
    """An execution failed, with the head of the goal that failed."""


class Ended(Exception):
    """There is no such execution, none was found, or it was left; says which."""


@dataclass(frozen=True)
class Leaving:
    """A statement is left: `break`, with a label or without, `goto` some labels, or `return`."""

    word: str
    labels: tuple[str, ...] = ()

    def ends_at(self, statement: Statement) -> bool:
        """Whether it is a `break` that leaves this statement, an `if` or a loop, and no more."""
        if self.word != "break":
            return False
        if not self.labels:
            return isinstance(statement, trees.While)
        return self.labels[0] in statement.labels


def numbers_of(program: Program) -> list[int]:
    """The numbers in a program's axioms, functions and contracts, and in its bodies."""
    found: dict[int, None] = {}

    def look(tree: Expression) -> None:
        if isinstance(tree, trees.Number):
            found[tree.value] = None
        for part in trees.parts(tree):
            look(part)

    for tree in conditions_of(program):
        look(tree)
    return [it for it in found if it < 100]


def conditions_of(program: Program):
    """The axioms, bodies of functions, clauses and conditions of a program."""
    yield from program.axioms
    yield from (it.body for it in program.functions)
    for procedure in program.procedures:
        yield from (it.condition for it in procedure.requires + procedure.ensures)
        for statement in trees.every(procedure.body or []):
            match statement:
                case trees.Assert(condition) | trees.Assume(condition):
                    yield condition
                case trees.If(guard) | trees.While(guard) if guard is not None:
                    yield guard


class Player:
    """Plays executions of one program's procedures."""

    def __init__(self, program: Program, seed: str):
        self.program = program
        self.random = random.Random(seed)
        self.meaning = Meaning(program.functions)
        self.unique: dict[str, Value] = {}
        # entry states that were found, and how often none was, by procedure
        self.found: dict[str, list[Scope]] = {}
        self.missed: collections.Counter = collections.Counter()
        carriers: dict[str, list[int]] = {}
        for constant in program.constants:
            if constant.unique:
                known = carriers.setdefault(constant.type.name, [])
                known.append(self.random.choice([it for it in range(9) if it not in known]))
                self.unique[constant.name] = known[-1]
        self.drawing = Drawing(self.random, numbers_of(program), carriers)

    def wanted(self) -> Wanted:
        """No variables yet."""
        return Wanted(self.drawing, self.meaning)

    def world(self) -> dict[str, Value]:
        """Values of the constants with which the axioms hold."""
        constants = dict(self.unique)
        scope, wanted = Scope(constants), self.wanted()
        for constant in self.program.constants:
            if not constant.unique:
                fresh(wanted, constants, constant.name, constant.type, scope)
        if not wanted.meet([(axiom, scope) for axiom in self.program.axioms]):
            raise Ended("no world")
        return constants

    def entry(self, procedure: Procedure) -> Scope:
        """An entry state of a procedure; often much like one that was found before."""
        found = self.found.setdefault(procedure.name, [])
        if not found and self.missed[procedure.name] >= MISSES:
            raise Ended("no entry state")
        like = self.random.choice(found) if found and self.random.random() < 0.7 else None
        globals = dict(like.globals) if like else {}
        frame = dict(like.frame) if like else {}
        outside = Scope(like.constants if like else self.world(), globals)
        inside = replace(outside, frame=frame)
        wanted, conditions = self.wanted(), []
        own = procedure.ins + procedure.outs + procedure.locals
        for scope, table, variables in ((outside, globals, self.program.variables), (inside, frame, own)):
            for variable in variables:
                wanted.want(table, variable.name, variable.type)
                if not like or self.random.random() < 0.4:
                    wanted.begin(table, variable.name, scope)
                if variable.where is not None:
                    conditions.append((variable.where, scope))
        conditions += [(clause.condition, inside) for clause in procedure.requires]
        if not wanted.meet(conditions):
            self.missed[procedure.name] += 1
            raise Ended("no entry state")
        scope = replace(inside, entry=dict(globals))
        found.append(replace(scope, globals=dict(globals), frame=dict(frame)))
        return scope

    def play(self, procedure: Procedure) -> Execution:
        """A new execution, before its first statement."""
        return Execution(self, procedure, self.entry(procedure))


def fresh(wanted: Wanted, table: dict[str, Value], name: str, type: Type, scope: Scope) -> None:
    """Wants a variable, and gives it a first value."""
    wanted.want(table, name, type)
    wanted.begin(table, name, scope)


class Execution:
    """An execution of a procedure's body."""

    def __init__(self, player: Player, procedure: Procedure, scope: Scope):
        self.player = player
        self.procedure = procedure
        self.scope = scope
        self.random = player.random
        self.taken = 0
        own = procedure.ins + procedure.outs + procedure.locals
        self.variables = {it.name: it for it in player.program.variables + own}
        # what was chosen: a word, and values
        self.trail: list[tuple[str, dict[str, Value]]] = []
        for word, table in (("constants", scope.constants), ("globals", scope.globals), ("entry", scope.frame)):
            self.choose(word, table)

    def told(self) -> list[str]:
        """What was chosen, in lines."""
        return [f"{word} " + ", ".join(f"{name} = {shown(it)}" for name, it in table.items()) for word, table in self.trail]

    def run(self) -> None:
        """Plays the body to its end, and reads what the contract ensures."""
        self.list(self.procedure.body)
        for clause in self.procedure.ensures:
            if not clause.free:
                self.check(clause.condition, clause.place, "ensures")

    def choose(self, word: str, table: dict[str, Value]) -> None:
        """Notes what was chosen."""
        self.trail.append((word, dict(table)))

    def value(self, tree: Expression) -> Value:
        """The value of an expression now."""
        return self.player.meaning.read(tree, self.scope)

    def check(self, tree: Expression, place: tuple[int, int], kind: str) -> None:
        """Fails where a condition doesn't hold."""
        if not self.value(tree):
            raise Failed(f"{self.procedure.name} {place[0]}:{place[1]} {kind}")

    def list(self, statements: list[Statement]) -> Leaving | None:
        """Plays a list: how it is left, if not by its end."""
        at = 0
        while at < len(statements):
            leaving = self.step(statements, at)
            at += 1
            if leaving is not None:
                ahead = [k for k in range(at, len(statements)) if set(leaving.labels) & set(statements[k].labels)]
                if leaving.word != "goto" or not ahead:
                    return leaving
                at = ahead[0]
        return None

    def step(self, statements: list[Statement], at: int) -> Leaving | None:
        """Plays one statement."""
        self.taken += 1
        if self.taken > STATEMENTS:
            raise Ended("long")
        statement = statements[at]
        match statement:
            case trees.Assert(condition):
                self.check(condition, statement.place, "assert")
            case trees.Assume(condition):
                if not self.value(condition):
                    raise Ended("assumed")
            case trees.Havoc(names):
                self.havoc(names, assumed_next(statements, at))
            case trees.Assign():
                self.assign(statement)
            case trees.Call():
                self.call(statement)
            case trees.Break(label):
                return Leaving("break", () if label is None else (label,))
            case trees.Goto(to):
                return Leaving("goto", (self.random.choice(to),))
            case trees.Return():
                return Leaving("return")
            case trees.If() | trees.While():
                turn = self.branch if isinstance(statement, trees.If) else self.loop
                leaving = turn(statement)
                return None if leaving is not None and leaving.ends_at(statement) else leaving
        return None

    def branch(self, statement: trees.If) -> Leaving | None:
        """Plays a branch that the guard allows."""
        taken = self.allows(statement.guard, 0.5)
        return self.list(statement.then if taken else statement.other or [])

    def allows(self, guard: Expression | None, often: float) -> bool:
        """Whether a guard holds; of `*` by chance."""
        return self.random.random() < often if guard is None else self.value(guard)

    def loop(self, statement: trees.While) -> Leaving | None:
        """Plays rounds until the guard allows to go on, or the loop is left."""
        for number in range(ROUNDS):
            for clause in statement.invariants:
                if not clause.free:
                    self.check(clause.condition, clause.place, "invariant-kept" if number else "invariant-entry")
                elif not self.value(clause.condition):
                    raise Ended("assumed")
            if not self.allows(statement.guard, 0.6):
                return None
            leaving = self.list(statement.body)
            if leaving is not None:
                return leaving
        raise Ended("long")

    def set(self, name: str, value: Value) -> None:
        """Sets a variable."""
        self.scope.table(name)[name] = value

    def assign(self, statement: trees.Assign) -> None:
        """Reads all, then sets all targets."""
        pairs = zip(statement.targets, statement.values)
        values = [self.value(updated(trees.Name(name), indices, value)) for (name, indices), value in pairs]
        for (name, _), value in zip(statement.targets, values):
            self.set(name, value)

    def havoc(self, names: list[str], assumed: list[Expression]) -> None:
        """Gives variables any values, if it can with which what is assumed next holds."""
        wanted = self.player.wanted()
        for name in names:
            fresh(wanted, self.scope.table(name), name, self.variables[name].type, self.scope)
        wheres = [(it.where, self.scope_of(it)) for it in map(self.variables.get, names) if it.where is not None]
        wanted.meet(wheres + [(it, self.scope) for it in assumed])
        if not (all(self.player.meaning.read(*it) for it in wheres) or wanted.meet(wheres)):
            raise Ended("no values")
        self.choose("havoc", {name: self.scope.value(name) for name in names})

    def scope_of(self, variable: Variable) -> Scope:
        """The scope of a variable's clause."""
        own = variable.name in self.scope.frame
        return self.scope if own else replace(self.scope, frame={})

    def call(self, statement: trees.Call) -> None:
        """Checks what the callee requires, takes what its contract allows, and sets the targets."""
        callee = self.player.program.procedure(statement.callee)
        frame = {it.name: self.value(given) for it, given in zip(callee.ins, statement.arguments)}
        scope = replace(self.scope, frame=frame, entry=dict(self.scope.globals))
        checked = [clause for clause in callee.requires if not clause.free]
        for k, clause in enumerate(checked, 1):
            if not self.player.meaning.read(clause.condition, scope):
                line, column = statement.place
                raise Failed(f"{self.procedure.name} {line}:{column} requires({k})")
        self.take(callee, scope)
        for target, out in zip(statement.targets, callee.outs):
            self.set(target, frame[out.name])

    def take(self, callee: Procedure, scope: Scope) -> None:
        """Any values for what a callee may change, with which its clauses hold."""
        wanted, outside = self.player.wanted(), replace(scope, frame={})
        conditions = []
        for variable in self.player.program.variables:
            if variable.name in callee.modifies:
                wanted.want(scope.globals, variable.name, variable.type)
                if self.random.random() < 0.5:
                    wanted.draw(variable.name, outside)
                if variable.where is not None:
                    conditions.append((variable.where, outside))
        for out in callee.outs:
            fresh(wanted, scope.frame, out.name, out.type, scope)
            if out.where is not None:
                conditions.append((out.where, scope))
        if not wanted.meet(conditions + [(clause.condition, scope) for clause in callee.ensures]):
            raise Ended("no values")
        self.choose(f"call {callee.name}", {name: scope.globals[name] for name in callee.modifies} | scope.frame)


def updated(table: Expression, indices: list[Expression], value: Expression) -> Expression:
    """The new value of a target with indices: its map with the value at the place that they name."""
    if not indices:
        return value
    first, *rest = indices
    return trees.Write(table, first, updated(trees.Read(table, first), rest, value))


def assumed_next(statements: list[Statement], at: int) -> list[Expression]:
    """What the statements right behind one assume."""
    found = []
    for statement in statements[at + 1 :]:
        if not isinstance(statement, trees.Assume):
            break
        found.append(statement.condition)
    return found


def shown(value: Value) -> str:
    """A value: of a map its table, and behind `else` its default."""
    if not isinstance(value, Map):
        return str(value).lower()
    table = "".join(f"{at}: {shown(it)}, " for at, it in reversed(value.table))
    return f"[{table}else {shown(value.default)}]"
