"""Random bodies of procedures, with assertions that hold or nearly do."""
from __future__ import annotations

import random

from player import trees
from player.claims import Claims
from player.facts import (
    assigned, current, equal, forgotten, ghost, ghosts, joined, kept, negated, pushed, without,
)
from player.terms import Terms
from player.trees import (
    INT, Binary, Clause, Expression, Name, Number, Old, Procedure, Program, Read, Statement, Type, Write,
)

DEPTH = 3


class Body:
    """Draws one body. `facts` hold where it has come to, `None` where nothing comes to.

    So often as `noise` says a claim is spoiled, and so often as `slip` says the facts behind a statement are
    drawn wrongly, as if it did less than it does: then later claims may be false.
    """

    def __init__(self, chance: random.Random, program: Program, procedure: Procedure, callees: list[Procedure]):
        self.random = chance
        self.program = program
        self.procedure = procedure
        self.callees = callees
        self.noise = chance.choice([0.0, 0.0, 0.0, 0.08, 0.25])
        self.slip = chance.choice([0.0, 0.0, 0.25])
        self.own = {it.name: it for it in procedure.ins + procedure.outs + procedure.locals}
        self.globals = {it.name: it for it in program.variables if it.name not in self.own}
        names = {it.name: it.type for it in program.constants}
        names |= {it.name: it.type for it in [*self.globals.values(), *self.own.values()]}
        entry = {it.name: it.type for it in self.globals.values()}
        self.terms = Terms(chance, program.functions, names, entry)
        self.claims = Claims(self.terms, frozenset(self.globals))
        self.may = [it.name for it in procedure.outs + procedure.locals]
        self.may += [name for name in procedure.modifies if name in self.globals]
        self.facts: list[Expression] | None = []
        self.depth = 0
        self.left = 14
        self.exits: list[tuple[str, str]] = []
        self.arrived: dict[str, list[list[Expression]]] = {"return": []}
        self.labels = 0

    def draw(self) -> list[Statement]:
        """The whole body."""
        self.facts = self.at_entry()
        made: list[Statement] = []
        while self.left > 0 and self.facts is not None:
            made += self.one()
        return made

    def at_entry(self) -> list[Expression]:
        """What holds at entry, as far as the body can say it."""
        procedure, hidden = self.procedure, set(self.own)
        known = [it for it in self.program.axioms if not trees.free(it) & hidden]
        known += self.clauses([*self.globals, *self.own])
        known += [clause.condition for clause in procedure.requires]
        known += [equal(Name(name), Old(Name(name))) for name in self.globals]
        return without(known[::-1], [])

    def chance(self, often: float) -> bool:
        """True so often."""
        return self.random.random() < often

    def slips(self) -> bool:
        """Whether facts are drawn wrongly here."""
        return self.chance(self.slip)

    def one(self) -> list[Statement]:
        """A statement, or a few that belong together."""
        self.left -= 1
        ways = [(self.assign, 5), (self.asserted, 5), (self.havoc, 1), (self.assume, 0.6), (self.call, 3)]
        ways += [(self.write, 2)]
        if self.depth < DEPTH and self.left > 2:
            ways += [(self.branch, 2.5), (self.labelled, 0.8), (self.jump, 1), (self.choose, 0.8)]
            ways += [(self.loop, 3)]
        if self.depth and self.exits:
            ways += [(self.leave, 1.5)]
        way = self.random.choices([it for it, _ in ways], [weight for _, weight in ways])[0]
        return way()

    def block(self, most: int) -> list[Statement]:
        """A list of statements one level down."""
        self.depth += 1
        made: list[Statement] = []
        for _ in range(self.random.randint(0, most)):
            if self.facts is None or self.left <= 0:
                break
            made += self.one()
        self.depth -= 1
        return made

    def maybe_spoiled(self, condition: Expression) -> Expression:
        """A condition, at times with a place changed."""
        return self.claims.spoiled(condition) if self.chance(self.noise) else condition

    def targets(self, type: Type | None = None) -> list[str]:
        """The variables that may be set here."""
        return [name for name in self.may if type is None or self.terms.names[name] == type]

    def assign(self) -> list[Statement]:
        """One assignment, or several at once."""
        if not self.may:
            return self.asserted()
        count = self.random.choice([1, 1, 1, 2, 3])
        names = self.random.sample(self.may, min(count, len(self.may)))
        values = {name: self.right_side(name) for name in names if self.terms.has(self.terms.names[name])}
        if self.slips():
            for name, value in values.items():
                self.facts = assigned(self.facts, {name: value})
            self.facts = without(self.clauses(list(values)) + self.facts, [])
        else:
            self.facts = assigned(self.facts, values)
        return [trees.Assign([(name, []) for name in values], list(map(self.claims.with_old, values.values())))]

    def right_side(self, name: str) -> Expression:
        """A value for a variable: often the one before with a change, or another variable's."""
        type = self.terms.names[name]
        if type == INT and self.chance(0.4):
            other = self.random.choice(self.terms.leaves(INT) + [Name(name)])
            return Binary(self.random.choice("+-"), other, Number(self.random.randint(1, 3)))
        return self.terms.term(type, self.random.choice([0, 1, 2]))

    def write(self) -> list[Statement]:
        """An assignment to a place of a map, at times beside another."""
        maps = [name for name in self.may if self.terms.names[name].range is not None]
        if not maps:
            return self.assign()
        name = self.random.choice(maps)
        type, indices = self.terms.names[name], []
        while type.range is not None and (not indices or self.chance(0.8)):
            indices.append(self.terms.term(INT, self.random.choice([0, 1])))
            type = type.range
        if not self.terms.has(type):
            return self.assign()
        values = {name: self.terms.term(type, 1)}
        targets = [(name, indices)]
        others = [it for it in self.targets(INT) if it != name]
        if others and self.chance(0.3):
            other = self.random.choice(others)
            targets.append((other, []))
            values[other] = self.right_side(other)
        given = list(values.values())
        table: Expression = Name(name)
        values[name] = written(table, indices, given[0])
        reads = [] if current(given[0]) & set(values) else self.reads(name, indices, set(values), given[0])
        self.facts = without(reads + assigned(self.facts, values), [])
        return [trees.Assign(targets, given)]

    def reads(self, name: str, indices: list[Expression], changed: set[str], value: Expression) -> list[Expression]:
        """What is read at the place that was written, where its indices are what they were."""
        table: Expression = Name(name)
        for index in indices:
            if current(index) & changed:
                return []
            table = Read(table, index)
        return [equal(table, value)]

    def asserted(self) -> list[Statement]:
        """An assertion."""
        claim = self.claims.claim(self.facts)
        if self.chance(self.noise):
            claim = self.claims.spoiled(claim) if self.chance(0.8) else self.terms.formula()
        else:
            self.facts = without([pushed(claim, frozenset(self.globals)), *self.facts], [])
        return [trees.Assert(claim)]

    def assume(self) -> list[Statement]:
        """An assumption."""
        condition = self.terms.formula() if self.chance(0.4) else self.terms.condition(1)
        return self.met([pushed(condition, frozenset(self.globals))])

    def havoc(self) -> list[Statement]:
        """Any values for some variables, about which something is assumed at times."""
        if not self.may:
            return self.assume()
        names = self.random.sample(self.may, min(len(self.may), self.random.choice([1, 1, 2])))
        known = self.facts if self.slips() else forgotten(self.facts, names)
        self.facts = without(self.clauses(names) + known, [])
        made: list[Statement] = [trees.Havoc(names)]
        return made + self.assume() if self.chance(0.4) else made

    def clauses(self, names: list[str]) -> list[Expression]:
        """The `where` clauses of variables, as far as the body can say them."""
        found = [self.own[it].where for it in names if it in self.own]
        for name in names:
            if name in self.globals:
                where = self.globals[name].where
                found.append(where if where is not None and not trees.free(where) & set(self.own) else None)
        return [it for it in found if it is not None]

    def branch(self) -> list[Statement]:
        """An `if` with its branches."""
        guard = None if self.chance(0.25) else self.terms.condition(self.random.choice([0, 1]))
        before, arriving = self.facts, []
        self.take(before, guard)
        statement = trees.If(guard, self.block(3))
        arriving.append(self.facts)
        self.take(before, None if guard is None else negated(guard))
        draw = self.random.random()
        if draw < 0.2 and self.depth < DEPTH:
            self.depth += 1
            statement.other, statement.chained = self.branch(), True
            self.depth -= 1
        elif draw < 0.8:
            statement.other = self.block(3)
        arriving.append(self.facts)
        self.meet([it for it in arriving if it is not None])
        return [statement]

    def take(self, facts: list[Expression], guard: Expression | None) -> None:
        """Goes on with facts and a guard."""
        self.facts = list(facts) if guard is None else without([pushed(guard, frozenset(self.globals)), *facts], [])

    def meet(self, arriving: list[list[Expression]]) -> None:
        """Goes on where several ways meet, if there are any."""
        if len(arriving) > 1 and self.slips():
            arriving.pop(self.random.randrange(len(arriving)))
        self.facts = joined(arriving) if arriving else None

    def label(self) -> str:
        """A new label."""
        self.labels += 1
        return "L%d" % self.labels

    def leave(self) -> list[Statement]:
        """A way out of where this is, behind a guard."""
        guard = None if self.chance(0.2) else self.terms.condition(1)
        before = self.facts
        self.take(before, guard)
        self.depth += 1
        made = self.assign() if self.chance(0.5) else []
        self.depth -= 1
        word, key = self.random.choice(self.exits + [("return", "return")])
        self.arrived[key].append(self.facts)
        made.append(self.leaving(word, key))
        self.take(before, None if guard is None else negated(guard))
        return [trees.If(guard, made)]

    def leaving(self, word: str, key: str) -> Statement:
        """The statement that leaves."""
        if word == "break":
            return trees.Break(None if key.startswith("loop") else key)
        return trees.Return() if word == "return" else trees.Goto([key])

    def labelled(self) -> list[Statement]:
        """An `if` with a label, which is left by that."""
        label = self.label()
        self.arrived[label] = []
        self.exits.append(("break", label))
        made = self.branch()
        self.exits.pop()
        self.meet(self.arrived.pop(label) + ([self.facts] if self.facts is not None else []))
        made[0].labels.append(label)
        return made

    def jump(self) -> list[Statement]:
        """Statements that go to a label behind them."""
        label = self.label()
        self.arrived[label] = []
        self.exits.append(("goto", label))
        self.depth += 1
        made = self.leave()
        self.depth -= 1
        for _ in range(self.random.randint(1, 3)):
            if self.facts is not None and self.left > 0:
                made += self.one()
        self.exits.pop()
        self.meet(self.arrived.pop(label) + ([self.facts] if self.facts is not None else []))
        behind = self.asserted() if self.chance(0.6) or self.left <= 0 else self.one()
        behind[0].labels.append(label)
        return made + behind

    def choose(self) -> list[Statement]:
        """A `goto` to either of two labels, which meet at a third."""
        first, second, last = self.label(), self.label(), self.label()
        before, made, ways = self.facts, [], []
        made.append(trees.Goto([first, second]))
        for label in (first, second):
            self.take(before, None)
            self.depth += 1
            made += self.marked(label)
            self.depth -= 1
            ways.append(self.facts)
            if label == first:
                made.append(trees.Goto([last]))
        self.meet(ways)
        return made + self.marked(last)

    def marked(self, label: str) -> list[Statement]:
        """A simple statement with a label."""
        made = self.random.choice([self.assign, self.asserted, self.assume])()
        made[0].labels.append(label)
        return made

    def call(self) -> list[Statement]:
        """A call of a procedure that may be called here."""
        able = [it for it in self.callees if self.can_call(it)]
        if not able:
            return self.assign()
        callee = self.random.choice(able)
        targets: list[str] = []
        for out in callee.outs:
            targets.append(self.random.choice([it for it in self.targets(out.type) if it not in targets]))
        arguments = [self.argument(it.type) for it in callee.ins]
        table = {Name(it.name): given for it, given in zip(callee.ins, arguments)}
        required = kept([it.condition for it in callee.requires if not it.free and self.says(callee, it)], table)
        made = self.met([it for it in required if it not in self.facts and not self.chance(self.noise + 0.03)])
        made.append(trees.Call(targets, callee.name, list(map(self.claims.with_old, arguments))))
        self.after_call(callee, targets, table)
        return made

    def argument(self, type: Type) -> Expression:
        """What a parameter gets: often a variable that may be set here."""
        names = self.targets(type)
        if names and self.chance(0.5):
            return Name(self.random.choice(names))
        return self.terms.term(type, self.random.choice([0, 1]))

    def met(self, conditions: list[Expression]) -> list[Statement]:
        """Conditions are assumed, of any values that variables get before that, at times."""
        made: list[Statement] = []
        names = sorted({name for it in conditions for name in current(it) if name in self.may})
        if names and self.chance(0.7):
            made.append(trees.Havoc(names))
            self.facts = without(self.clauses(names) + forgotten(self.facts, names), [])
        self.facts = without([*conditions, *self.facts], [])
        return made + [trees.Assume(it) for it in conditions]

    def can_call(self, callee: Procedure) -> bool:
        """Whether there are arguments and targets for a call, and its globals may be set."""
        if not set(callee.modifies) <= set(self.procedure.modifies):
            return False
        if not all(self.terms.has(it.type) for it in callee.ins):
            return False
        if any(name in self.globals and name not in self.may for name in callee.modifies):
            return False
        wanted = [it.type for it in callee.outs]
        return all(len(self.targets(type)) >= wanted.count(type) for type in wanted)

    def says(self, callee: Procedure, clause: Clause) -> bool:
        """Whether this body's names can say a callee's clause."""
        names = {it.name for it in callee.ins + callee.outs}
        return not (trees.free(clause.condition) - names) & set(self.own)

    def after_call(self, callee: Procedure, targets: list[str], table: dict[Expression, Expression]) -> None:
        """The facts after a call: what it ensures, and what was known of what it doesn't change."""
        changed = dict.fromkeys([*targets, *(it for it in callee.modifies if it in self.globals)])
        before = {} if self.slips() else ghosts(changed)
        given = {key: to for key, to in zip(table, kept(list(table.values()), before))}
        for out, target in zip(callee.outs, targets):
            given[Name(out.name)] = Name(target)
        names = {it.name for it in callee.ins + callee.outs}
        others = frozenset(it.name for it in self.program.variables if it.name not in names)
        for name in others:
            given[Old(Name(name))] = before.get(Name(name), Name(name)) if name in callee.modifies else Name(name)
            if name in targets and name in callee.modifies:
                given[Name(name)] = Name(ghost(ghost(name)))
        clauses = [it for it in callee.ensures if self.says(callee, it)]
        ensured = kept([pushed(it.condition, others) for it in clauses], given)
        ensured += self.clauses([it for it in callee.modifies if it not in targets])
        wheres = [Clause(it.where) for it in callee.outs if it.where is not None]
        ensured += kept([it.condition for it in wheres if self.says(callee, it)], given)
        hidden = [ghost(name) for name in changed] + [ghost(ghost(name)) for name in changed]
        self.facts = without(ensured + kept(self.facts, before), hidden)

    def loop(self) -> list[Statement]:
        """A loop; those of `Loops` know which."""
        return self.assign()


def written(table: Expression, indices: list[Expression], value: Expression) -> Expression:
    """A map with a value at the place that indices name."""
    first, *rest = indices
    return Write(table, first, written(Read(table, first), rest, value) if rest else value)
