"""Loops with invariants that hold, or nearly do."""
from __future__ import annotations

from collections.abc import Callable
from dataclasses import dataclass, field

from player import trees
from player.bodies import Body
from player.facts import assigned, current, equal, negated, tidy, without
from player.terms import BOUND, over
from player.trees import (
    BOOL, GRID, INT, ROW, Binary, Clause, Expression, Name, Number, Read, Statement, Truth, Type, Unary,
)


@dataclass(eq=False)
class Counting:
    """A loop that counts up, while its parts are drawn: what stands before it and at its body's begin."""

    index: str
    low: Expression
    extra: list[str]
    touched: list[str]
    before: list[Statement] = field(default_factory=list)
    first: list[Statement] = field(default_factory=list)
    invariants: list[Expression] = field(default_factory=list)

    def keep(self, invariant: Expression) -> None:
        """Adds an invariant."""
        self.invariants.append(invariant)

    def behind(self, name: str) -> Binary:
        """An index is one that was counted already."""
        return between(self.low, Name(name), Name(self.index))


def between(low: Expression, index: Expression, high: Expression) -> Binary:
    """An index lies in bounds, the upper one left out."""
    return Binary("&&", Binary("<=", low, index), Binary("<", index, high))


def put(name: str, value: Expression, *indices: Expression) -> Statement:
    """An assignment."""
    return trees.Assign([(name, list(indices))], [value])


def counted(name: str, step: int = 1) -> Statement:
    """A variable goes up by one, or by so much."""
    return put(name, Binary("+", Name(name), Number(step)))


class Loops(Body):
    """A body that has loops."""

    def loop(self) -> list[Statement]:
        """One loop of some kind."""
        counters = self.targets(INT)
        if not counters:
            return self.assign()
        if self.targets(GRID) and len(counters) > 1 and self.chance(0.5):
            return self.grid(*self.random.sample(counters, 2))
        way = self.random.choices([self.counting, self.chosen, self.flagged], [6, 2, 1])[0]
        return way(self.random.choice(counters))

    def enter(
        self, guard: Expression | None, invariants: list[Expression], changing: list[str]
    ) -> tuple[trees.While, list[Expression]]:
        """A loop, and what holds at its head: the invariants, and what is said of other variables."""
        clauses = []
        for invariant in invariants:
            if not self.chance(self.noise / 2):
                clauses.append(Clause(self.claims.with_old(self.maybe_spoiled(invariant)), self.chance(0.05)))
        known = [it for it in self.facts if not current(it) & set(changing) or self.slips()]
        head = without([*invariants, *known], [])
        self.take(head, guard)
        return trees.While(guard, clauses, []), head

    def fill(
        self, entered: tuple[trees.While, list[Expression]], first: list[Statement], step: list[Statement],
        extra: list[str],
    ) -> Statement:
        """The loop with its body: statements, others that change `extra` alone, and a step. Goes on behind it."""
        statement, head = entered
        keys = ["loop%d" % len(self.arrived)]
        if self.chance(0.2):
            keys.append(self.label())
        statement.labels += keys[1:]
        for key in keys:
            self.arrived[key] = []
            self.exits.append(("break", key))
        may, self.may = self.may, extra
        statement.body = first + self.block(2 if extra else 1)
        if self.facts is not None or self.chance(0.5):
            statement.body += step
        self.may = may
        arriving = [facts for key in keys for facts in self.arrived.pop(key)]
        del self.exits[-len(keys) :]
        self.take(head, None if statement.guard is None else negated(statement.guard))
        self.meet([self.facts, *arriving])
        return statement

    def set(self, before: list[Statement], name: str, value: Expression) -> None:
        """Sets a variable before a loop."""
        before.append(put(name, value))
        self.facts = assigned(self.facts, {name: value})

    def counting(self, index: str) -> list[Statement]:
        """A loop that counts up, and does something at each number."""
        extra = [it for it in self.may if it != index and self.chance(0.25)]
        calm = self.calm(INT, [index, *extra])
        low = self.random.choice(calm + [Number(0), Number(0), Number(1)])
        ahead = self.chance(0.4)
        high = self.random.choice(calm + [Number(self.random.randint(2, 5))])
        high = tidy(Binary("+", low, Number(self.random.randint(0, 4)))) if ahead else high
        loop = Counting(index, low, extra, [index])
        self.set(loop.before, index, low)
        loop.keep(Binary("<=", low, Name(index)))
        if ahead or self.chance(0.6):
            loop.before += [] if ahead else self.met([Binary("<=", low, high)])
            loop.keep(Binary("<=", Name(index), high))
        for way in (self.adding, self.filling, self.scanning, self.greatest, self.searching):
            if self.chance(0.3):
                way(loop)
        rest = [it for it in extra if it not in loop.touched]
        guard = Binary("<" if self.chance(0.85) else "!=", Name(index), high)
        entered = self.enter(guard, loop.invariants, loop.touched + rest)
        return loop.before + [self.fill(entered, loop.first, [counted(index)], rest)]

    def calm(self, type: Type, changing: list[str]) -> list[Expression]:
        """The names of a type, and entry values, but those that change."""
        return [it for it in self.terms.leaves(type) if not current(it) & set(changing)]

    def one_of(self, type: Type, loop: Counting) -> str | None:
        """A variable of a type that no part of a loop changes yet; now one does."""
        names = [it for it in self.targets(type) if it not in loop.touched]
        name = self.random.choice(names) if names else None
        loop.touched += [name] if name else []
        return name

    def row(self, loop: Counting) -> Expression | None:
        """A map that a loop doesn't change."""
        rows = self.calm(ROW, loop.touched + loop.extra)
        return self.random.choice(rows) if rows else None

    def adding(self, loop: Counting) -> None:
        """A variable goes up or down with the index."""
        name, factor = self.one_of(INT, loop), self.random.choice([1, 2, -1])
        if not name:
            return
        start = self.random.choice(self.calm(INT, loop.touched + loop.extra) + [Number(0)])
        self.set(loop.before, name, start)
        grown = Binary("*", Number(factor), Binary("-", Name(loop.index), loop.low))
        loop.keep(equal(Name(name), Binary("+", start, grown)))
        loop.first.append(counted(name, factor))

    def filling(self, loop: Counting) -> None:
        """A map gets a value at each index; at times the others stay as they were."""
        name = self.one_of(ROW, loop)
        if not name:
            return
        index, row = Name(loop.index), self.row(loop)
        value = self.terms.term(INT, 1)
        if current(value) & {*loop.touched, *loop.extra} - {loop.index}:
            value = Binary("+", index, Number(1))
        if row and self.chance(0.4):
            value = Read(row, index)
        bound = self.terms.fresh(trees.free(value) | trees.free(loop.low) | {name, loop.index})
        read = Read(Name(name), Name(bound))
        claim = equal(read, renamed(value, loop.index, bound))
        loop.keep(over("forall", (bound,), (read,), Binary("==>", loop.behind(bound), claim)))
        if row and equal(Name(name), row) in self.facts and bound not in trees.free(row):
            rest = Binary("||", Binary("<", Name(bound), loop.low), Binary("<=", index, Name(bound)))
            same = Binary("==>", rest, equal(read, Read(row, Name(bound))))
            loop.keep(over("forall", (bound,), (read,), same))
        loop.first.append(put(name, value, index))

    def scanning(self, loop: Counting) -> None:
        """A flag tells whether all that was read fits."""
        row, name = self.row(loop), self.one_of(BOOL, loop)
        if not row or not name:
            return
        bound, test = self.test(row, loop)
        body = Binary("==>", loop.behind(bound), test(bound))
        every = over("forall", (bound,), (Read(row, Name(bound)),), body)
        self.set(loop.before, name, Truth(True))
        loop.keep(Binary(self.random.choice(["==>", "<==>"]), Name(name), every))
        if self.chance(0.5):
            loop.first.append(put(name, Binary("&&", Name(name), test(loop.index))))
        else:
            loop.first.append(trees.If(Unary("!", test(loop.index)), [put(name, Truth(False))]))

    def test(self, row: Expression, loop: Counting) -> tuple[str, Callable[[str], Expression]]:
        """A name for a bound variable, and a test of what a map has at an index."""
        calm = self.calm(INT, loop.touched + loop.extra)
        against = self.random.choice(calm + [Number(self.random.randint(0, 3))])
        order = self.random.choice(["<=", "<", ">=", "!="])
        taken = trees.free(row) | trees.free(loop.low) | trees.free(against)
        bound = self.terms.fresh(taken | set(loop.touched))
        return bound, lambda at: Binary(order, Read(row, Name(at)), against)

    def greatest(self, loop: Counting) -> None:
        """A variable holds the greatest value read."""
        row, name = self.row(loop), self.one_of(INT, loop)
        if not row or not name:
            return
        bound = self.terms.fresh(trees.free(row) | trees.free(loop.low) | {loop.index, name})
        read = Read(row, Name(bound))
        body = Binary("==>", loop.behind(bound), Binary("<=", read, Name(name)))
        loop.keep(over("forall", (bound,), (read,), body))
        seen = Read(row, Name(loop.index))
        loop.first.append(trees.If(Binary("<", Name(name), seen), [put(name, seen)]))

    def searching(self, loop: Counting) -> None:
        """The loop is left where something is found."""
        row = self.row(loop)
        if row:
            bound, test = self.test(row, loop)
            body = Binary("==>", loop.behind(bound), test(bound))
            loop.keep(over("forall", (bound,), (Read(row, Name(bound)),), body))
            loop.first.insert(0, trees.If(Unary("!", test(loop.index)), [trees.Break()]))

    def chosen(self, name: str) -> list[Statement]:
        """A loop that ends by choice; a variable goes one way in it."""
        extra = [it for it in self.may if it != name and self.chance(0.4)]
        low = self.random.choice(self.calm(INT, [name, *extra]) + [Number(0)])
        order, sign = self.random.choice([("<=", "+"), (">=", "-")])
        before: list[Statement] = []
        self.set(before, name, Binary(sign, low, Number(self.random.randint(0, 1))))
        entered = self.enter(None, [Binary(order, low, Name(name))], [name, *extra])
        step = put(name, Binary(sign, Name(name), Number(self.random.randint(0, 2))))
        return before + [self.fill(entered, [], [step], extra)]

    def flagged(self, name: str) -> list[Statement]:
        """A loop that a flag ends, when a variable has what is wanted."""
        flags = self.targets(BOOL)
        if not flags:
            return self.chosen(name)
        flag = self.random.choice(flags)
        other = self.random.choice(self.calm(INT, [name]) + [Number(2)])
        wanted = Binary(self.random.choice(["<=", "==", "!="]), Name(name), other)
        before: list[Statement] = []
        self.set(before, flag, Truth(True))
        entered = self.enter(Name(flag), [Binary("||", Name(flag), wanted)], [flag, name])
        ending = trees.If(wanted, [put(flag, Truth(False))])
        return before + [self.fill(entered, [], [trees.Havoc([name]), ending], [])]

    def grid(self, row: str, column: str) -> list[Statement]:
        """Two loops that fill a map of maps."""
        name = self.random.choice(self.targets(GRID))
        high = self.random.choice(self.calm(INT, [row, column]) + [Number(3)])
        taken = trees.free(high) | {row, column, name}
        first, second = self.random.sample([it for it in BOUND if it not in taken], 2)
        both = Name(row), Name(column)
        value = self.random.choice([Number(1), Binary("+", *both), Binary("-", *reversed(both))])
        read = Read(Read(Name(name), Name(first)), Name(second))
        claim = equal(read, renamed(renamed(value, row, first), column, second))
        inside = Binary("&&", between(Number(0), Name(first), both[0]), between(Number(0), Name(second), high))
        rows = over("forall", (first, second), (read,), Binary("==>", inside, claim))
        read = Read(Read(Name(name), both[0]), Name(second))
        claim = equal(read, renamed(value, column, second))
        body = Binary("==>", between(Number(0), Name(second), both[1]), claim)
        columns = over("forall", (second,), (read,), body)
        positive = [Binary("<=", Number(0), it) for it in both]
        before: list[Statement] = []
        self.set(before, row, Number(0))
        outer, head = self.enter(Binary("<", both[0], high), [positive[0], rows], [row, column, name])
        self.set(outer.body, column, Number(0))
        inner, _ = self.enter(Binary("<", both[1], high), [*positive, rows, columns], [column, name])
        inner.body = [put(name, value, *both), counted(column)]
        outer.body += [inner, counted(row)]
        self.take(head, negated(outer.guard))
        return before + [outer]


def renamed(tree: Expression, name: str, to: str) -> Expression:
    """An expression without quantifiers with another name in the place of one."""
    if tree == Name(name):
        return Name(to)
    if isinstance(tree, trees.Old):
        return tree
    return trees.rebuilt(tree, tuple(renamed(it, name, to) for it in trees.parts(tree)))
