"""Random expressions over the names that are in scope."""
from __future__ import annotations

import random
from dataclasses import dataclass, field

from player import trees
from player.facts import is_pattern
from player.trees import (
    BOOL, FLAGS, GRID, INT, ROW, Apply, Binary, Choice, Expression, Function, Name, Number, Old, Quantified, Read,
    Truth, Type, Unary, Write,
)

BOUND = ["i", "j", "k", "n", "x", "b"]
ORDERS = ["<", "<=", ">", ">=", "==", "!="]


@dataclass(eq=False)
class Terms:
    """Draws expressions; `entry` are the globals that `old` may read."""

    random: random.Random
    functions: list[Function]
    names: dict[str, Type]
    entry: dict[str, Type] = field(default_factory=dict)

    def leaves(self, type: Type) -> list[Expression]:
        """The names of a type, and entry values."""
        found: list[Expression] = [Name(name) for name, it in self.names.items() if it == type]
        return found + [Old(Name(name)) for name, it in self.entry.items() if it == type]

    def has(self, type: Type) -> bool:
        """Whether there is an expression of a type."""
        return type in (INT, BOOL) or bool(self.leaves(type))

    def term(self, type: Type, depth: int = 2) -> Expression:
        """An expression of a type; there is one."""
        depth = max(depth, 0)
        leaves = self.leaves(type)
        draw = self.random.random()
        if type == INT:
            return self.number(leaves, depth)
        if type == BOOL:
            return self.condition(depth) if depth and draw < 0.7 else self.random.choice(leaves + [Truth(draw < 0.35)])
        leaf = self.random.choice(leaves)
        if not depth or draw < 0.55:
            return leaf
        if type.range is None or draw < 0.65:
            return Choice(self.condition(depth - 1), leaf, self.random.choice(leaves))
        written: Expression = leaf
        if self.has(type.range):
            for _ in range(self.random.choice([1, 1, 2])):
                written = Write(written, self.term(INT, depth - 1), self.term(type.range, depth - 1))
        return written

    def number(self, leaves: list[Expression], depth: int) -> Expression:
        """An expression of type `int`."""
        draw = self.random.random()
        if not depth or draw < 0.35:
            return self.random.choice(leaves + [Number(self.random.randint(-1, 4))])
        if draw < 0.65:
            sign = self.random.choice("++-")
            return Binary(sign, self.term(INT, depth - 1), self.term(INT, depth - 1))
        if draw < 0.7:
            return Binary("*", Number(self.random.randint(2, 3)), self.term(INT, depth - 1))
        if draw < 0.73:
            return Unary("-", self.term(INT, depth - 1))
        if draw < 0.78:
            return Choice(self.condition(depth - 1), self.term(INT, depth - 1), self.term(INT, depth - 1))
        return self.looked_up(INT, depth) or self.random.choice(leaves + [Number(2)])

    def looked_up(self, type: Type, depth: int) -> Expression | None:
        """An application or a read of a type, where there is one."""
        choices: list[Expression] = []
        for function in self.functions:
            if function.result == type and not function.logical and all(self.has(it) for _, it in function.parameters):
                choices.append(self.applied(function, depth - 1))
        maps = self.leaves(Type("map", type))
        if maps:
            choices.append(Read(self.random.choice(maps), self.term(INT, depth - 1)))
        grids = self.leaves(GRID)
        if grids and type == INT:
            row = Read(self.random.choice(grids), self.term(INT, 0))
            choices.append(Read(row, self.term(INT, depth - 1)))
        return self.random.choice(choices) if choices else None

    def applied(self, function: Function, depth: int) -> Expression:
        """An application of a function."""
        return Apply(function.name, tuple(self.term(type, depth) for _, type in function.parameters))

    def condition(self, depth: int = 2) -> Expression:
        """An expression of type `bool` that may stand anywhere."""
        draw = self.random.random()
        below = max(depth - 1, 0)
        if draw < 0.5 or not depth:
            return Binary(self.random.choice(ORDERS), self.term(INT, below), self.term(INT, 0))
        if draw < 0.6:
            types = [it for it in dict.fromkeys(self.names.values()) if it != INT]
            type = self.random.choice(types + [INT])
            return Binary(self.random.choice(["==", "!="]), self.term(type, below), self.term(type, 0))
        if draw < 0.66:
            return Unary("!", self.condition(below))
        if draw < 0.88:
            sign = self.random.choice(["&&", "||", "==>", "<==>"])
            return Binary(sign, self.condition(below), self.condition(below))
        return self.looked_up(BOOL, below) or self.random.choice(self.leaves(BOOL) + [self.condition(0)])

    def formula(self) -> Expression:
        """A condition that may have quantifiers."""
        logical = [it for it in self.functions if it.logical and all(self.has(type) for _, type in it.parameters)]
        numbers = [it for it in self.functions if it.result == INT and [type for _, type in it.parameters] == [INT]]
        draw = self.random.random()
        if numbers and draw < 0.1:
            return self.about_function(self.random.choice(numbers))
        if draw < 0.2 and logical:
            return self.applied(self.random.choice(logical), 0)
        maps = self.leaves(ROW)
        if draw < 0.5 and maps:
            return self.about_map(self.random.choice(maps))
        if draw < 0.58 and self.leaves(FLAGS):
            table = self.random.choice(self.leaves(FLAGS))
            index = self.fresh(trees.free(table))
            read = Read(table, Name(index))
            return over("forall", (index,), (read,), self.within(index, read))
        return self.condition()

    def fresh(self, names) -> str:
        """A name for a bound variable that hides none of these."""
        return self.random.choice([it for it in BOUND if it not in names])

    def within(self, index: str, claim: Expression) -> Expression:
        """A claim on an index that lies in bounds."""
        safe = [it for it in self.leaves(INT) if index not in trees.free(it)]
        ends = safe + [Number(self.random.randint(0, 5))]
        low = Binary("<=", self.random.choice([Number(0), Number(1)]), Name(index))
        high = Binary("<", Name(index), self.random.choice(ends))
        draw = self.random.random()
        if draw < 0.25:
            return claim
        return Binary("==>", low if draw < 0.4 else Binary("&&", low, high), claim)

    def about_map(self, table: Expression) -> Expression:
        """What a map has at all indices, or at those within bounds, or at some."""
        names = trees.free(table)
        index = self.fresh(names)
        read = Read(table, Name(index))
        if self.random.random() < 0.12:
            claims = [Binary("<=", Read(table, Number(0)), read), Binary("==", read, self.bound_for(index))]
            return over("exists", (index,), (read,), self.random.choice(claims))
        if self.random.random() < 0.2:
            return self.sorted(table)
        order = self.random.choice(["<=", "<", ">=", "!=", "=="])
        return over("forall", (index,), (read,), self.within(index, Binary(order, read, self.bound_for(index))))

    def about_function(self, function: Function) -> Expression:
        """What a function gives for all numbers, or for those within bounds."""
        index = self.fresh([])
        given = Apply(function.name, (Name(index),))
        order = self.random.choice(["<=", ">=", "!="])
        return over("forall", (index,), (given,), self.within(index, Binary(order, given, self.bound_for(index))))

    def bound_for(self, index: str) -> Expression:
        """What is compared with a read at an index: a number or name, or the index itself."""
        safe = [it for it in self.leaves(INT) if index not in trees.free(it)]
        return self.random.choice(safe + [Number(self.random.randint(-1, 3)), Name(index)])

    def sorted(self, table: Expression) -> Expression:
        """A map rises, or has nothing twice."""
        first, second = self.random.sample([it for it in BOUND if it not in trees.free(table)], 2)
        reads = Read(table, Name(first)), Read(table, Name(second))
        order = self.random.choice(["<", "<=", "!="])
        relation = "!=" if order == "!=" else self.random.choice(["<=", order])
        body = Binary("==>", Binary(order, Name(first), Name(second)), Binary(relation, *reads))
        return over("forall", (first, second), reads, body)


def over(word: str, names: tuple[str, ...], trigger: tuple[Expression, ...], body: Expression) -> Quantified:
    """A quantifier over integers, with a trigger where that may be one."""
    triggers = (trigger,) if all(map(is_pattern, trigger)) else ()
    return Quantified(word, tuple((name, INT) for name in names), triggers, body)
