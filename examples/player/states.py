"""Random values, and random states in which given conditions hold."""
from __future__ import annotations

import random
from dataclasses import dataclass, field

from player import trees
from player.facts import current
from player.meaning import Meaning, Scope
from player.trees import BOOL, Binary, Expression, Name, Type, Unary
from player.values import Map, Value, written

# so many changes are made to values before conditions are given up
CHANGES = 60


@dataclass(eq=False)
class Drawing:
    """Values of the types of a program; `numbers` are those in its text, `carriers` its unique constants'."""

    random: random.Random
    numbers: list[int]
    carriers: dict[str, list[int]]

    def number(self) -> int:
        """A small number, mostly, or one near a number of the text."""
        kind = self.random.random()
        if kind < 0.03:
            return self.random.choice([-(10**12), -1000, 1000, 10**12])
        if kind < 0.3 and self.numbers:
            return self.random.choice(self.numbers) + self.random.choice([-1, 0, 0, 1])
        return self.random.randint(-3, 6)

    def value(self, type: Type, others: list[Value]) -> Value:
        """A value of a type: a new one, or one like another that is there."""
        alike = self.random.random() < 0.35
        if type == BOOL:
            return self.random.random() < 0.5
        if type.range is not None:
            maps = [it for it in others if isinstance(it, Map) and fits(it, type)]
            return self.map_like(self.random.choice(maps), type) if alike and maps else self.map(type)
        if type.name != "int":
            known = self.carriers.get(type.name, [])
            return self.random.choice(known) if known and self.random.random() < 0.7 else self.random.randint(0, 9)
        numbers = [it for it in others if isinstance(it, int) and not isinstance(it, bool)]
        if alike and numbers:
            return self.random.choice(numbers) + self.random.choice([-1, 0, 0, 1])
        return self.number()

    def map(self, type: Type) -> Map:
        """A new map of a type: at times it has much the same everywhere."""
        found = Map(self.value(type.range, []))
        for _ in range(self.random.choice([0, 0, 1, 2, 3, 4])):
            found = written(found, self.random.randint(-2, 6), self.value(type.range, []))
        return found

    def map_like(self, table: Map, type: Type) -> Map:
        """A map with at most two changes."""
        for _ in range(self.random.choice([0, 0, 1, 2])):
            table = written(table, self.random.randint(-2, 6), self.value(type.range, []))
        return table


def fits(table: Map, type: Type) -> bool:
    """Whether a map's values look like those of a type."""
    if type.range.range is not None:
        return isinstance(table.default, Map) and fits(table.default, type.range)
    return not isinstance(table.default, Map) and isinstance(table.default, bool) == (type.range == BOOL)


def equations(condition: Expression):
    """The equations that a condition has among its conjuncts: a variable, and what it equals."""
    match condition:
        case Binary("&&", left, right):
            yield from equations(left)
            yield from equations(right)
        case Binary("==" | "<==>", left, right):
            if isinstance(left, Name) and left.name not in current(right):
                yield left.name, right
            if isinstance(right, Name) and right.name not in current(left):
                yield right.name, left
        case Name(name):
            yield name, trees.Truth(True)
        case Unary("!", Name(name)):
            yield name, trees.Truth(False)


@dataclass(eq=False)
class Wanted:
    """Variables to be given values so that conditions hold: their types, by the table that holds them and name."""

    drawing: Drawing
    meaning: Meaning
    types: dict[tuple[int, str], Type] = field(default_factory=dict)

    def want(self, table: dict[str, Value], name: str, type: Type) -> None:
        """Wants a variable of a table."""
        self.types[id(table), name] = type

    def draw(self, name: str, scope: Scope) -> None:
        """Another value for a variable."""
        tables = (scope.frame, scope.globals, scope.entry, scope.constants)
        others = [it for table in tables for it in table.values()]
        table = scope.table(name)
        table[name] = self.drawing.value(self.types[id(table), name], others)

    def begin(self, table: dict[str, Value], name: str, scope: Scope) -> None:
        """A value for a variable that a scope doesn't have yet."""
        table[name] = 0
        self.draw(name, scope)

    def is_wanted(self, name: str, scope: Scope) -> bool:
        """Whether a name is one of the variables."""
        return (id(scope.table(name)), name) in self.types

    def mend(self, condition: Expression, scope: Scope) -> bool:
        """Changes a variable that a condition names; False where it names none."""
        choose = self.drawing.random
        given = [it for it in equations(condition) if self.is_wanted(it[0], scope)]
        if given and choose.random() < 0.7:
            name, right = choose.choice(given)
            scope.table(name)[name] = self.meaning.read(right, scope)
            return True
        named = [it for it in sorted(current(condition)) if self.is_wanted(it, scope)]
        if named:
            self.draw(choose.choice(named), scope)
        return bool(named)

    def meet(self, conditions: list[tuple[Expression, Scope]]) -> bool:
        """Changes values until all conditions hold; False where it gives up. Undecided where one isn't decided."""
        for _ in range(CHANGES):
            failing = next((it for it in conditions if not self.meaning.read(*it)), None)
            if failing is None:
                return True
            if not self.mend(*failing):
                return False
        return False
