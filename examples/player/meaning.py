"""What an expression means in a state."""
from __future__ import annotations

from dataclasses import dataclass, field

from player import trees
from player.trees import Expression, Function, Type
from player.values import Comparing, Undecided, Value, combined, product, written


@dataclass(frozen=True)
class Scope:
    """What names stand for. Parameters and locals hide globals and constants, bound variables hide all."""

    constants: dict[str, Value]
    globals: dict[str, Value] = field(default_factory=dict)
    entry: dict[str, Value] = field(default_factory=dict)
    frame: dict[str, Value] = field(default_factory=dict)
    bound: dict[str, Value] = field(default_factory=dict)

    def table(self, name: str) -> dict[str, Value]:
        """Where a name has its value."""
        for names in (self.bound, self.frame, self.globals):
            if name in names:
                return names
        return self.constants

    def value(self, name: str) -> Value:
        """The value of a name."""
        return self.table(name)[name]

    def binding(self, name: str, value: Value) -> Scope:
        """This scope, and in it a bound variable."""
        return Scope(self.constants, self.globals, self.entry, self.frame, {**self.bound, name: value})

    def before(self) -> Scope:
        """This scope with the globals as they were at entry."""
        return Scope(self.constants, self.entry, self.entry, self.frame, self.bound)


class Meaning:
    """Reads expressions over a program's functions."""

    def __init__(self, functions: list[Function]):
        self.functions = {it.name: it for it in functions}
        self.comparing = Comparing()
        self.ways = {
            trees.Name: lambda it, scope: scope.value(it.name),
            trees.Number: lambda it, scope: it.value,
            trees.Truth: lambda it, scope: it.value,
            trees.Old: lambda it, scope: self.value(it.body, scope.before()),
            trees.Binary: lambda it, scope: self.joined(it.sign, it.left, it.right, scope),
            trees.Unary: self.prefixed,
            trees.Choice: self.chosen,
            trees.Read: lambda it, scope: self.comparing.read(self.value(it.map, scope), self.value(it.index, scope)),
            trees.Write: lambda it, scope: written(*(self.value(part, scope) for part in trees.parts(it))),
            trees.Apply: self.applied,
            trees.Quantified: lambda it, scope: self.quantified(it.word == "forall", it.variables, it.body, scope),
        }

    def read(self, tree: Expression, scope: Scope) -> Value:
        """The value of an expression in a state; Undecided where that isn't found out."""
        self.comparing.begin()
        return self.value(tree, scope)

    def value(self, tree: Expression, scope: Scope) -> Value:
        """The value of an expression, also in a quantifier's body."""
        return self.ways[type(tree)](tree, scope)

    def prefixed(self, tree: trees.Unary, scope: Scope) -> Value:
        """The value of an operand with a sign before it."""
        value = self.value(tree.body, scope)
        return not value if tree.sign == "!" else combined(0, value, -1)

    def chosen(self, tree: trees.Choice, scope: Scope) -> Value:
        """The value of the operand that the condition chooses."""
        return self.value(tree.then if self.value(tree.condition, scope) else tree.other, scope)

    def applied(self, tree: trees.Apply, scope: Scope) -> Value:
        """The value of a function's body, in which its parameters are bound and constants alone are seen."""
        function = self.functions[tree.function]
        given = [self.value(it, scope) for it in tree.arguments]
        names = dict(zip((name for name, _ in function.parameters), given))
        return self.value(function.body, Scope(scope.constants, bound=names))

    def joined(self, sign: str, left: Expression, right: Expression, scope: Scope) -> Value:
        """The value of two operands with a sign between them."""
        first = self.value(left, scope)
        if sign == "&&":
            return first and self.value(right, scope)
        if sign == "||":
            return first or self.value(right, scope)
        if sign == "==>":
            return not first or self.value(right, scope)
        second = self.value(right, scope)
        match sign:
            case "+":
                return combined(first, second, 1)
            case "-":
                return combined(first, second, -1)
            case "*":
                return product(first, second)
            case "==" | "<==>":
                return self.comparing.same(first, second)
            case "!=":
                return not self.comparing.same(first, second)
        order = self.comparing.compare(first, second)
        return {"<": order < 0, "<=": order <= 0, ">": order > 0, ">=": order >= 0}[sign]

    def quantified(
        self, universal: bool, variables: tuple[tuple[str, Type], ...], body: Expression, scope: Scope
    ) -> bool:
        """Whether a body holds for all values of variables, or for some."""
        if not variables:
            return self.value(body, scope)
        (name, type), *rest = variables

        def test(value: Value) -> bool:
            inner = self.quantified(universal, tuple(rest), body, scope.binding(name, value))
            return inner == universal

        if type == trees.BOOL:
            every = test(False) and test(True)
        elif type.range is not None:
            raise Undecided
        else:
            every = self.comparing.for_all(test)
        return every == universal
