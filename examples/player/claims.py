"""Claims that follow from facts, and claims that are nearly so."""
from __future__ import annotations

import random

from player import trees
from player.facts import Captured, current, equal, is_pattern, is_plain, negated, replaced, tidy
from player.terms import BOUND, Terms, over
from player.trees import (
    BOOL, INT, Apply, Binary, Choice, Expression, Function, Name, Number, Old, Quantified, Read, Truth, Type, Unary,
    Write,
)

OTHER_SIGNS = {
    "<": ["<=", ">"], "<=": ["<", ">="], ">": [">=", "<"], ">=": [">", "<="], "==": ["<=", "!="], "!=": ["==", "<"],
    "&&": ["||"], "||": ["&&"], "==>": ["<==>", "&&"], "<==>": ["==>"], "+": ["-"], "-": ["+"], "*": ["+"],
}


class Claims:
    """Draws claims over the terms of a scope."""

    def __init__(self, terms: Terms, globals: frozenset[str]):
        self.terms = terms
        self.random: random.Random = terms.random
        self.globals = globals
        self.functions: dict[str, Function] = {it.name: it for it in terms.functions}

    def type(self, tree: Expression) -> Type | None:
        """The type of an expression, where it is known."""
        match tree:
            case Name(name):
                return self.terms.names.get(name)
            case Old(Name(name)):
                return self.terms.entry.get(name)
            case Number() | Unary("-", _) | Binary("+" | "-" | "*", _, _):
                return INT
            case Read(table, _):
                type = self.type(table)
                return type.range if type else None
            case Write(table, _, _):
                return self.type(table)
            case Choice(_, then, _):
                return self.type(then)
            case Apply(name, _):
                return self.functions[name].result
        return BOOL

    def claim(self, facts: list[Expression]) -> Expression:
        """Something that follows from facts, or from nothing."""
        draw = self.random.random()
        if not facts or draw < 0.08:
            return self.tautology()
        found = self.random.choice(facts)
        for _ in range(self.random.choice([0, 1, 1, 2, 3])):
            weaker = self.weaker(found, facts)
            if trees.size(weaker) <= 30:
                found = weaker
        if draw > 0.85:
            found = Binary("&&", found, self.random.choice(facts))
        return self.with_old(found) if self.random.random() < 0.3 else found

    def tautology(self) -> Expression:
        """What holds always."""
        term, other = self.terms.term(INT, 1), self.terms.term(INT, 1)
        found = [
            Binary("||", Binary("<=", term, other), Binary("<=", other, term)),
            equal(tidy(Binary("-", Binary("+", term, other), other)), term),
            equal(Choice(Binary("<", term, other), other, term), Choice(Binary("<", other, term), term, other)),
        ]
        maps = [name for name, type in self.terms.names.items() if type.range == INT]
        if maps:
            table = Name(self.random.choice(maps))
            if self.random.random() < 0.3:
                return self.of_all(table)
            found.append(equal(Read(Write(table, term, other), term), other))
            apart = Binary("!=", term, other)
            found.append(Binary("==>", apart, equal(Read(Write(table, term, other), other), Read(table, other))))
            twice = Write(Write(table, term, Number(0)), term, other)
            found.append(equal(twice, Write(table, term, other)))
        return self.random.choice(found)

    def of_all(self, table: Name) -> Expression:
        """What holds always, and speaks of all values of a type."""
        index, other = self.random.sample([it for it in BOUND if it != table.name], 2)
        read = Read(table, Name(index))
        below = Binary("<=", read, Read(table, Name(other)))
        some = over("exists", (other,), (Read(table, Name(other)),), below)
        truth = Binary("==>", Name("t"), Binary("||", Binary("<", Number(0), read), Name("t")))
        found: list[Expression] = [
            over("forall", (index,), (read,), some),
            Quantified("forall", (("t", BOOL), (index, INT)), (), truth),
        ]
        for name, type in self.terms.names.items():
            if type.range is not None and type.range.name not in ("int", "bool", "map"):
                paint = Read(Name(name), Name(index))
                claim = Binary("||", Binary("!=", paint, Name("c")), equal(Name("c"), paint))
                if name not in (index, "c"):
                    found += [Quantified("forall", (("c", type.range), (index, INT)), (), claim)] * 3
        return self.random.choice(found)

    def weaker(self, fact: Expression, facts: list[Expression]) -> Expression:
        """What follows from a fact, beside others."""
        ways = [self.beside, self.substituted, self.some]
        match fact:
            case Binary("==" | "<=" | "<" | ">=" | ">", left, _) if self.type(left) == INT:
                ways += [self.compared] * 4
            case Quantified("forall", _, _, _):
                ways += [self.instance] * 3 + [self.narrowed]
            case Binary("&&", left, right):
                return self.random.choice([left, right])
            case Apply(name, _) if self.functions[name].result == BOOL:
                ways += [self.unfolded] * 2
        try:
            return self.random.choice(ways)(fact, facts)
        except Captured:
            return fact

    def compared(self, fact: Binary, facts: list[Expression]) -> Expression:
        """A comparison that follows from one of integers."""
        left, right = fact.left, fact.right
        if fact.sign in (">", ">="):
            left, right = right, left
        more = tidy(Binary("+", right, Number(self.random.choice([1, 1, 2]))))
        found = [Binary("<=", left, more), Binary("<", left, more), Binary(">", more, left)]
        if fact.sign in ("<", ">"):
            found += [Binary("<=", tidy(Binary("+", left, Number(1))), right), Binary("!=", right, left)]
            return self.random.choice(found + [Unary("!", Binary("<=", right, left))])
        found += [Binary(">=", right, left), Unary("!", Binary("<", right, left))]
        if fact.sign == "==":
            term = self.terms.term(INT, 1)
            found += [Binary("<=", right, left), equal(right, left), Binary("!=", left, more)]
            found += [equal(Binary("+", left, term), Binary("+", term, right))]
            found += [equal(Binary("-", right, left), Number(0))]
            found += self.alike(left, right)
        return self.random.choice(found)

    def alike(self, left: Expression, right: Expression) -> list[Expression]:
        """What is the same of two numbers that are the same."""
        found: list[Expression] = []
        for name, type in self.terms.names.items():
            if type.range is not None:
                found.append(equal(Read(Name(name), left), Read(Name(name), right)))
        for function in self.functions.values():
            if function.parameters and function.parameters[0][1] == INT and not function.logical:
                if all(self.terms.has(type) for _, type in function.parameters):
                    rest = self.terms.applied(function, 0).arguments[1:]
                    found.append(equal(Apply(function.name, (left, *rest)), Apply(function.name, (right, *rest))))
        return found

    def beside(self, fact: Expression, facts: list[Expression]) -> Expression:
        """A fact beside another condition, such that it stays true."""
        other = self.terms.condition(1)
        known = self.random.choice(facts)
        found = [
            Binary("||", fact, other), Binary("||", other, fact), Binary("==>", other, fact),
            Binary("&&", fact, known), Binary("==>", negated(fact), other), Unary("!", negated(fact)),
            Binary("<==>", fact, known), Binary("<==>", Truth(True), fact), Binary("==>", known, fact),
        ]
        if is_plain(fact):
            found += [equal(fact, Truth(True)), Binary("!=", Unary("!", fact), fact)]
            if is_plain(known):
                found += [Choice(other, fact, known), equal(known, fact)]
        return self.random.choice(found)

    def substituted(self, fact: Expression, facts: list[Expression]) -> Expression:
        """A fact with equals for equals."""
        equations = [it for it in facts if isinstance(it, Binary) and it.sign == "==" and it != fact]
        if not equations:
            return fact
        equation = self.random.choice(equations)
        for mine, other in ((equation.left, equation.right), (equation.right, equation.left)):
            if isinstance(mine, (Name, Old)) and is_plain(other):
                return replaced(fact, {mine: other})
        return fact

    def instance(self, fact: Quantified, facts: list[Expression]) -> Expression:
        """A universal's body for some values."""
        given = {}
        for name, type in fact.variables:
            if not self.terms.has(type):
                return fact
            given[Name(name)] = self.terms.term(type, 1)
        return replaced(fact.body, given)

    def some(self, fact: Expression, facts: list[Expression]) -> Expression:
        """That what is read at an index is read at some."""
        reads = [it for it in reads_of(fact) if is_pattern(it)] if is_plain(fact) else []
        if not reads:
            return fact
        read = self.random.choice(reads)
        bound = self.terms.fresh(trees.free(fact))
        other = Read(read.map, Name(bound))
        body = replaced(fact, {read: other})
        body = Binary("&&", equal(Name(bound), read.index), body) if self.random.random() < 0.3 else body
        return over("exists", (bound,), (other,), body)

    def narrowed(self, fact: Quantified, facts: list[Expression]) -> Expression:
        """A universal that says less."""
        name, type = fact.variables[-1]
        body = fact.body
        if isinstance(body, Binary) and body.sign == "==>":
            guard, claim = body.left, body.right
            if isinstance(claim, Binary) and claim.sign in ("<", "<=", "=="):
                order = {"<": "<=", "<=": "<=", "==": "<="}[claim.sign]
                if self.type(claim.right) == INT or claim.sign != "==":
                    return self.over(fact, Binary("==>", guard, Binary(order, claim.left, claim.right)))
            less = Binary("!=", Name(name), Number(self.random.randint(0, 3)))
            return self.over(fact, Binary("==>", Binary("&&", guard, less), claim)) if type == INT else fact
        return self.over(fact, Binary("==>", Binary("<=", Number(0), Name(name)), body)) if type == INT else fact

    def over(self, fact: Quantified, body: Expression) -> Quantified:
        """The quantifier over another body; at times a trigger is left to be chosen."""
        triggers = () if self.random.random() < 0.3 else fact.triggers
        return Quantified(fact.word, fact.variables, triggers, body)

    def unfolded(self, fact: Apply, facts: list[Expression]) -> Expression:
        """A function's body for its application."""
        function = self.functions[fact.function]
        names = [Name(name) for name, _ in function.parameters]
        return replaced(function.body, dict(zip(names, fact.arguments)))

    def with_old(self, tree: Expression) -> Expression:
        """The same, with `old` around more than names."""
        if isinstance(tree, Quantified) or not is_plain(tree):
            below = tuple(self.with_old(it) for it in trees.parts(tree))
            return trees.rebuilt(tree, below)
        has = not current(tree) & self.globals and bool(entry_names(tree))
        if has and self.random.random() < 0.7:
            return Old(bare(tree))
        return trees.rebuilt(tree, tuple(map(self.with_old, trees.parts(tree)))) if not isinstance(tree, Old) else tree

    def spoiled(self, tree: Expression) -> Expression:
        """A condition with one place of it changed."""
        spots = trees.size(tree)
        for _ in range(8):
            found = self.changed(tree, self.random.randrange(spots))
            if found != tree:
                return found
        return tree

    def changed(self, tree: Expression, spot: int) -> Expression:
        """The expression with the one at a spot, counted from the root, changed."""
        if spot == 0:
            return self.change(tree)
        spot -= 1
        below = list(trees.parts(tree))
        for k, part in enumerate(below):
            if spot < trees.size(part):
                below[k] = self.changed(part, spot)
                break
            spot -= trees.size(part)
        return trees.rebuilt(tree, tuple(below))

    def change(self, tree: Expression) -> Expression:
        """Another expression of the same type, much like this one."""
        match tree:
            case Number(value):
                return Number(value + self.random.choice([-1, 1]))
            case Truth(value):
                return Truth(not value)
            case Name(name) if name in self.terms.names:
                others = [it for it in self.terms.leaves(self.terms.names[name]) if not isinstance(it, Old)]
                return self.random.choice(others)
            case Old(body) | Unary("!", body):
                return body
            case Binary(sign, left, right):
                draw = self.random.random()
                if draw < 0.4 and sign in ("-", "<", "<=", "==>", ">", ">="):
                    return Binary(sign, right, left)
                signs = OTHER_SIGNS[sign]
                if sign in ("==", "!=", "<==>") and not (sign != "<==>" and self.type(left) == self.type(right) == INT):
                    signs = {"==": ["!="], "!=": ["=="], "<==>": ["==>"]}[sign]
                return Binary(self.random.choice(signs), left, right)
            case Choice(condition, then, other):
                return Choice(condition, other, then)
            case Quantified(word, variables, triggers, body):
                return Quantified("exists" if word == "forall" else "forall", variables, triggers, body)
            case Write(Write(table, index, value), other, last) if self.random.random() < 0.7:
                return Write(Write(table, other, last), index, value)
            case Write(table, _, _):
                return table
        return tree


def reads_of(tree: Expression) -> list[Read]:
    """The reads in an expression."""
    below = [it for part in trees.parts(tree) for it in reads_of(part)]
    return [tree, *below] if isinstance(tree, Read) else below


def entry_names(tree: Expression) -> frozenset[str]:
    """The names under `old`."""
    return trees.free(tree.body) if isinstance(tree, Old) else frozenset().union(*map(entry_names, trees.parts(tree)))


def bare(tree: Expression) -> Expression:
    """The same without `old`."""
    return tree.body if isinstance(tree, Old) else trees.rebuilt(tree, tuple(map(bare, trees.parts(tree))))
