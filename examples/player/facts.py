"""What is known to hold at a point of a body while it is drawn: conditions, and what statements make of them.

In a fact `old` stands around names of globals alone. It serves to draw assertions that hold, no more: whether
they do is never taken from here.
"""
from __future__ import annotations

import functools

from player import trees
from player.trees import Apply, Binary, Expression, Name, Number, Old, Quantified, Read, Truth, Unary

# more facts than these, and greater ones, are forgotten
FACTS = 24
SIZE = 30


class Captured(Exception):
    """A name would come to stand for a bound variable."""


def equal(left: Expression, right: Expression) -> Binary:
    """An equation."""
    return Binary("==", left, right)


def negated(condition: Expression) -> Expression:
    """The condition that holds where this doesn't."""
    return condition.body if isinstance(condition, Unary) else Unary("!", condition)


def is_plain(tree: Expression) -> bool:
    """Whether an expression may stand anywhere: no quantifier, no logical application (those have capitals)."""
    if isinstance(tree, Quantified) or isinstance(tree, Apply) and tree.function[0].isupper():
        return False
    return all(map(is_plain, trees.parts(tree)))


@functools.lru_cache(maxsize=1 << 16)
def current(tree: Expression) -> frozenset[str]:
    """The free names outside `old`."""
    if isinstance(tree, Old):
        return frozenset()
    if isinstance(tree, Name):
        return frozenset([tree.name])
    found = frozenset().union(*map(current, trees.parts(tree)))
    return found - {name for name, _ in tree.variables} if isinstance(tree, Quantified) else found


def replaced(tree: Expression, table: dict[Expression, Expression]) -> Expression:
    """An expression with others in the place of names, or of `old` of names; Captured where that can't be."""
    if tree in table:
        return table[tree]
    if isinstance(tree, Old):
        return tree
    if isinstance(tree, Quantified):
        bound = {name for name, _ in tree.variables}
        table = {key: to for key, to in table.items() if not trees.free(key) & bound or isinstance(key, Old)}
        standing = trees.free(tree)
        if any(bound & trees.free(to) for key, to in table.items() if trees.free(key) & standing):
            raise Captured
        triggers = tuple(tuple(replaced(it, table) for it in trigger) for trigger in tree.triggers)
        triggers = tuple(it for it in triggers if all(map(is_pattern, it)))
        tree = Quantified(tree.word, tree.variables, triggers, tree.body)
    return tidy(trees.rebuilt(tree, tuple(replaced(it, table) for it in trees.parts(tree))))


def is_pattern(tree: Expression) -> bool:
    """Whether a trigger may have an expression: a read or application over names, numbers and the like."""

    def is_part(it: Expression) -> bool:
        return isinstance(it, (Name, Number, Read, Apply)) and all(map(is_part, trees.parts(it)))

    return isinstance(tree, (Read, Apply)) and is_part(tree)


def pushed(tree: Expression, globals: frozenset[str], inside: bool = False) -> Expression:
    """The same with `old` around names of globals alone."""
    if isinstance(tree, Old):
        return pushed(tree.body, globals, True)
    if isinstance(tree, Name):
        return Old(tree) if inside and tree.name in globals else tree
    if isinstance(tree, Quantified):
        globals = globals - {name for name, _ in tree.variables}
        triggers = () if inside else tree.triggers
        tree = Quantified(tree.word, tree.variables, triggers, tree.body)
    return trees.rebuilt(tree, tuple(pushed(it, globals, inside) for it in trees.parts(tree)))


def tidy(tree: Expression) -> Expression:
    """A sum with its numbers added up and what falls away left out; other expressions as they are."""
    if not (isinstance(tree, Binary) and tree.sign in ("+", "-")):
        return tree
    times: dict[Expression, int] = {}
    constant = add_up(tree, 1, times)
    found: Expression | None = None
    for term, factor in sorted(times.items(), key=lambda it: it[1] < 0):
        part = term if abs(factor) == 1 else Binary("*", Number(abs(factor)), term)
        if found is None:
            found = part if factor > 0 else Unary("-", part)
        else:
            found = Binary("+" if factor > 0 else "-", found, part)
    if found is None:
        return Number(constant)
    return Binary("+" if constant > 0 else "-", found, Number(abs(constant))) if constant else found


def add_up(tree: Expression, factor: int, times: dict[Expression, int]) -> int:
    """Adds a multiple of a sum to the factors of terms; its constant."""
    match tree:
        case Number(value):
            return factor * value
        case Binary("+", left, right):
            return add_up(left, factor, times) + add_up(right, factor, times)
        case Binary("-", left, right):
            return add_up(left, factor, times) + add_up(right, -factor, times)
        case Unary("-", body):
            return add_up(body, -factor, times)
        case Binary("*", Number(value), body):
            return add_up(body, factor * value, times)
    times[tree] = times.get(tree, 0) + factor
    if not times[tree]:
        del times[tree]
    return 0


def solved(fact: Expression, name: str) -> Expression | None:
    """What a variable equals by a fact."""
    match fact:
        case Binary("==" | "<==>", left, right):
            for mine, other in ((left, right), (right, left)):
                if name not in current(other) and is_plain(other):
                    found = moved(mine, other, name)
                    if found is not None:
                        return found
        case Name(found) if found == name:
            return Truth(True)
        case Unary("!", Name(found)) if found == name:
            return Truth(False)
    return None


def moved(mine: Expression, other: Expression, name: str) -> Expression | None:
    """What a variable equals where `mine`, in which it stands, equals `other`."""
    match mine:
        case Name(found) if found == name:
            return other
        case Binary("+", Name(found), rest) | Binary("+", rest, Name(found)) if found == name:
            return None if name in current(rest) else tidy(Binary("-", other, rest))
        case Binary("-", Name(found), rest) if found == name and name not in current(rest):
            return tidy(Binary("+", other, rest))
    return None


def kept(facts: list[Expression], table: dict[Expression, Expression]) -> list[Expression]:
    """The facts after a replacement, but those in which it can't be made."""
    found = []
    for fact in facts:
        try:
            found.append(replaced(fact, table))
        except Captured:
            pass
    return found


def without(facts: list[Expression], names: list[str]) -> list[Expression]:
    """What facts say of other names than these."""
    for name in names:
        given = ((fact, solved(fact, name)) for fact in facts)
        known = next((it for it in given if it[1] is not None), None)
        if known is not None:
            facts = kept([fact for fact in facts if fact is not known[0]], {Name(name): known[1]})
        facts = [fact for fact in facts if name not in current(fact)]
    small = [fact for fact in dict.fromkeys(facts) if trees.size(fact) <= SIZE and not is_trivial(fact)]
    return small[:FACTS]


def is_trivial(fact: Expression) -> bool:
    """Whether a fact says nothing."""
    if isinstance(fact, Binary):
        return fact.sign == "==" and fact.left == fact.right
    return isinstance(fact, Truth)


def ghost(name: str) -> str:
    """The name under which a variable's value before a statement goes."""
    return name + "'"


def ghosts(names) -> dict[Expression, Expression]:
    """The replacement of variables by their values before."""
    return {Name(name): Name(ghost(name)) for name in names}


def assigned(facts: list[Expression], values: dict[str, Expression]) -> list[Expression]:
    """The facts after variables got values, all at once."""
    before = ghosts(values)
    new = [equal(Name(name), to) for name, to in zip(values, kept(list(values.values()), before))]
    return without(new + kept(facts, before), [ghost(name) for name in values])


def forgotten(facts: list[Expression], names: list[str]) -> list[Expression]:
    """The facts after variables got any values."""
    return without(kept(facts, ghosts(names)), [ghost(name) for name in names])


def joined(arriving: list[list[Expression]]) -> list[Expression]:
    """What holds where several ways meet: what each brings, and one or the other of what they don't share."""
    if not arriving:
        return [Truth(False)]
    common = [fact for fact in arriving[0] if all(fact in other for other in arriving[1:])]
    if len(arriving) == 2:
        rests = [[fact for fact in facts if fact not in common] for facts in arriving]
        common += [Binary("||", left, right) for left, right in zip(*rests)]
    return without(common, [])
