"""Values of executions, and numbers that hang on bound variables.

A quantifier over all integers is decided by trying finitely many. While its body is read, the bound variable
is a `Form` that stands at one place; each comparison that the body makes notes at which places of the
variable it comes out otherwise. Between two noted places all comparisons come out alike, so the body does too.
It is enough to try each noted place and its neighbours, until no new place is noted. A place of an inner
variable may hang on the outer ones; what it hangs on is noted for those in turn.
"""
from __future__ import annotations

from dataclasses import dataclass

# more places than these are not tried, of all bound variables of a condition together
PLACES = 600


class Undecided(Exception):
    """What is asked can't be decided here."""


@dataclass(frozen=True)
class Form:
    """A constant and multiples, not 0, of bound variables: pairs of a level and a factor, in rising order."""

    constant: int
    multiples: tuple[tuple[int, int], ...]


@dataclass(frozen=True)
class Map:
    """A table over a default: pairs of an index and what stands there, of which the first that fits counts."""

    default: Value
    table: tuple[tuple[int | Form, Value], ...] = ()


Value = int | bool | Form | Map


def combined(left: int | Form, right: int | Form, factor: int) -> int | Form:
    """The sum of the left number and a multiple of the right one."""
    if isinstance(left, int) and isinstance(right, int):
        return left + factor * right
    constant = sum_of_constants(left, right, factor)
    multiples = dict(left.multiples) if isinstance(left, Form) else {}
    for level, times in right.multiples if isinstance(right, Form) else ():
        multiples[level] = multiples.get(level, 0) + factor * times
    kept = tuple(sorted((level, times) for level, times in multiples.items() if times))
    return Form(constant, kept) if kept else constant


def sum_of_constants(left: int | Form, right: int | Form, factor: int) -> int:
    """The constant of such a sum."""
    mine = left.constant if isinstance(left, Form) else left
    other = right.constant if isinstance(right, Form) else right
    return mine + factor * other


def product(left: int | Form, right: int | Form) -> int | Form:
    """The product of two numbers, of which one hangs on nothing."""
    if isinstance(left, int):
        return combined(0, right, left)
    if isinstance(right, int):
        return combined(0, left, right)
    raise Undecided


class Bound:
    """A bound variable: where it stands, and the places that were noted."""

    def __init__(self) -> None:
        self.place: int | Form = 0
        self.noted: dict[int | Form, None] = {}

    def note(self, rest: int | Form, factor: int) -> None:
        """Notes where `rest` and the multiple of the variable are 0 together."""
        multiples = rest.multiples if isinstance(rest, Form) else ()
        if any(times % factor for _, times in multiples):
            raise Undecided
        constant = rest.constant if isinstance(rest, Form) else rest
        kept = tuple((level, -times // factor) for level, times in multiples)
        least = -constant // factor
        for at in {least, -(constant // factor)}:
            self.noted[Form(at, kept) if kept else at] = None


class Comparing:
    """Comparisons of values, with the bound variables that are open, the outermost first."""

    def __init__(self) -> None:
        self.bound: list[Bound] = []
        self.left = 0

    def begin(self) -> None:
        """No variable is bound, and no place was tried."""
        self.bound.clear()
        self.left = PLACES

    def sign(self, number: int | Form) -> int:
        """-1, 0 or 1: the sign of a number where the bound variables stand now."""
        while isinstance(number, Form):
            level, factor = number.multiples[-1]
            kept = number.multiples[:-1]
            rest = Form(number.constant, kept) if kept else number.constant
            self.bound[level].note(rest, factor)
            number = combined(rest, self.bound[level].place, factor)
        return (number > 0) - (number < 0)

    def compare(self, left: int | Form, right: int | Form) -> int:
        """The sign of a difference."""
        return self.sign(combined(left, right, -1))

    def read(self, table: Map, index: int | Form) -> Value:
        """What a map has at an index."""
        for at, value in table.table:
            if self.compare(at, index) == 0:
                return value
        return table.default

    def same(self, left: Value, right: Value) -> bool:
        """Whether two values are one; maps are where they agree at each index."""
        if isinstance(left, bool):
            return left == right
        if not isinstance(left, Map):
            return self.compare(left, right) == 0
        indices = [at for at, _ in left.table + right.table]
        return self.same(left.default, right.default) and all(
            self.same(self.read(left, at), self.read(right, at)) for at in indices
        )

    def for_all(self, test) -> bool:
        """Whether a test, given the bound variable, holds wherever that stands."""
        level = len(self.bound)
        variable = Bound()
        self.bound.append(variable)
        try:
            places: dict[int | Form, None] = {0: None}
            waiting = [0]
            while waiting:
                variable.place = waiting.pop()
                self.left -= 1
                if self.left < 0:
                    raise Undecided
                if not test(Form(0, ((level, 1),))):
                    return False
                waiting += new_places(variable, places)
            return True
        finally:
            self.bound.pop()


def new_places(variable: Bound, places: dict[int | Form, None]) -> list[int | Form]:
    """The noted places and their neighbours that weren't among the places, and now are."""
    found = []
    for noted in variable.noted:
        for at in (noted, combined(noted, 1, 1), combined(noted, 1, -1)):
            if at not in places:
                places[at] = None
                found.append(at)
    variable.noted.clear()
    return found


def written(table: Map, index: int | Form, value: Value) -> Map:
    """A map with another value at an index."""
    kept = table.table
    if all(isinstance(at, int) for at, _ in kept) and isinstance(index, int):
        kept = tuple(it for it in kept if it[0] != index)
    return Map(table.default, ((index, value),) + kept)
