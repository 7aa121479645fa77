"""The trees of programs: types, expressions, statements, declarations, and walks over expressions."""
from __future__ import annotations

import functools
from dataclasses import dataclass, field


@dataclass(frozen=True)
class Type:
    """`int`, `bool`, a user type by its name, or a map from `int` to a range; `spelt` is a synonym for it."""

    name: str
    range: Type | None = None
    spelt: str = field(default="", compare=False)


INT = Type("int")
BOOL = Type("bool")
ROW = Type("map", INT)
FLAGS = Type("map", BOOL)
GRID = Type("map", ROW)


class Expression:
    """An expression; equal where all parts are."""


@dataclass(frozen=True)
class Number(Expression):
    value: int


@dataclass(frozen=True)
class Truth(Expression):
    value: bool


@dataclass(frozen=True)
class Name(Expression):
    """A constant or variable, looked up in the scope where it stands."""

    name: str


@dataclass(frozen=True)
class Old(Expression):
    body: Expression


@dataclass(frozen=True)
class Unary(Expression):
    sign: str
    body: Expression


@dataclass(frozen=True)
class Binary(Expression):
    sign: str
    left: Expression
    right: Expression


@dataclass(frozen=True)
class Read(Expression):
    map: Expression
    index: Expression


@dataclass(frozen=True)
class Write(Expression):
    map: Expression
    index: Expression
    value: Expression


@dataclass(frozen=True)
class Apply(Expression):
    function: str
    arguments: tuple[Expression, ...]


@dataclass(frozen=True)
class Choice(Expression):
    condition: Expression
    then: Expression
    other: Expression


@dataclass(frozen=True)
class Quantified(Expression):
    """`forall` or `exists`, over variables with their types."""

    word: str
    variables: tuple[tuple[str, Type], ...]
    triggers: tuple[tuple[Expression, ...], ...]
    body: Expression


def parts(tree: Expression) -> tuple[Expression, ...]:
    """The expressions right below, those of triggers left out."""
    match tree:
        case Old(body) | Unary(_, body) | Quantified(_, _, _, body):
            return (body,)
        case Binary(_, left, right) | Read(left, right):
            return (left, right)
        case Write(first, second, third) | Choice(first, second, third):
            return (first, second, third)
        case Apply(_, arguments):
            return arguments
    return ()


def rebuilt(tree: Expression, below: tuple[Expression, ...]) -> Expression:
    """The same expression over other parts; triggers stay."""
    match tree:
        case Old():
            return Old(*below)
        case Unary(sign, _):
            return Unary(sign, *below)
        case Binary(sign, _, _):
            return Binary(sign, *below)
        case Read():
            return Read(*below)
        case Write():
            return Write(*below)
        case Choice():
            return Choice(*below)
        case Apply(function, _):
            return Apply(function, below)
        case Quantified(word, variables, triggers, _):
            return Quantified(word, variables, triggers, *below)
    return tree


@functools.lru_cache(maxsize=1 << 16)
def size(tree: Expression) -> int:
    """How many expressions stand in it."""
    return 1 + sum(map(size, parts(tree)))


@functools.lru_cache(maxsize=1 << 16)
def free(tree: Expression) -> frozenset[str]:
    """The names that stand free in it."""
    if isinstance(tree, Name):
        return frozenset([tree.name])
    found = frozenset().union(*map(free, parts(tree)))
    if isinstance(tree, Quantified):
        return found - {name for name, _ in tree.variables}
    return found


@dataclass(eq=False)
class Clause:
    """A condition of a contract or a loop. Places are a line and a column, known once it is printed."""

    condition: Expression
    free: bool = False
    place: tuple[int, int] = (0, 0)


@dataclass(eq=False)
class Statement:
    """A statement with its labels."""

    labels: list[str] = field(default_factory=list, kw_only=True)
    place: tuple[int, int] = field(default=(0, 0), kw_only=True)


@dataclass(eq=False)
class Assert(Statement):
    condition: Expression


@dataclass(eq=False)
class Assume(Statement):
    condition: Expression


@dataclass(eq=False)
class Havoc(Statement):
    names: list[str]


@dataclass(eq=False)
class Assign(Statement):
    """Targets, each a variable with indices, and as many right sides."""

    targets: list[tuple[str, list[Expression]]]
    values: list[Expression]


@dataclass(eq=False)
class Call(Statement):
    targets: list[str]
    callee: str
    arguments: list[Expression]


@dataclass(eq=False)
class If(Statement):
    """A guard, `None` for `*`; `other` is `None` without `else`, and one `If` where `chained`."""

    guard: Expression | None
    then: list[Statement]
    other: list[Statement] | None = None
    chained: bool = False


@dataclass(eq=False)
class While(Statement):
    guard: Expression | None
    invariants: list[Clause]
    body: list[Statement]


@dataclass(eq=False)
class Break(Statement):
    label: str | None = None


@dataclass(eq=False)
class Return(Statement):
    pass


@dataclass(eq=False)
class Goto(Statement):
    to: list[str]


@dataclass(eq=False)
class Variable:
    """A global, parameter or local."""

    name: str
    type: Type
    where: Expression | None = None


@dataclass(eq=False)
class Constant:
    name: str
    type: Type
    unique: bool = False


@dataclass(eq=False)
class Function:
    """A function; logical where its body has a quantifier or a logical application."""

    name: str
    parameters: list[tuple[str, Type]]
    result: Type
    body: Expression
    logical: bool = False


@dataclass(eq=False)
class Procedure:
    """A procedure with its body, if it has one; `apart` where that is an implementation's."""

    name: str
    ins: list[Variable]
    outs: list[Variable]
    requires: list[Clause] = field(default_factory=list)
    modifies: list[str] = field(default_factory=list)
    ensures: list[Clause] = field(default_factory=list)
    locals: list[Variable] = field(default_factory=list)
    body: list[Statement] | None = None
    apart: bool = False


@dataclass(eq=False)
class Program:
    """All declarations."""

    types: list[str] = field(default_factory=list)
    synonyms: dict[str, Type] = field(default_factory=dict)
    constants: list[Constant] = field(default_factory=list)
    functions: list[Function] = field(default_factory=list)
    axioms: list[Expression] = field(default_factory=list)
    variables: list[Variable] = field(default_factory=list)
    procedures: list[Procedure] = field(default_factory=list)

    def procedure(self, name: str) -> Procedure:
        """The procedure of this name."""
        return next(it for it in self.procedures if it.name == name)


def below(statement: Statement) -> list[list[Statement]]:
    """The lists of statements right below."""
    if isinstance(statement, If):
        return [statement.then] + ([statement.other] if statement.other is not None else [])
    return [statement.body] if isinstance(statement, While) else []


def every(statements: list[Statement]):
    """All statements of a list, and of those below."""
    for statement in statements:
        yield statement
        for inner in below(statement):
            yield from every(inner)
