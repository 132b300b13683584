"""The tree of a program.

An expression has a form, parts, and what else its form needs. A statement has a form, a line, a number where it is one that is
counted, the variable that it declares, its left side, its value (a right side, a test, a returned, written or freed value), arguments
(of a call or a printf, or the items of a list) and bodies.
"""
from dataclasses import dataclass, field
from typing import Any, Optional


@dataclass(frozen=True)
class Integer:
    name: str


@dataclass(frozen=True)
class Pointer:
    """A pointer to a type; to None, which NULL has."""
    to: Any


@dataclass(frozen=True)
class Array:
    of: Any
    length: int
    words: str = field(compare=False)


@dataclass(eq=False)
class Struct:
    name: str
    number: int = -1
    members: list = field(default_factory=list)
    line: int = 0


@dataclass(frozen=True)
class StructType:
    struct: Struct


@dataclass(eq=False)
class Var:
    name: str
    line: int
    type: Any = None
    is_static: bool = False
    owner: Any = None
    is_parameter: bool = False
    number: int = -1


@dataclass(eq=False)
class Expr:
    """Forms: constant, null, eof, variable, unary, deref, address, binary, and, or, choose, cast, index, member, arrow, paren."""
    form: str
    parts: list
    line: int
    word: str = ""
    type: Any = None
    value: Any = None
    var: Optional[Var] = None
    member: int = -1


@dataclass(eq=False)
class Size:
    """The words of a size: `type`, `paren` (sizeof(*p)) or `star` (sizeof *p)."""
    form: str
    type: Any = None
    name: Optional[Expr] = None


@dataclass(eq=False)
class Amount:
    """How much is allocated: `size`, `count size`, `size count` or `count`."""
    form: str
    size: Optional[Size] = None
    count: Optional[Expr] = None


@dataclass(eq=False)
class Statement:
    """Forms: declare, assign, bump, invoke, fetch, write, print, heap, release, if, while, do, for, switch, block, return."""
    form: str
    line: int
    number: Optional[int] = None
    declares: Optional[Var] = None
    left: Optional[Expr] = None
    value: Optional[Expr] = None
    op: str = ""
    before: bool = False
    args: Optional[list] = None
    name: str = ""
    function: Any = None
    format: str = ""
    cast: Any = None
    amount: Optional[Amount] = None
    body: list = field(default_factory=list)
    other: list = field(default_factory=list)
    init: Any = None
    step: Any = None
    arms: list = field(default_factory=list)


@dataclass(eq=False)
class Arm:
    """Labels, each an expression with its value or None for the default, and a body."""
    labels: list
    body: list


@dataclass(eq=False)
class Function:
    name: str
    line: int
    result: Any
    params: list
    body: list
    is_static: bool
    number: int = -1


@dataclass(eq=False)
class Item:
    """Forms: include, tag, struct, global, prototype, define."""
    form: str
    line: int
    header: str = ""
    struct: Optional[Struct] = None
    var: Optional[Var] = None
    value: Optional[Expr] = None
    args: Optional[list] = None
    function: Any = None
    names: Any = None
    is_static: bool = False
    params: Any = None
    result: Any = None


@dataclass(eq=False)
class Program:
    """Variables, functions and struct types by number; for each number of a statement the statement and its function."""
    items: list
    vars: list
    structs: list
    functions: list
    statements: list


TESTS = ("if", "while", "do", "for", "switch")


def bodies(s):
    """The statement lists in a statement, with the init and the step of a for, in text order."""
    if s.form == "for":
        return [[s.init] if s.init else [], [s.step] if s.step else [], s.body]
    if s.form == "switch":
        return [arm.body for arm in s.arms]
    return [s.body, s.other]


def each_statement(body):
    """All statements of a list, with those inside them, in the order of their numbers."""
    for s in body:
        yield s
        for part in bodies(s):
            yield from each_statement(part)


def decayed(t):
    """The type of a value: an array turns into a pointer to its elements."""
    return Pointer(t.of) if isinstance(t, Array) else t


def is_scalar(t):
    return isinstance(t, (Integer, Pointer))


def inner(e):
    """An expression without the parentheses around it."""
    while e.form == "paren":
        e = e.parts[0]
    return e


def each_expr(e):
    yield e
    for part in e.parts:
        yield from each_expr(part)


def expressions(s):
    """The expressions of a statement itself, its left side first, without those of the bodies and sizes."""
    found = [s.left] if s.left else []
    if s.value:
        found.append(s.value)
    found += s.args or []
    if s.amount and s.amount.count:
        found.append(s.amount.count)
    return found
