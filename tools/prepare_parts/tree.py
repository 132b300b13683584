"""What the passes hand on: expressions without side effects, and statements, each with the line of FILE from which it came.

An expression `X` has a kind, its parts, a type of C, and a word:

    const   the spelling of a constant        name     the variable (a Var)        null, eof
    unary   one of + - ~ !                    binary   an operator                 choose     test, then, else
    cast    to an integer type                index    an array or pointer, i      member     the member's name
    deref   what is behind a pointer          address  of a place

A `row` is a row of an array of arrays that is laid out as one array: its root, and how many elements lie before it.
"""
from dataclasses import dataclass, field
from typing import Any, List, Optional

from c_types import BOOL, INT, LONG, Array, Int, Pointer, VOID, binary, common, constant_type, convert, decayed, number, promote, unary


@dataclass(eq=False)
class Var:
    """A variable: the name that it wants, and the one that it gets when all is laid out."""
    name: str
    type: Any
    is_global: bool = False
    is_static: bool = False
    is_reached: bool = False
    by_pointer: bool = False
    final: str = ""
    is_tested: bool = False


class X:
    """An expression: see above."""

    def __init__(self, kind, parts, t, word=None):
        self.kind = kind
        self.parts = parts
        self.type = t
        self.word = word


@dataclass(eq=False)
class Call:
    """A call, of a function of the text or of the library; `written` is printf's format as bytes."""
    name: str
    args: List[X]
    type: Any
    written: Optional[bytes] = None


@dataclass(eq=False)
class Heap:
    """An allocation of `count` objects of a type, or of one."""
    of: Any
    count: Optional[X]
    type: Any


@dataclass(eq=False)
class Declare:
    var: Var
    value: Any = None
    items: Optional[List[X]] = None
    line: Optional[int] = None


@dataclass(eq=False)
class Assign:
    place: X
    op: str
    value: Any
    line: Optional[int] = None


@dataclass(eq=False)
class Bump:
    place: X
    op: str
    line: Optional[int] = None


@dataclass(eq=False)
class Invoke:
    call: Call
    line: Optional[int] = None


@dataclass(eq=False)
class If:
    test: X
    then: List
    other: List = field(default_factory=list)
    line: Optional[int] = None
    then_end: Optional[int] = None
    end: Optional[int] = None


@dataclass(eq=False)
class Loop:
    """A loop of any kind: what it begins with, what its test needs in front, the test (None for none), its steps and its body."""
    kind: str
    init: List
    before: List
    test: Optional[X]
    step: List
    body: List
    line: Optional[int] = None
    end: Optional[int] = None
    test_line: Optional[int] = None


@dataclass(eq=False)
class Arm:
    """An arm of a switch: its labels (None for default), its statements, and the line of its first label."""
    labels: List
    body: List
    line: Optional[int] = None


@dataclass(eq=False)
class Switch:
    value: X
    arms: List[Arm]
    line: Optional[int] = None
    end: Optional[int] = None


@dataclass(eq=False)
class Block:
    body: List
    line: Optional[int] = None
    end: Optional[int] = None


@dataclass(eq=False)
class Break:
    line: Optional[int] = None


@dataclass(eq=False)
class Continue:
    line: Optional[int] = None


@dataclass(eq=False)
class Return:
    value: Optional[X] = None
    line: Optional[int] = None


# Making expressions.


def const(value, t=INT):
    """A constant of a value, spelled so that it has the type."""
    if value < 0:
        if value == -9223372036854775808:
            return X("binary", [const(value + 1, LONG), const(1)], LONG, "-")
        if t == INT and value == -2147483648:
            return X("binary", [const(value + 1), const(1)], INT, "-")
        return X("unary", [const(-value, t)], t, "-")
    suffix = {"unsigned int": "u", "long": "l", "unsigned long": "ul"}.get(t.name, "")
    return X("const", [], constant_type(str(value), suffix) or t, str(value) + suffix)


def name(var):
    """A variable as it is written in an expression; what is passed through a pointer lies behind it."""
    if var.by_pointer:
        return X("deref", [X("name", [], var.type, var)], var.type.to)
    return X("name", [], var.type, var)


def is_zero(x):
    return x.kind == "const" and fold(x) == 0


def is_truth(x):
    """Whether the value is 0 or 1 in any case."""
    if x.kind == "binary":
        return x.word in ("<", ">", "<=", ">=", "==", "!=", "&&", "||")
    if x.kind == "choose":
        return is_truth(x.parts[1]) and is_truth(x.parts[2])
    return x.type == BOOL or (x.kind == "unary" and x.word == "!") or (x.kind == "const" and fold(x) in (0, 1))


def truth(x):
    """The expression as 0 or 1."""
    if is_truth(x):
        return x
    if isinstance(decayed(x.type), Pointer):
        return X("binary", [x, X("null", [], Pointer(VOID))], INT, "!=")
    return X("binary", [x, const(0)], INT, "!=")


OPPOSITES = {"==": "!=", "!=": "==", "<": ">=", ">=": "<", ">": "<=", "<=": ">"}


def negated(x):
    """The opposite of a test."""
    if x.kind == "unary" and x.word == "!":
        return x.parts[0]
    if x.kind == "binary" and x.word in OPPOSITES:
        return X("binary", x.parts, INT, OPPOSITES[x.word])
    return X("unary", [x], INT, "!")


def both(a, b):
    """`a && b`, where either may be missing."""
    if a is None or b is None:
        return a or b
    return X("binary", [a, b], INT, "&&")


def operator_type(op, a, b):
    """The type of a binary operator on integers."""
    if op in ("<<", ">>"):
        return promote(a)
    return INT if op in OPPOSITES or op in ("&&", "||") else common(a, b)


def fold(x):
    """The value of a constant expression of integers, or None."""
    if x.kind == "const":
        return constant_value(x.word)
    if x.kind == "eof":
        return -1
    if not isinstance(x.type, Int) or x.kind not in ("unary", "binary", "choose", "cast"):
        return None
    values = [fold(part) for part in x.parts]
    if x.kind == "binary" and x.word in ("&&", "||") and values[0] is not None:
        if bool(values[0]) == (x.word == "||"):
            return int(values[0] != 0)
        return None if values[1] is None else int(values[1] != 0)
    if x.kind == "choose" and values[0] is not None:
        chosen = values[1 if values[0] else 2]
        return None if chosen is None else convert(chosen, x.type)
    if None in values or not all(isinstance(part.type, Int) for part in x.parts):
        return None
    if x.kind == "cast":
        return convert(values[0], x.type)
    if x.kind == "unary":
        return unary(x.word, x.parts[0].type, values[0])
    return binary(x.word, x.parts[0].type, values[0], x.parts[1].type, values[1]) if x.kind == "binary" else None


ESCAPES = {"n": 10, "t": 9, "r": 13, "a": 7, "b": 8, "f": 12, "v": 11, "\\": 92, "'": 39, '"': 34, "?": 63, "e": 27}


def constant_value(spelling):
    if spelling[0] == "'":
        return convert(literal_bytes(spelling)[0], Int("char"))
    return number(spelling.rstrip("uUlL"))


def literal_bytes(spelling):
    """The bytes of a string or a character constant, from its spelling with quotes (6.4.4.4)."""
    made, at, text = [], 0, spelling[1:-1]
    while at < len(text):
        if text[at] != "\\":
            made.append(ord(text[at]) & 255)
            at += 1
            continue
        at += 1
        if text[at] in ESCAPES:
            made.append(ESCAPES[text[at]])
            at += 1
            continue
        end = at + (text[at] == "x")
        digits, most = ("0123456789abcdefABCDEF", 100) if text[at] == "x" else ("01234567", 3)
        start = end
        while end < len(text) and text[end] in digits and end - start < most:
            end += 1
        made.append(int(text[start:end], 16 if text[at] == "x" else 8) & 255)
        at = end
    return bytes(made)


# What expressions read and statements change.


@dataclass
class Effects:
    """The variables that may be changed, and whether what pointers lead to may be, by a call too."""
    vars: set
    anything: bool = False


def root(place):
    """The variable in which a place lies, or None where a pointer leads to it."""
    while place.kind in ("member", "index") and not isinstance(place.parts[0].type, Pointer):
        place = place.parts[0]
    return place.word if place.kind == "name" else None


def note_place(effects, place):
    var = root(place)
    if var is None:
        effects.anything = True
    else:
        effects.vars.add(var)


def note_call(effects, call):
    if isinstance(call, Call) and call.name not in ("printf", "putchar", "getchar"):
        effects.anything = True


def effects_of(statements, effects=None):
    """What statements may change."""
    effects = effects or Effects(set())
    for s in statements:
        if isinstance(s, (Assign, Bump)):
            note_place(effects, s.place)
        if isinstance(s, (Assign, Declare)):
            note_call(effects, s.value)
        if isinstance(s, Invoke):
            note_call(effects, s.call)
        for part in inner_lists(s):
            effects_of(part, effects)
    return effects


def inner_lists(s):
    """The statement lists in a statement."""
    if isinstance(s, If):
        return [s.then, s.other]
    if isinstance(s, Loop):
        return [s.init, s.before, s.step, s.body]
    if isinstance(s, Switch):
        return [arm.body for arm in s.arms]
    return [s.body] if isinstance(s, Block) else []


def reads_changed(x, effects):
    """Whether an expression reads what may be changed."""
    if x.kind == "name":
        return not isinstance(x.type, Array) and load_changed(x.word, effects)
    if x.kind == "address":
        return place_changed(x.parts[0], effects)
    if x.kind in ("index", "deref", "member"):
        return (not isinstance(x.type, Array) and load_changed(root(x), effects)) or place_changed(x, effects)
    return any(reads_changed(part, effects) for part in x.parts)


def load_changed(var, effects):
    """Whether what lies in a variable, or behind a pointer where there is none, may be changed."""
    if var is None:
        return effects.anything or any(v.is_global or v.is_reached for v in effects.vars)
    return var in effects.vars or (effects.anything and (var.is_global or var.is_reached))


def place_changed(place, effects):
    """Whether a place may be another one behind the effects: an index in it, or a pointer that leads to it, is changed."""
    if place.kind == "name":
        return False
    if place.kind == "member":
        return place_changed(place.parts[0], effects)
    if place.kind == "index":
        first = place.parts[0]
        moved = place_changed(first, effects) if isinstance(first.type, Array) else reads_changed(first, effects)
        return moved or reads_changed(place.parts[1], effects)
    return any(reads_changed(part, effects) for part in place.parts)
