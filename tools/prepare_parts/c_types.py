"""Types of C99, with the sizes that they have on a machine with 64 bits, and the arithmetic of constants.

A type is an `Int` by its words, a `Pointer`, an `Array`, a `Struct` or a `Function`, or VOID. Two structs are one type where they are one
object; all others are compared by what they hold. `_Bool` is an `Int` of its own, which is written as int.
"""
from dataclasses import dataclass, field
from typing import Any, List, Optional, Tuple


@dataclass(frozen=True)
class Int:
    name: str


@dataclass(frozen=True)
class Pointer:
    to: Any


@dataclass(frozen=True)
class Array:
    of: Any
    length: Optional[int]


@dataclass(frozen=True)
class Function:
    result: Any
    params: Tuple


@dataclass(frozen=True)
class Void:
    pass


@dataclass(eq=False)
class Struct:
    tag: str
    members: List = field(default_factory=list)
    is_defined: bool = False

    def member(self, name):
        """The type of a member, or None."""
        return dict(self.members).get(name)


VOID = Void()
BOOL = Int("_Bool")
CHAR, UCHAR, SHORT, USHORT = Int("char"), Int("unsigned char"), Int("short"), Int("unsigned short")
INT, UINT, LONG, ULONG = Int("int"), Int("unsigned int"), Int("long"), Int("unsigned long")
SIZES = {"_Bool": 1, "char": 1, "unsigned char": 1, "short": 2, "unsigned short": 2, "int": 4, "unsigned int": 4, "long": 8,
         "unsigned long": 8}

# The words of an integer type in the order of the alphabet; `long long` has the same values as `long`.
WORDS = {"_Bool": BOOL, "char": CHAR, "char signed": CHAR, "char unsigned": UCHAR}
for _name, _signed, _unsigned in (("short", SHORT, USHORT), ("long", LONG, ULONG), ("long long", LONG, ULONG)):
    for _int in ("", "int "):
        WORDS[(_int + _name).strip()] = _signed
        WORDS[" ".join(sorted((_int + _name + " signed").split()))] = _signed
        WORDS[" ".join(sorted((_int + _name + " unsigned").split()))] = _unsigned
WORDS.update({"int": INT, "signed": INT, "int signed": INT, "unsigned": UINT, "int unsigned": UINT})


def is_unsigned(t):
    return t.name.startswith("unsigned") or t == BOOL


def is_scalar(t):
    return isinstance(t, (Int, Pointer))


def decayed(t):
    """The type of an expression as a value: an array is a pointer to its first element (6.3.2.1)."""
    return Pointer(t.of) if isinstance(t, Array) else t


def alignment(t):
    if isinstance(t, Array):
        return alignment(t.of)
    if isinstance(t, Struct):
        return max([alignment(of) for _, of in t.members] or [1])
    return size(t)


def size(t):
    """The bytes of an object of a type."""
    if isinstance(t, Int):
        return SIZES[t.name]
    if isinstance(t, Pointer):
        return 8
    if isinstance(t, Array):
        return t.length * size(t.of)
    if isinstance(t, Struct):
        at = 0
        for _, of in t.members:
            at = -(-at // alignment(of)) * alignment(of) + size(of)
        return -(-at // alignment(t)) * alignment(t)
    return 1


def cells(t):
    """How many elements an array of arrays has in all."""
    return t.length * cells(t.of) if isinstance(t, Array) else 1


def innermost(t):
    """What the elements of an array of arrays are."""
    return innermost(t.of) if isinstance(t, Array) else t


def promote(t):
    return INT if SIZES[t.name] < 4 else t


def common(a, b):
    """The type to which two operands are converted (6.3.1.8)."""
    a, b = promote(a), promote(b)
    if size(a) != size(b):
        return a if size(a) > size(b) else b
    return a if is_unsigned(a) else b


def convert(value, t):
    if t == BOOL:
        return int(value != 0)
    bits = 8 * size(t)
    value &= (1 << bits) - 1
    return value if is_unsigned(t) or value < 1 << (bits - 1) else value - (1 << bits)


def constant_type(digits, suffix):
    """The type of a constant (6.4.4.1), or None where no type holds it."""
    is_decimal = digits[0] != "0" or digits == "0"
    value = number(digits)
    types = [INT, UINT, LONG, ULONG]
    if "u" in suffix:
        types = [UINT, ULONG]
    elif is_decimal:
        types = [INT, LONG]
    if "l" in suffix:
        types = [t for t in types if size(t) == 8]
    for t in types:
        if convert(value, t) == value:
            return t
    return None


def number(digits):
    """The value of a constant's digits."""
    lower = digits.lower()
    if lower.startswith("0x"):
        return int(lower, 16)
    if lower.startswith("0b"):
        return int(lower, 2)
    return int(digits, 8 if digits[0] == "0" else 10)


def unary(op, t, value):
    if op == "!":
        return int(value == 0)
    return convert({"-": -value, "+": value, "~": ~value}[op], promote(t))


def divide(a, b):
    """The quotient, truncated towards zero; None where the divisor is 0."""
    if b == 0:
        return None
    quotient = abs(a) // abs(b)
    return quotient if (a < 0) == (b < 0) else -quotient


def binary(op, a_type, a, b_type, b):
    """The value of an operator on constants, or None where there is none."""
    if op in ("<<", ">>"):
        t = promote(a_type)
        if not 0 <= b < 8 * size(t):
            return None
        return convert(a << b if op == "<<" else a >> b, t)
    t = common(a_type, b_type)
    a, b = convert(a, t), convert(b, t)
    if op in ("<", ">", "<=", ">=", "==", "!="):
        return int({"<": a < b, ">": a > b, "<=": a <= b, ">=": a >= b, "==": a == b, "!=": a != b}[op])
    if op in ("/", "%"):
        quotient = divide(a, b)
        return quotient if quotient is None or op == "/" else a - quotient * b
    return convert({"+": a + b, "-": a - b, "*": a * b, "&": a & b, "|": a | b, "^": a ^ b}[op], t)
