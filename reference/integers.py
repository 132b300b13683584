"""Integer types and what operators give (ISO C99 6.3.1 and 6.5)."""

CHAR, UCHAR, SHORT, USHORT = "char", "unsigned char", "short", "unsigned short"
INT, UINT, LONG, ULONG = "int", "unsigned int", "long", "unsigned long"
BITS = {CHAR: 8, UCHAR: 8, SHORT: 16, USHORT: 16, INT: 32, UINT: 32, LONG: 64, ULONG: 64}


def is_signed(t):
    return not t.startswith("unsigned")


LEAST = {t: -(1 << (bits - 1)) if is_signed(t) else 0 for t, bits in BITS.items()}
GREATEST = {t: (1 << (bits - is_signed(t))) - 1 for t, bits in BITS.items()}


class Undefined(Exception):
    """An act of the program is undefined."""


def promote(t):
    return INT if BITS[t] < 32 else t


def common(a, b):
    """The common type of two operands."""
    a, b = promote(a), promote(b)
    if BITS[a] != BITS[b]:
        return a if BITS[a] > BITS[b] else b
    return b if is_signed(a) else a


def convert(value, t):
    """The value wrapped to a type."""
    value &= (1 << BITS[t]) - 1
    return value - (1 << BITS[t]) if value > GREATEST[t] else value


def fit(value, t):
    """A result of a type: an unsigned one wraps, a signed one has to lie in it."""
    if is_signed(t) and not LEAST[t] <= value <= GREATEST[t]:
        raise Undefined
    return convert(value, t)


def quotient(a, b):
    """The quotient truncated toward zero."""
    if b == 0:
        raise Undefined
    q = abs(a) // abs(b)
    return q if (a < 0) == (b < 0) else -q


def unary(op, t, value):
    """A unary operator on a value of a promoted type."""
    if op == "!":
        return int(value == 0)
    if op == "-":
        return fit(-value, t)
    return convert(~value, t) if op == "~" else value


def shift(op, t, a, amount):
    """A shift, of the promoted type of its left operand."""
    if not 0 <= amount < BITS[t]:
        raise Undefined
    if op == ">>":
        return a >> amount
    if a < 0:
        raise Undefined
    return fit(a << amount, t)


COMPARISONS = {
    "<": lambda a, b: a < b, ">": lambda a, b: a > b, "<=": lambda a, b: a <= b, ">=": lambda a, b: a >= b,
    "==": lambda a, b: a == b, "!=": lambda a, b: a != b,
}
ARITHMETIC = {
    "+": lambda a, b: a + b, "-": lambda a, b: a - b, "*": lambda a, b: a * b, "&": lambda a, b: a & b, "^": lambda a, b: a ^ b,
    "|": lambda a, b: a | b, "/": quotient,
}


def binary(op, a_type, a, b_type, b):
    """A binary operator on two integers of their types."""
    if op in ("<<", ">>"):
        return shift(op, promote(a_type), a, b)
    t = common(a_type, b_type)
    a, b = convert(a, t), convert(b, t)
    if op in COMPARISONS:
        return int(COMPARISONS[op](a, b))
    if op == "%":
        return a - b * fit(quotient(a, b), t)
    return fit(ARITHMETIC[op](a, b), t)
