"""Random expressions over integers, and what all generators share: choices, lines and names."""
import random
import re

from integers import CHAR, INT, LONG, SHORT, UCHAR, UINT, ULONG, USHORT, common, promote

SPELLINGS = {
    CHAR: ["char", "signed char"], UCHAR: ["unsigned char", "char unsigned"], SHORT: ["short", "short int", "signed short"],
    USHORT: ["unsigned short"], INT: ["int", "int", "int", "signed", "signed int"], UINT: ["unsigned", "unsigned int"],
    LONG: ["long", "long int"], ULONG: ["unsigned long", "long unsigned int"],
}
TYPES = [INT] * 6 + list(SPELLINGS)
OPERATORS = {"*": 8, "/": 8, "%": 8, "+": 7, "-": 7, "<<": 6, ">>": 6, "<": 5, ">": 5, "<=": 5, ">=": 5, "==": 4, "!=": 4, "&": 3, "^": 2,
             "|": 1, "&&": 0, "||": -1}
ATOM, UNARY, CHOICE = 10, 9, -2
BOUND = 97


class ExprGenerator:
    """Writes expressions over the integers in scope."""

    def __init__(self, seed, size, reads_input=False):
        self.random = random.Random(seed)
        self.reads_input = reads_input
        self.left = size
        self.lines = []
        self.level = 0
        self.fresh_names = 0
        self.loops = 0
        # integer places, those that are only read and those that are only stored into: (text, type); counters: (name, bound)
        self.places, self.readable, self.write_only, self.counters = [], [], [], []

    # choices

    def chance(self, percent):
        return self.random.randrange(100) < percent

    def pick(self, found):
        return self.random.choice(found)

    def below(self, count):
        return self.random.randrange(count)

    def fresh(self, letter):
        self.fresh_names += 1
        return f"{letter}{self.fresh_names}"

    # lines

    def put(self, text):
        """A line; now and then behind a statement on the line before."""
        if self.lines and self.lines[-1].endswith(";") and text.endswith(";") and self.chance(6):
            self.lines[-1] += " " + text
        else:
            self.lines.append("    " * self.level + text)

    def text(self):
        return "\n".join(self.lines) + "\n"

    # expressions: text, type and how tightly it binds

    def constant(self):
        value = self.below(12)
        kind = self.below(12)
        if kind == 0:
            return f"0x{value:X}", INT, ATOM
        if kind == 1:
            return f"0{value:o}", INT, ATOM
        if kind == 2:
            return f"'{chr(97 + value)}'", INT, ATOM
        if kind == 3:
            suffix, t = self.pick([("u", UINT), ("L", LONG), ("UL", ULONG)])
            return f"{value}{suffix}", t, ATOM
        return str(value), INT, ATOM

    def variable(self):
        found = self.places + self.readable + [(name, INT) for name, _ in self.counters]
        if not found:
            return self.constant()
        text, t = self.pick(found[-8:] if self.chance(60) else found)
        return self.filled(text), t, ATOM

    def filled(self, text):
        """The text of a place, with an index below the number that stands in each pair of braces."""
        return re.sub(r"\{(\d+)\}", lambda found: self.index(int(found.group(1))), text)

    def index(self, length):
        counters = [name for name, bound in self.counters if bound <= length]
        if counters and self.chance(60):
            return self.pick(counters)
        names = [name for name, t in self.places if name.isalnum()]
        if names and self.chance(40):
            return f"(unsigned int){self.pick(names)} % {length}"
        return str(self.below(length))

    def leaf(self):
        return self.variable() if self.chance(70) else self.constant()

    def within(self, e, level):
        text, _, own = e
        return f"({text})" if own < level or self.chance(8) else text

    def operation(self, op, a, b):
        level = OPERATORS[op]
        if op in ("<<", ">>"):
            t = promote(a[1])
        elif level in (5, 4, 0, -1):
            t = INT
        else:
            t = common(a[1], b[1])
        return f"{self.within(a, level)} {op} {self.within(b, level + 1)}", t, level

    def number(self, value):
        return str(value), INT, ATOM

    def small(self, e, most):
        """An expression with a value from 0 to a number of ones."""
        return self.operation("&", e, self.number(most))

    def expr(self, depth=2):
        if depth == 0 or self.chance(20):
            return self.leaf()
        kind = self.below(20)
        a, b = self.expr(depth - 1), self.expr(depth - 1)
        if kind < 7:
            return self.operation(self.pick(["+", "-", "+", "&", "|", "^"]), a, b)
        if kind < 9:
            return self.operation("*", self.leaf(), self.leaf())
        if kind < 11:
            return self.operation(self.pick(["/", "%"]), a, self.operation("+", self.small(self.leaf(), 7), self.number(1)))
        if kind < 12:
            return self.operation("<<", self.small(a, 15), self.number(self.below(4)))
        if kind < 13:
            return self.operation(">>", a, self.number(self.below(4)))
        if kind < 16:
            return self.test(depth)
        if kind < 17:
            return f"{self.within(self.test(1), CHOICE + 1)} ? {a[0]} : {self.within(b, CHOICE)}", common(a[1], b[1]), CHOICE
        if kind < 18:
            t = self.pick(TYPES)
            return f"({self.pick(SPELLINGS[t])}){self.within(a, UNARY)}", t, UNARY
        op = self.pick("-+~!")
        space = " " if self.chance(50) else ""
        operand = self.within(a, UNARY)
        return op + (space or (" " if operand[0] == op else "")) + operand, INT if op == "!" else promote(a[1]), UNARY

    def test(self, depth=1):
        kind = self.below(6)
        if kind == 0 and depth:
            return self.operation(self.pick(["&&", "||"]), self.test(depth - 1), self.test(depth - 1))
        if kind == 1:
            return self.leaf()
        return self.operation(self.pick(["<", ">", "<=", ">=", "==", "!="]), self.expr(min(depth, 1)), self.leaf())

    def bounded(self):
        """A small value to store."""
        e = self.expr()
        return self.operation("%", e, self.number(BOUND)) if e[2] < UNARY and self.chance(85) else e
