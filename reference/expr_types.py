"""Types of expressions, and values of constant ones."""
from integers import INT, LONG, binary, common, convert, promote, unary
from lexer import NotAccepted
from tree import Array, Integer, Pointer, StructType, decayed, inner

INT_TYPE, LONG_TYPE = Integer(INT), Integer(LONG)


def refuse(line, why):
    raise NotAccepted(line, why)


def constant_value(e):
    """The value of a constant expression."""
    if e.form == "constant":
        return e.value
    if e.form == "eof":
        return -1
    if e.form == "paren":
        return constant_value(e.parts[0])
    if e.form == "unary":
        t = promote(e.parts[0].type.name)
        return unary(e.word, t, constant_value(e.parts[0]))
    if e.form == "cast":
        return convert(constant_value(e.parts[0]), e.type.name)
    if e.form == "binary":
        a, b = e.parts
        return binary(e.word, a.type.name, constant_value(a), b.type.name, constant_value(b))
    if e.form in ("and", "or"):
        first = constant_value(e.parts[0])
        if bool(first) == (e.form == "or"):
            return int(first != 0)
        return int(constant_value(e.parts[1]) != 0)
    if e.form == "choose":
        return convert(constant_value(e.parts[1 if constant_value(e.parts[0]) else 2]), e.type.name)
    raise NotAccepted(e.line, "rule 10: no constant expression")


def is_zero(e):
    e = inner(e)
    return e.form == "constant" and e.word == "0"


def fits(e, t):
    """Whether an expression can be assigned to a type."""
    if isinstance(t, Pointer):
        return is_zero(e) or decayed(e.type) in (t, Pointer(None))
    return isinstance(t, Integer) and isinstance(e.type, Integer)


class ExprTypes:
    """Gives expressions their types; `find` gives what a name stands for."""

    def find(self, name, line):
        raise NotImplementedError

    def expr(self, e):
        """Gives an expression and its parts their types."""
        for part in e.parts:
            self.expr(part)
        if e.form != "cast":
            e.type = self.type_of(e)

    def type_of(self, e):
        form, types = e.form, [part.type for part in e.parts]
        if form == "variable":
            e.var = self.find(e.word, e.line)
            if not hasattr(e.var, "type"):
                refuse(e.line, "rule 12: a function isn't a value")
            return e.var.type
        if form == "constant":
            return e.type
        if form in ("null", "eof"):
            return Pointer(None) if form == "null" else INT_TYPE
        if form == "paren":
            return types[0]
        if form == "unary":
            return INT_TYPE if e.word == "!" else Integer(promote(self.integer(e.parts[0])))
        if form in ("and", "or"):
            return INT_TYPE
        if form == "address":
            if isinstance(types[0], Array) or inner(e.parts[0]).form not in ("variable", "deref", "index", "member", "arrow"):
                refuse(e.line, "rule 15")
            return Pointer(types[0])
        if form == "choose":
            return self.choice(e)
        if form == "binary":
            return self.operator(e)
        return self.selected(e)

    def integer(self, e):
        if not isinstance(e.type, Integer):
            refuse(e.line, "rule 12: no integer")
        return e.type.name

    def choice(self, e):
        a, b = (decayed(part.type) for part in e.parts[1:])
        if isinstance(a, Integer) and isinstance(b, Integer):
            return Integer(common(a.name, b.name))
        t = b if is_zero(e.parts[1]) or a == Pointer(None) else a
        if t == Pointer(None) or not (fits(e.parts[1], t) and fits(e.parts[2], t)):
            refuse(e.line, "rule 12: a choice")
        return t

    def operator(self, e):
        a, b = e.parts
        left, right = decayed(a.type), decayed(b.type)
        if isinstance(left, Integer) and isinstance(right, Integer):
            return self.integers(e.word, left, right)
        if e.word in ("==", "!="):
            if not (fits(a, right) or fits(b, left)):
                refuse(e.line, "rule 12: a comparison")
            return INT_TYPE
        if e.word in ("<", ">", "<=", ">=") and left == right and isinstance(left, Pointer):
            return INT_TYPE
        if e.word == "-" and left == right and isinstance(left, Pointer):
            return LONG_TYPE
        if e.word in ("+", "-") and isinstance(left, Pointer) and isinstance(right, Integer):
            return left
        if e.word == "+" and isinstance(right, Pointer) and isinstance(left, Integer):
            return right
        refuse(e.line, f"rule 12: {e.word}")

    def integers(self, op, left, right):
        if op in ("<<", ">>"):
            return Integer(promote(left.name))
        return INT_TYPE if op in ("<", ">", "<=", ">=", "==", "!=") else Integer(common(left.name, right.name))

    def selected(self, e):
        """The type of `*p`, `a[i]`, `s.m` and `p->m`."""
        t = e.parts[0].type
        if e.form == "index":
            self.integer(e.parts[1])
        if e.form != "member":
            t = decayed(t)
            if not isinstance(t, Pointer) or t.to is None:
                refuse(e.line, "rule 12: no pointer")
            t = t.to
        if e.form in ("deref", "index"):
            return t
        if not isinstance(t, StructType):
            refuse(e.line, "rule 12: no struct")
        for number, (name, shape) in enumerate(t.struct.members):
            if name == e.word:
                e.member = number
                return shape
        refuse(e.line, f"rule 8: {e.word}")
