"""Expressions without side effects: what has to be done before one is emitted in front of it, from left to right.

`value` gives the expression for a node. What it emits goes to `out`, the statement list in hand; `capture` puts another list in its place,
so that what belongs to one operand can be told from what belongs to the next.
"""
from contextlib import contextmanager

from pycparser import c_ast

from c_types import (BOOL, INT, LONG, ULONG, Array, Int, Pointer, Struct, VOID, cells, common, constant_type, decayed, is_scalar, number,
                     promote, size)
from faults import Refused
from names import Entry, Enumerated
from tree import (Assign, Bump, Call, Declare, Effects, If, Invoke, Loop, Var, X, const, effects_of, fold, is_zero, literal_bytes, name,
                  negated, operator_type, place_changed, reads_changed, truth)

PLACES = ("name", "index", "member", "deref", "row")
UNROLLED = 8


class NeedsRows(Exception):
    """An array of arrays is used as a pointer to its rows: arrays of arrays have to be laid out as one array each."""


class Expressions:
    """The part of the builder that makes expressions; `is_flat` tells whether arrays of arrays are laid out as one."""

    # statements in front

    @contextmanager
    def capture(self):
        saved, self.out = self.out, []
        try:
            yield self.out
        finally:
            self.out = saved

    def emit(self, s):
        s.line = self.line if s.line is None else s.line
        self.out.append(s)

    def temp(self, value, t):
        """A new variable with a value."""
        var = Var(self.fresh("t"), t)
        self.emit(Declare(var, value))
        return name(var)

    def in_order(self, steps):
        """What steps give, from left to right: what an earlier one reads is kept where a later one may change it."""
        found = []
        for step in steps:
            with self.capture() as before:
                x = step()
            if before:
                changed = effects_of(before)
                found = [self.kept(y, changed) if isinstance(y, X) else y for y in found]
                self.out += before
            found.append(x)
        return found

    def kept(self, x, changed):
        """An expression whose value stays, over such changes."""
        if isinstance(x.type, Struct):
            return self.kept_struct(x) if changed.anything or changed.vars else x
        if isinstance(x.type, Array):
            return self.kept_place(x, changed)
        return self.temp(x, x.type) if reads_changed(x, changed) else x

    def kept_struct(self, x):
        var = Var(self.fresh("t"), x.type)
        self.emit(Declare(var))
        self.copy(name(var), x)
        return name(var)

    def kept_place(self, x, changed):
        """A place that stays the same one, over such changes."""
        if x.kind == "name" or not place_changed(x, changed):
            return x
        if x.kind == "member":
            return X("member", [self.kept_place(x.parts[0], changed)], x.type, x.word)
        return X(x.kind, [self.kept(part, changed) for part in x.parts], x.type, x.word)

    # values

    def value(self, node):
        method = getattr(self, "value_" + type(node).__name__, None)
        if method is None:
            raise Refused(node, "an expression of a kind that isn't known")
        return method(node)

    def pure(self, node):
        """The value of a node that does nothing."""
        with self.capture() as before:
            x = self.value(node)
        if before:
            raise Refused(node, "no constant expression")
        return x

    def test(self, node):
        return self.wants_scalar(self.value(node), node)

    def place(self, node):
        x = self.value(node)
        if x.kind not in PLACES:
            raise Refused(node, "what is assigned to is no variable, element or member")
        return x

    def value_ID(self, node):
        found = self.find(node.name)
        if isinstance(found, Var):
            return name(found)
        if isinstance(found, Enumerated):
            return const(found.value)
        if isinstance(found, Entry):
            raise Refused(node, "a function as a value: call functions by their names")
        if node.name == "NULL":
            return X("null", [], Pointer(VOID))
        if node.name == "EOF":
            return X("eof", [], INT)
        raise Refused(node, found if isinstance(found, str) else f"{node.name} isn't declared")

    def value_Constant(self, node):
        if node.type == "string":
            return self.string(node, literal_bytes(node.value))
        if node.type == "char":
            return self.character(node)
        if "int" not in node.type.split():
            raise Refused(node, "a floating constant or a wide character: an integer")
        lower = node.value.lower()
        digits = node.value.rstrip("uUlL")
        suffix = "".join(sorted(set(lower[len(digits):])))
        t = constant_type(digits, suffix)
        if t is None:
            raise Refused(node, "no type holds the number")
        spelling = str(number(digits)) if lower.startswith("0b") else digits
        return X("const", [], t, spelling + {"": "", "u": "u", "l": "l", "lu": "ul"}[suffix])

    def character(self, node):
        values = literal_bytes(node.value)
        if len(values) != 1:
            raise Refused(node, "a constant of several characters: one character")
        simple = node.value[1:-1]
        is_escape = len(simple) == 2 and simple[0] == "\\" and simple[1] in "ntrabfv0\\'\"?"
        is_plain = is_escape or (len(simple) == 1 and 32 <= ord(simple) < 127)
        return X("const", [], INT, node.value) if is_plain else const(values[0] - 256 if values[0] > 127 else values[0])

    def value_UnaryOp(self, node):
        if node.op == "sizeof":
            return const(self.size_of(node.expr), ULONG)
        if node.op == "&":
            return self.address(node)
        if node.op in ("++", "--"):
            return self.bump(node)
        if node.op in ("p++", "p--"):
            place = self.place(node.expr)
            old = self.temp(place, decayed(place.type))
            self.bump_place(node, place)
            return old
        x = self.value(node.expr)
        if node.op == "*":
            return self.pointed(node, x)
        if node.op == "!":
            return X("unary", [self.wants_scalar(x, node)], INT, "!")
        return X("unary", [self.wants_int(x, node)], promote(x.type), node.op)

    def size_of(self, node):
        if isinstance(node, c_ast.Typename):
            t = self.type_of(node)
        elif isinstance(node, c_ast.Constant) and node.type == "string":
            return len(literal_bytes(node.value)) + 1
        else:
            front = len(self.front)
            with self.capture():
                t = self.value(node).type
            del self.front[front:]
        if t == VOID or (isinstance(t, Struct) and not t.is_defined):
            raise Refused(node, "the size of a type that isn't complete")
        return size(t)

    def bump(self, node):
        """Does `++` or `--`; gives the place, whose value is then the new one."""
        place = self.place(node.expr)
        return self.bump_place(node, place)

    def bump_place(self, node, place):
        op = node.op[-2:]
        if place.type == BOOL:
            self.emit(Assign(place, "=", truth(X("binary", [place, const(1)], INT, op[0]))))
        elif isinstance(place.type, Pointer) and isinstance(place.type.to, Array):
            self.emit(Assign(place, op[0] + "=", const(cells(place.type.to))))
        elif is_scalar(place.type):
            self.emit(Bump(place, op))
        else:
            raise Refused(node, f"{op} of what is no integer and no pointer")
        return place

    def address(self, node):
        x = self.value(node.expr)
        if isinstance(x.type, Array):
            return self.row_of(x, const(0), Pointer(x.type))
        if x.kind == "deref":
            return x.parts[0]
        if x.kind not in PLACES:
            raise Refused(node, "the address of what has none: a variable with the value, and its address")
        return X("address", [x], Pointer(x.type))

    def pointed(self, node, x):
        """What is behind a pointer."""
        t = decayed(x.type)
        if not isinstance(t, Pointer) or t.to == VOID or (isinstance(t.to, Struct) and not t.to.is_defined):
            raise Refused(node, "what lies behind a pointer to void, or behind no pointer: a pointer of the right type")
        if isinstance(t.to, Array) or x.kind == "row":
            return self.element(node, x, const(0))
        return x.parts[0] if x.kind == "address" else X("deref", [x], t.to)

    # elements, and rows of arrays that are laid out as one

    def value_ArrayRef(self, node):
        a, i = self.in_order([lambda: self.value(node.name), lambda: self.value(node.subscript)])
        if isinstance(a.type, Int):
            a, i = i, a
        return self.element(node, a, self.wants_int(i, node))

    def element(self, node, a, i):
        t = decayed(a.type)
        if not isinstance(t, Pointer) or t.to == VOID or (isinstance(t.to, Struct) and not t.to.is_defined):
            raise Refused(node, "an element of what is no array and no pointer to elements")
        if isinstance(t.to, Array) and (self.is_flat or not isinstance(a.type, Array)):
            return self.row_of(a, i, t.to)
        if a.kind == "row":
            return X("index", [a.parts[0], self.sum(a.parts[1], i)], t.to)
        return X("index", [a, i], t.to)

    def row_of(self, a, i, t):
        """The row with a number from where `a` points on; the type is the row's, or a pointer's to it."""
        if not self.is_flat:
            raise NeedsRows
        step = cells(decayed(a.type).to) if isinstance(decayed(a.type), Pointer) else 1
        base, offset = a.parts if a.kind == "row" else (a, const(0))
        return X("row", [base, self.sum(offset, self.scaled(i, step))], t)

    def scaled(self, i, step):
        if fold(i) is not None:
            return const(fold(i) * step, i.type if size(i.type) == 8 else INT)
        return i if step == 1 else X("binary", [i, const(step)], common(i.type, INT), "*")

    @staticmethod
    def sum(a, b):
        if fold(a) == 0:
            return b
        return a if fold(b) == 0 else X("binary", [a, b], common(a.type, b.type), "+")

    def value_StructRef(self, node):
        x = self.value(node.name)
        if node.type == "->":
            x = self.pointed(node, x)
        t = x.type.member(node.field.name) if isinstance(x.type, Struct) else None
        if t is None:
            raise Refused(node, f"there is no member {node.field.name}")
        return X("member", [x], t, node.field.name)

    # operators

    def value_BinaryOp(self, node):
        if node.op in ("&&", "||"):
            return self.logic(node)
        a, b = self.in_order([lambda: self.value(node.left), lambda: self.value(node.right)])
        return self.operator(node, node.op, a, b)

    def operator(self, node, op, a, b):
        """An operator on two values, of integers or of pointers (6.5.6, 6.5.8, 6.5.9)."""
        if isinstance(a.type, Int) and isinstance(b.type, Int):
            return X("binary", [a, b], operator_type(op, a.type, b.type), op)
        left, right = decayed(a.type), decayed(b.type)
        self.wants_scalar(a, node)
        self.wants_scalar(b, node)
        if op in ("==", "!="):
            return X("binary", self.compared(node, a, b), INT, op)
        if op == "+" and isinstance(left, Int):
            a, b, left, right = b, a, right, left
        if op in ("+", "-") and isinstance(left, Pointer) and isinstance(right, Int):
            return self.moved(node, op, a, b)
        if left != right or not isinstance(left, Pointer) or op not in ("-", "<", ">", "<=", ">="):
            raise Refused(node, f"operands that {op} doesn't take: integers, or pointers of one type")
        if op != "-":
            return X("binary", [a, b], INT, op)
        distance = X("binary", [a, b], LONG, "-")
        step = cells(left.to)
        return distance if step == 1 else X("binary", [distance, const(step)], LONG, "/")

    def moved(self, node, op, a, b):
        t = decayed(a.type)
        if t.to == VOID:
            raise Refused(node, "a pointer to void that is moved: a pointer of the right type")
        if isinstance(t.to, Array) or a.kind == "row":
            return self.row_of(a, b if op == "+" else X("unary", [b], promote(b.type), "-"), t)
        return X("binary", [a, b], t, op)

    def compared(self, node, a, b):
        """Two pointers, or a pointer and 0, as the language compares them."""
        if isinstance(a.type, Int):
            b, a = self.compared(node, b, a)
            return [a, b]
        if isinstance(b.type, Int) and not is_zero(b):
            raise Refused(node, "a pointer compared with an integer: a pointer, or NULL")
        if isinstance(b.type, Int):
            return [a, const(0)]
        if decayed(a.type) != decayed(b.type) and "null" not in (a.kind, b.kind):
            raise Refused(node, "pointers of two types compared: pointers of one type")
        return [a, b]

    def logic(self, node):
        a = self.test(node.left)
        with self.capture() as before:
            b = self.test(node.right)
        is_and = node.op == "&&"
        if not before:
            return X("binary", [a, b], INT, node.op)
        result = self.temp(const(0 if is_and else 1), INT)
        with self.capture() as inner:
            self.out += before
            self.emit(Assign(result, "=", truth(b)))
        self.emit(If(a if is_and else negated(a), inner))
        return result

    def value_TernaryOp(self, node):
        test = self.test(node.cond)
        with self.capture() as before_a:
            a = self.value(node.iftrue)
        with self.capture() as before_b:
            b = self.value(node.iffalse)
        t = self.choice_type(node, a, b)
        if not before_a and not before_b and is_scalar(t):
            parts = [const(0) if isinstance(t, Pointer) and isinstance(x.type, Int) else x for x in (a, b)]
            return X("choose", [test, *parts], t)
        var = Var(self.fresh("t"), t)
        self.emit(Declare(var))
        branches = []
        for before, x in ((before_a, a), (before_b, b)):
            with self.capture() as branch:
                self.out += before
                self.store(name(var), x if isinstance(t, Struct) else self.fitted(node, x, t))
            branches.append(branch)
        self.emit(If(test, *branches))
        return name(var)

    def choice_type(self, node, a, b):
        left, right = decayed(a.type), decayed(b.type)
        if isinstance(left, Int) and isinstance(right, Int):
            return common(left, right)
        if left == right and left != VOID:
            return left
        for x, t in ((a, right), (b, left)):
            if isinstance(t, Pointer) and (x.kind == "null" or is_zero(x)):
                return t
        raise Refused(node, "a choice between two types: values of one type")

    def value_Cast(self, node):
        t = self.type_of(node.to_type)
        if self.is_malloc(node.expr) and t != Pointer(VOID):
            return self.temp(self.right_side(node, t), t)
        x = self.value(node.expr)
        if isinstance(t, Int):
            self.wants_int(x, node)
            return truth(x) if t == BOOL else X("cast", [x], t)
        if isinstance(t, Pointer) and (is_zero(x) or x.kind == "null"):
            return X("null", [], t)
        if t in (decayed(x.type), Pointer(VOID)) and isinstance(decayed(x.type), Pointer):
            return x
        raise Refused(node, "a cast to another pointer type: a pointer of the right type" if t != VOID else "a value of type void")

    def value_ExprList(self, node):
        for part in node.exprs[:-1]:
            self.effect(part)
        return self.value(node.exprs[-1])

    def value_CompoundLiteral(self, node):
        var = Var(self.fresh("t"), self.completed(self.type_of(node.type), node.init))
        var.is_reached = True
        self.begin(node, var, node.init)
        return name(var)

    def value_FuncCall(self, node):
        call = self.call(node)
        if isinstance(call, X):
            return call
        if call.type == VOID:
            raise Refused(node, f"the result of {call.name}, which gives none")
        return self.temp(call, call.type)

    # assignments

    def value_Assignment(self, node):
        place = self.place(node.lvalue)
        with self.capture() as before:
            if node.op != "=":
                value = self.value(node.rvalue)
            elif isinstance(place.type, Struct):
                value = self.value(node.rvalue)
            else:
                value = self.right_side(node.rvalue, place.type)
        changed = effects_of(before)
        if isinstance(value, Call) and value.name != "getchar":
            changed.anything = True
        if before or isinstance(value, Call):
            place = self.kept_place(place, changed)
        self.out += before
        if node.op == "=":
            self.store(place, value, node)
        else:
            self.compound(node, place, value)
        return place

    def store(self, place, value, node=None):
        """Assigns to a place; a struct member by member."""
        if isinstance(place.type, Struct):
            if not isinstance(value, X) or value.type != place.type:
                raise Refused(node, "a struct of another type")
            self.copy(place, value)
        elif not is_scalar(place.type):
            raise Refused(node, "an array that is assigned: its elements one by one")
        else:
            self.emit(Assign(place, "=", value))

    def compound(self, node, place, value):
        op = node.op[:-1]
        result = self.operator(node, op, place, value)
        if place.type == BOOL:
            self.emit(Assign(place, "=", truth(result)))
        elif result.kind == "row":
            self.emit(Assign(place, node.op, self.scaled(value, cells(place.type.to))))
        elif isinstance(place.type, Int) and not isinstance(result.type, Int):
            raise Refused(node, f"operands that {node.op} doesn't take")
        else:
            self.emit(Assign(place, node.op, value))

    def right_side(self, node, t):
        """What is assigned to a place of a type: a value, a call or an allocation."""
        if self.is_malloc(node):
            return self.heap(node, t)
        if isinstance(node, c_ast.FuncCall):
            call = self.call(node)
            if isinstance(call, X):
                return self.fitted(node, call, t)
            if call.type != t and not (isinstance(call.type, Int) and isinstance(t, Int)) or t == BOOL:
                return self.fitted(node, self.value_of_call(node, call), t)
            return call
        return self.fitted(node, self.value(node), t)

    def value_of_call(self, node, call):
        if call.type == VOID:
            raise Refused(node, f"the result of {call.name}, which gives none")
        return self.temp(call, call.type)

    def fitted(self, node, x, t):
        """A value as it is stored in a type."""
        source = decayed(x.type)
        if isinstance(t, Int):
            if t == BOOL:
                return truth(self.wants_scalar(x, node))
            return self.wants_int(x, node)
        if isinstance(t, Pointer) and isinstance(source, Int) and is_zero(x):
            return const(0)
        if isinstance(t, Pointer) and x.kind == "null" or source == t:
            return x
        if isinstance(t, Pointer) and isinstance(source, Pointer):
            raise Refused(node, "a pointer of another type: a pointer of the right type")
        raise Refused(node, "a value of another type than what it is stored in")

    def copy(self, to, source):
        """Copies member by member; what leads to both places stays the same meanwhile."""
        anything = Effects(set(), True)
        self.copy_parts(self.kept_place(to, anything), self.kept_place(source, anything))

    def copy_parts(self, to, source):
        if isinstance(to.type, Struct):
            for member, t in to.type.members:
                self.copy_parts(X("member", [to], t, member), X("member", [source], t, member))
        elif isinstance(to.type, Array):
            self.each(to, lambda x, i: self.copy_parts(x, self.element(None, source, i)))
        else:
            self.emit(Assign(to, "=", source))

    def each(self, array, act):
        """Does an act with each element of an array: one by one where they are few, else in a loop."""
        length = array.type.length
        if length <= UNROLLED:
            for i in range(length):
                act(self.element(None, array, const(i)), const(i))
            return
        var = Var(self.fresh("t"), INT)
        with self.capture() as body:
            act(self.element(None, array, name(var)), name(var))
        test = X("binary", [name(var), const(length)], INT, "<")
        step = [Bump(name(var), "++", self.line)]
        self.emit(Loop("for", [Declare(var, const(0), None, self.line)], [], test, step, body, self.line))

    # effects

    def effect(self, node):
        """Does what a node does, and drops its value."""
        if isinstance(node, c_ast.UnaryOp) and node.op in ("p++", "p--", "++", "--"):
            self.bump(node)
        elif isinstance(node, c_ast.ExprList):
            for part in node.exprs:
                self.effect(part)
        elif isinstance(node, c_ast.Cast) and self.type_of(node.to_type) == VOID:
            self.effect(node.expr)
        elif isinstance(node, c_ast.TernaryOp):
            test = self.test(node.cond)
            self.emit(If(test, self.effects(node.iftrue), self.effects(node.iffalse)))
        elif isinstance(node, c_ast.BinaryOp) and node.op in ("&&", "||"):
            test = self.test(node.left)
            self.emit(If(test if node.op == "&&" else negated(test), self.effects(node.right)))
        elif isinstance(node, c_ast.FuncCall):
            call = self.call(node, True)
            if isinstance(call, Call):
                self.emit(Invoke(call))
        else:
            self.value(node)

    def effects(self, node):
        with self.capture() as found:
            self.effect(node)
        return found
