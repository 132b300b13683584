"""Runs a program: acts, events and output."""
import operator
import sys
from dataclasses import dataclass

from expr_types import constant_value
from integers import INT, LONG, UCHAR, UINT, ULONG, Undefined, binary, convert, promote, unary
from lexer import literal_bytes
from memory import Block, designated, free, is_equal, is_same_array, move, read, write
from tree import Array, Integer, Pointer, decayed, inner

ORDER = {"<": operator.lt, ">": operator.gt, "<=": operator.le, ">=": operator.ge}
CONVERSIONS = {"d": INT, "ld": LONG, "u": UINT, "lu": ULONG, "x": UINT, "lx": ULONG, "c": UCHAR}
LONGEST_ALLOCATION = 1048576

sys.setrecursionlimit(1000000)


class MoreActs(Exception):
    """The run needs more acts than it may do."""


@dataclass
class Run:
    """How a run went: `ended`, `undefined` (in a statement) or `more`; its events, output and acts."""
    end: str
    statement: int
    events: list
    output: bytes
    acts: int


class Machine:
    def __init__(self, program, text, most):
        self.program, self.input, self.most = program, list(text), most
        self.acts, self.events, self.output = 0, [], bytearray()
        self.current = -1
        self.globals = {}
        for item in program.items:
            if item.form == "global":
                self.globals[item.var] = self.global_block(item)

    def global_block(self, item):
        block = Block(item.var.type, is_zero=True)
        for number, e in enumerate(item.args or []):
            block.cells[(number,)] = self.stored(constant(e), item.var.type.of)
        if item.value:
            block.cells[()] = self.stored(constant(item.value), item.var.type)
        return block

    def run(self):
        main = next(f for f in self.program.functions if f.name == "main")
        end = "ended"
        try:
            self.activation(main, [])
        except Undefined:
            end = "undefined"
        except MoreActs:
            end = "more"
        return Run(end, self.current, self.events, bytes(self.output), self.acts)

    # acts

    def begin(self, s):
        if self.acts == self.most:
            raise MoreActs
        self.acts += 1
        self.current = s.number

    def tell(self, s, *values):
        """The event of a statement; a pointer is told by its index."""
        self.events.append((s.number, [("index", v[2]) if isinstance(v, tuple) else v for v in values]))

    def activation(self, f, values):
        """A call of a function with the values of its parameters; gives the value that it returns."""
        frame, blocks = dict(self.globals), []
        for var, value in zip(f.params, values):
            frame[var] = Block(var.type)
            blocks.append(frame[var])
            write((frame[var], ()), value)
        result = self.body(f, f.body, frame)
        self.leave(blocks)
        return result

    def leave(self, blocks):
        for block in blocks:
            block.is_live = False

    def body(self, f, statements, frame):
        """A statement list; the variables that it declares are gone behind it."""
        blocks, result = [], None
        for s in statements:
            result = self.statement(f, s, frame, blocks)
        self.leave(blocks)
        return result

    def statement(self, f, s, frame, blocks):
        if s.declares and s.number is None:
            self.open(s, frame, blocks)
            return None
        if s.form in ("block", "if", "while", "do", "for", "switch"):
            return getattr(self, s.form + "_")(f, s, frame)
        self.begin(s)
        if s.declares:
            self.open(s, frame, blocks)
        return getattr(self, s.form)(f, s, frame)

    def open(self, s, frame, blocks):
        frame[s.declares] = Block(s.declares.type)
        blocks.append(frame[s.declares])

    def test(self, s, frame):
        """The value of a test; 0 or 1 for a pointer."""
        self.begin(s)
        value = self.value(s.value, frame)
        if isinstance(decayed(s.value.type), Pointer):
            value = int(value is not None)
        self.tell(s, value)
        return value

    def block_(self, f, s, frame):
        self.body(f, s.body, frame)

    def if_(self, f, s, frame):
        self.body(f, s.body if self.test(s, frame) else s.other, frame)

    def while_(self, f, s, frame):
        while self.test(s, frame):
            self.body(f, s.body, frame)

    def do_(self, f, s, frame):
        self.body(f, s.body, frame)
        while self.test(s, frame):
            self.body(f, s.body, frame)

    def for_(self, f, s, frame):
        blocks = []
        if s.init:
            self.statement(f, s.init, frame, blocks)
        while self.test(s, frame):
            self.body(f, s.body, frame)
            if s.step:
                self.statement(f, s.step, frame, blocks)
        self.leave(blocks)

    def switch_(self, f, s, frame):
        value = convert(self.test(s, frame), promote(s.value.type.name))
        chosen = [arm for arm in s.arms if value in [known for label, known in arm.labels if label is not None]]
        chosen += [arm for arm in s.arms if any(label is None for label, _ in arm.labels)]
        if chosen:
            self.body(f, chosen[0].body, frame)

    def store(self, s, frame, value):
        """Stores into the left side of a statement what it has converted the value to."""
        value = self.stored(value, s.left.type)
        write(self.place(s.left, frame), value)
        return value

    def stored(self, value, t):
        """A value as an object of a type holds it: 0 as a pointer is null."""
        if isinstance(t, Pointer):
            return None if value == 0 else value
        return convert(value, t.name)

    def declare(self, f, s, frame):
        if s.args is None:
            return self.assign(f, s, frame)
        t = s.declares.type
        values = [self.stored(self.value(e, frame), t.of) for e in s.args]
        rest = [self.stored(0, t.of)] * (t.length - len(values))
        for number, value in enumerate(values + rest):
            write((frame[s.declares], (number,)), value)
        return self.tell(s, *values)

    def assign(self, f, s, frame):
        value = self.value(s.value, frame)
        if s.op != "=":
            old = read(self.place(s.left, frame))
            value = self.combine(s.op[:-1], s.left.type, old, decayed(s.value.type), value)
        self.tell(s, self.store(s, frame, value))

    def bump(self, f, s, frame):
        old = read(self.place(s.left, frame))
        self.tell(s, self.store(s, frame, self.combine(s.op[0], s.left.type, old, Integer(INT), 1)))

    def fetch(self, f, s, frame):
        value = self.input.pop(0) if self.input else -1
        self.tell(s, self.store(s, frame, value) if s.left else value)

    def heap(self, f, s, frame):
        count = self.value(s.amount.count, frame) if s.amount.count else 1
        if not 1 <= count <= LONGEST_ALLOCATION:
            raise Undefined
        block = Block(Array(s.left.type.to, count, ""), is_allocated=True)
        self.tell(s, self.store(s, frame, (block, (), 0)))

    def release(self, f, s, frame):
        pointer = self.value(s.value, frame)
        free(pointer)
        self.tell(s, pointer)

    def write(self, f, s, frame):
        value = convert(self.value(s.value, frame), UCHAR)
        self.output.append(value)
        self.tell(s, value)

    def print(self, f, s, frame):
        values = [self.value(e, frame) for e in s.args]
        made, shown, format_bytes, at = bytearray(), [], literal_bytes(s.format), 0
        while at < len(format_bytes):
            byte = format_bytes[at]
            at += 1
            if byte != ord("%"):
                made.append(byte)
                continue
            conversion = chr(format_bytes[at])
            if conversion == "l":
                conversion += chr(format_bytes[at + 1])
            at += len(conversion)
            if conversion == "%":
                made.append(byte)
                continue
            shown.append(convert(values[len(shown)], CONVERSIONS[conversion]))
            made += written(conversion, shown[-1])
        self.output += made
        self.tell(s, *shown)

    def invoke(self, f, s, frame):
        values = [self.stored(self.value(e, frame), var.type) for e, var in zip(s.args, s.function.params)]
        if s.left is None:
            self.tell(s)
        result = self.activation(s.function, values)
        self.current = s.number
        if s.left:
            self.tell(s, self.store(s, frame, result))

    def return_(self, f, s, frame):
        if s.value is None:
            return self.tell(s)
        value = self.stored(self.value(s.value, frame), f.result)
        self.tell(s, value)
        return value

    # expressions

    def place(self, e, frame):
        """The object that an expression designates: a block and a path."""
        e = inner(e)
        if e.form == "variable":
            return frame[e.var], ()
        if e.form == "member":
            block, path = self.place(e.parts[0], frame)
            return block, path + (e.member,)
        if e.form == "arrow":
            block, path = designated(self.value(e.parts[0], frame))
            return block, path + (e.member,)
        if e.form == "deref":
            return designated(self.value(e.parts[0], frame))
        return designated(self.element(e, frame))

    def element(self, e, frame):
        """The pointer that `&a[i]` is."""
        return move(self.value(e.parts[0], frame), self.value(e.parts[1], frame))

    def value(self, e, frame):
        form = e.form
        if form == "constant":
            return e.value
        if form in ("null", "eof"):
            return None if form == "null" else -1
        if form == "paren":
            return self.value(e.parts[0], frame)
        if form in ("variable", "index", "member", "arrow", "deref"):
            place = self.place(e, frame)
            return place + (0,) if isinstance(e.type, Array) else read(place)
        if form == "address":
            return self.address(inner(e.parts[0]), frame)
        if form in ("and", "or"):
            first = self.truth(e.parts[0], frame)
            return int(self.truth(e.parts[1], frame)) if first == (form == "and") else int(first)
        if form == "choose":
            return self.stored(self.value(e.parts[1 if self.truth(e.parts[0], frame) else 2], frame), e.type)
        if form == "cast":
            return convert(self.value(e.parts[0], frame), e.type.name)
        if form == "unary":
            return self.unary(e, frame)
        a, b = e.parts
        return self.combine(e.word, decayed(a.type), self.value(a, frame), decayed(b.type), self.value(b, frame))

    def unary(self, e, frame):
        if e.word == "!":
            return int(not self.truth(e.parts[0], frame))
        t = e.type.name
        return unary(e.word, t, convert(self.value(e.parts[0], frame), t))

    def truth(self, e, frame):
        value = self.value(e, frame)
        return value is not None if isinstance(decayed(e.type), Pointer) else value != 0

    def address(self, e, frame):
        if e.form == "index":
            return self.element(e, frame)
        if e.form == "deref":
            return self.value(e.parts[0], frame)
        return self.place(e, frame) + (0,)

    def combine(self, op, a_type, a, b_type, b):
        """A binary operator on two values of their types."""
        if isinstance(a_type, Integer) and isinstance(b_type, Integer):
            return binary(op, a_type.name, a, b_type.name, b)
        if op in ("==", "!="):
            return int(is_equal(self.stored(a, a_type_of(a_type)), self.stored(b, a_type_of(b_type))) == (op == "=="))
        if isinstance(a_type, Pointer) and isinstance(b_type, Pointer):
            if not is_same_array(a, b):
                raise Undefined
            return a[2] - b[2] if op == "-" else int(ORDER[op](a[2], b[2]))
        if isinstance(a_type, Pointer):
            return move(a, b if op == "+" else -b)
        return move(b, a)


setattr(Machine, "return", Machine.return_)


def a_type_of(t):
    """A pointer type: an integer that is compared with a pointer is 0."""
    return t if isinstance(t, Pointer) else Pointer(None)


def written(conversion, value):
    if conversion == "c":
        return bytes([value])
    return (f"{value:x}" if conversion[-1] == "x" else str(value)).encode()


def constant(e):
    e = inner(e)
    return None if e.form == "null" else constant_value(e)


def run(program, text, most=10000000):
    return Machine(program, text, most).run()


def shown(value):
    if value is None:
        return "null"
    return str(value[1] if isinstance(value, tuple) else value)


def values_at(events, numbers):
    """The events of these statements, each statement by its place among them, counted from 1."""
    numbers = sorted(numbers)
    return [(numbers.index(number) + 1, values) for number, values in events if number in numbers]


def trace(events, numbers):
    """The values at some statements as they are printed."""
    return "".join(" ".join([f"{k}:"] + [shown(v) for v in values]) + "\n" for k, values in values_at(events, numbers))
