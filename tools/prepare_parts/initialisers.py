"""Initialisers: lists where the language has them, else assignments in order behind the declaration; the rest is 0."""
from pycparser import c_ast

from c_types import CHAR, INT, UCHAR, Array, Struct, cells, is_scalar
from expressions import UNROLLED
from faults import Refused
from tree import Assign, Declare, Loop, Bump, Var, X, const, fold, literal_bytes, name


def is_string(node):
    """Whether a node is a string literal."""
    return isinstance(node, c_ast.Constant) and node.type == "string"


def string_of(node):
    """The string literal that initialises an array of characters, in braces or without, or None."""
    if isinstance(node, c_ast.InitList) and len(node.exprs) == 1:
        node = node.exprs[0]
    return node if is_string(node) else None


class Initialisers:
    """The part of the builder that reads initialisers (6.7.8)."""

    def completed(self, t, init):
        """A type whose length is that of its initialiser, where it has none of its own."""
        if not isinstance(t, Array) or t.length is not None:
            return t
        if init is None:
            return t
        literal = string_of(init)
        if t.of in (CHAR, UCHAR) and literal is not None:
            return Array(t.of, len(literal_bytes(literal.value)) + 1)
        if not isinstance(init, c_ast.InitList):
            raise Refused(init, "an array that begins with no list")
        leaves = self.leaves(t, init)
        return Array(t.of, max([path[0] for path in leaves] or [0]) + 1)

    def leaves(self, t, init):
        """The values of an initialiser by their paths, in the order of the text; a leaf is a node or a byte of a string."""
        found = {}
        if isinstance(init, c_ast.InitList):
            self.braced(found, (), t, init)
        else:
            self.next_part(found, (), t, [init])
        return found

    def braced(self, found, path, t, init):
        """A list in braces for a type."""
        rest = list(init.exprs or [])
        if is_scalar(t):
            if len(rest) != 1:
                raise Refused(init, "a list for what is one value")
            self.next_part(found, path, t, rest)
            return
        if string_of(init) is not None and isinstance(t, Array) and t.of in (CHAR, UCHAR):
            self.next_part(found, path, t, rest)
            return
        at = 0
        while rest:
            if isinstance(rest[0], c_ast.NamedInitializer):
                at = self.designated(found, path, t, rest)
                continue
            step, of = self.part(t, at, init)
            self.next_part(found, path + (step,), of, rest)
            at += 1

    def part(self, t, at, node):
        """The step to the part with a number, and its type."""
        if isinstance(t, Array) and (t.length is None or at < t.length):
            return at, t.of
        if isinstance(t, Struct) and at < len(t.members):
            return t.members[at]
        raise Refused(node, "more values than there are parts")

    def designated(self, found, path, t, rest):
        """A value with a designator; gives the number of the part behind it."""
        named = rest.pop(0)
        at, of, place = None, t, path
        for step in named.name:
            if isinstance(of, Array) and not (isinstance(step, c_ast.ID) and isinstance(of, Struct)):
                number = self.constant(step, "a designator that isn't constant")
            elif isinstance(of, Struct):
                names = [member for member, _ in of.members]
                if not isinstance(step, c_ast.ID) or step.name not in names:
                    raise Refused(named, "a designator of a member that there isn't")
                number = names.index(step.name)
            else:
                raise Refused(named, "a designator of no part")
            at = number if at is None else at
            key, of = self.part(of, number, named)
            place += (key,)
        self.next_part(found, place, of, [named.expr])
        return at + 1

    def next_part(self, found, path, t, rest):
        """The next values for a part, which may stand without braces of their own."""
        first = rest[0]
        if isinstance(first, c_ast.InitList):
            rest.pop(0)
            self.forget(found, path)
            self.braced(found, path, t, first)
        elif isinstance(t, Array) and t.of in (CHAR, UCHAR) and is_string(first):
            rest.pop(0)
            self.forget(found, path)
            values = literal_bytes(first.value)
            for at, byte in enumerate((values + b"\0")[:t.length]):
                found[path + (at,)] = byte
        elif is_scalar(t) or (isinstance(t, Struct) and self.is_struct(first, t)):
            self.forget(found, path)
            found[path] = rest.pop(0)
        else:
            at = 0
            while rest and not isinstance(rest[0], c_ast.NamedInitializer) and at < self.parts_of(t):
                step, of = self.part(t, at, first)
                self.next_part(found, path + (step,), of, rest)
                at += 1

    @staticmethod
    def parts_of(t):
        return t.length if isinstance(t, Array) else len(t.members)

    @staticmethod
    def forget(found, path):
        """A later value for a part takes the place of earlier ones."""
        for known in [known for known in found if known[:len(path)] == path]:
            del found[known]

    def is_struct(self, node, t):
        """Whether a node is a value of a struct type."""
        front = len(self.front)
        with self.capture():
            try:
                found = self.value(node).type
            except Refused:
                found = None
        del self.front[front:]
        return found == t

    # what is emitted

    def begin(self, node, var, init):
        """Declares a local variable with its initialiser."""
        t = var.type
        if init is None:
            self.emit(Declare(var))
        elif is_scalar(t):
            first = init.exprs[0] if isinstance(init, c_ast.InitList) else init
            self.emit(Declare(var, self.right_side(first, t)))
        elif isinstance(t, Array) and is_scalar(t.of):
            self.begin_list(var, self.leaves(t, init))
        elif isinstance(init, c_ast.InitList):
            leaves = self.leaves(t, init)
            self.emit(Declare(var))
            self.assign_parts(name(var), (), t, leaves)
        else:
            value = self.value(init)
            self.emit(Declare(var))
            self.store(name(var), value, init)

    def leaf(self, value, t):
        if isinstance(value, int):
            return const(value - 256 if value > 127 and t == CHAR else value)
        return self.fitted(value, self.leaf_value(value, t), t)

    def leaf_value(self, node, t):
        return self.temp(self.heap(node, t), t) if self.is_malloc(node) else self.value(node)

    def begin_list(self, var, leaves):
        of = var.type.of
        values = self.in_order([lambda leaf=leaf: self.leaf(leaf, of) for leaf in leaves.values()])
        items = [const(0)] * (max([path[0] for path in leaves] or [0]) + 1)
        for path, x in zip(leaves, values):
            items[path[0]] = x
        self.emit(Declare(var, None, items))

    def assign_parts(self, place, path, t, leaves):
        """Assigns each part in order: its value, or 0."""
        if path in leaves:
            if isinstance(t, Struct):
                self.store(place, self.value(leaves[path]), leaves[path])
            elif isinstance(leaves[path], int):
                self.emit(Assign(place, "=", self.leaf(leaves[path], t)))
            else:
                self.emit(Assign(place, "=", self.right_side(leaves[path], t)))
        elif not any(known[:len(path)] == path for known in leaves):
            self.zero(place)
        elif isinstance(t, Struct):
            for member, of in t.members:
                self.assign_parts(X("member", [place], of, member), path + (member,), of, leaves)
        else:
            self.assign_elements(place, path, t, leaves)

    def assign_elements(self, place, path, t, leaves):
        """The elements of an array up to the last that is named, and the rest in one."""
        last = max(known[len(path)] for known in leaves if known[:len(path)] == path)
        for at in range(last + 1):
            self.assign_parts(self.element(None, place, const(at)), path + (at,), t.of, leaves)
        self.zero_from(place, last + 1)

    def zero(self, place):
        if isinstance(place.type, Struct):
            for member, of in place.type.members:
                self.zero(X("member", [place], of, member))
        elif isinstance(place.type, Array):
            self.zero_from(place, 0)
        else:
            self.emit(Assign(place, "=", const(0)))

    def zero_from(self, place, first):
        """Sets the elements of an array from one on to 0, in a loop where they are many."""
        length = place.type.length
        if (length - first) * cells(place.type.of) <= UNROLLED:
            for at in range(first, length):
                self.zero(self.element(None, place, const(at)))
            return
        var = Var(self.fresh("t"), INT)
        with self.capture() as body:
            self.zero(self.element(None, place, name(var)))
        test = X("binary", [name(var), const(length)], INT, "<")
        step = [Bump(name(var), "++", self.line)]
        self.emit(Loop("for", [Declare(var, const(first), None, self.line)], [], test, step, body, self.line))

    # globals

    def begin_global(self, var, init):
        """The initialiser of a global as a value, a list or None; what is no constant is assigned in main."""
        t = var.type
        if init is None:
            return None, None
        if is_scalar(t):
            first = init.exprs[0] if isinstance(init, c_ast.InitList) else init
            x = self.fitted(first, self.global_value(first), t)
            value = self.constant_of(x)
            if value is None:
                self.main_begin(Assign(name(var), "=", x))
            return value, None
        leaves = self.leaves(t, init)
        values = {path: self.global_leaf(leaf, t, path) for path, leaf in leaves.items()}
        if isinstance(t, Array) and is_scalar(t.of):
            items = [const(0)] * (max([path[0] for path in values] or [0]) + 1)
            for path, x in values.items():
                items[path[0]] = self.constant_of(x) or const(0)
            if any(self.constant_of(x) is None for x in values.values()):
                self.assign_globals(var, {path: x for path, x in values.items() if self.constant_of(x) is None})
            return None, items if any(fold(x) != 0 for x in items) else None
        self.assign_globals(var, {path: x for path, x in values.items() if fold(x) != 0 and x.kind != "null"})
        return None, None

    def global_value(self, node):
        if string_of(node) is not None:
            return self.string(node, literal_bytes(string_of(node).value))
        return self.pure(node)

    def global_leaf(self, leaf, t, path):
        for step in path:
            t = t.of if isinstance(t, Array) else t.member(step)
        if isinstance(leaf, int):
            return self.leaf(leaf, t)
        if isinstance(t, Struct):
            raise Refused(leaf, "a global that begins with a struct: a list")
        return self.fitted(leaf, self.global_value(leaf), t)

    @staticmethod
    def constant_of(x):
        """The expression where it is constant, or None."""
        if x.kind == "null":
            return const(0)
        value = fold(x)
        if value is None:
            return None
        return x if x.kind == "const" else const(value, x.type)

    def assign_globals(self, var, values):
        for path, x in values.items():
            place = name(var)
            for step in path:
                place = (self.element(None, place, const(step)) if isinstance(step, int)
                         else X("member", [place], place.type.member(step), step))
            self.main_begin(Assign(place, "=", x))

    def main_begin(self, s):
        self.main_start.append(s)
