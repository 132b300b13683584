"""Locations, what pointers may point to, and what expressions name and read.

A location is a root with a path: of members by number, and of `[]` for the merged elements of an array. Roots are ("input",),
("var", number), ("site", number of the malloc's statement) and ("result", number of the function).
"""
from tree import Array, Pointer, StructType, each_expr, expressions, inner

INPUT = (("input",), ())
ELEMENT = "[]"


def with_parts(root, path, t):
    """A location and its parts, each with its type, a location before its parts."""
    yield (root, path), t
    if isinstance(t, Array):
        yield from with_parts(root, path + (ELEMENT,), t.of)
    if isinstance(t, StructType):
        for number, (_, shape) in enumerate(t.struct.members):
            yield from with_parts(root, path + (number,), shape)


def location_types(program):
    """All locations of a program in their order, with their types."""
    found = {INPUT: None}
    for var in program.vars:
        found.update(with_parts(("var", var.number), (), var.type))
    for s, _ in program.statements:
        if s.form == "heap":
            found.update(with_parts(("site", s.number), (), s.left.type.to))
    for f in program.functions:
        if f.result is not None:
            found.update(with_parts(("result", f.number), (), f.result))
    return found


def part_of(places, part):
    return {(root, path + (part,)) for root, path in places}


def is_array(e):
    return isinstance(e.type, Array)


def is_place(e):
    return inner(e).form in ("variable", "deref", "index", "member", "arrow")


class Pointing:
    """What each location may point to: the least relation that each statement asks for."""

    def __init__(self, program):
        self.program = program
        self.pairs = {}
        before = -1
        while before != sum(map(len, self.pairs.values())):
            before = sum(map(len, self.pairs.values()))
            for s, f in program.statements:
                self.use(s, f)

    def targets(self, places):
        return set().union(*(self.pairs.get(place, ()) for place in places))

    def add(self, places, targets):
        for place in places:
            self.pairs.setdefault(place, set()).update(targets)

    def use(self, s, f):
        """What a statement makes its left side, parameters or the result point to."""
        if s.form in ("declare", "assign") and s.left and s.op == "=":
            if s.args is not None:
                for e in s.args:
                    self.add(part_of(self.places(s.left), ELEMENT), self.points(e))
            else:
                self.add(self.places(s.left), self.points(s.value))
        if s.form == "heap":
            self.add(self.places(s.left), {(("site", s.number), ())})
        if s.form == "return" and s.value is not None:
            self.add({(("result", f.number), ())}, self.points(s.value))
        if s.form == "invoke":
            for e, var in zip(s.args, s.function.params):
                self.add({(("var", var.number), ())}, self.points(e))
            if s.left:
                self.add(self.places(s.left), self.targets({(("result", s.function.number), ())}))

    def places(self, e):
        """The locations that a place may be."""
        if e.form == "variable":
            return {(("var", e.var.number), ())}
        if e.form == "paren":
            return self.places(e.parts[0])
        if e.form == "member":
            return part_of(self.places(e.parts[0]), e.member)
        if e.form == "index" and is_array(e.parts[0]):
            return part_of(self.places(e.parts[0]), ELEMENT)
        if e.form == "arrow":
            return part_of(self.points(e.parts[0]), e.member)
        return self.points(e.parts[0])

    def points(self, e):
        """The locations that a pointer value may name."""
        if e.form == "paren":
            return self.points(e.parts[0])
        if is_place(e):
            if is_array(e):
                return part_of(self.places(e), ELEMENT)
            return self.targets(self.places(e)) if isinstance(e.type, Pointer) else set()
        if e.form == "address":
            return self.places(e.parts[0])
        if e.form in ("binary", "choose") and isinstance(e.type, Pointer):
            return set().union(*(self.points(part) for part in e.parts[e.form == "choose":]))
        return set()

    def reads(self, e):
        """The locations that are read for the value of an expression."""
        if e.form == "paren":
            return self.reads(e.parts[0])
        if e.form == "address":
            return self.finds(e.parts[0])
        if is_place(e):
            return self.finds(e) | (set() if is_array(e) else self.places(e))
        return set().union(*(self.reads(part) for part in e.parts))

    def finds(self, e):
        """The locations that are read to find the object that an expression designates."""
        if e.form == "variable":
            return set()
        if e.form in ("paren", "member"):
            return self.finds(e.parts[0])
        if e.form == "index" and is_array(e.parts[0]):
            return self.finds(e.parts[0]) | self.reads(e.parts[1])
        return set().union(*(self.reads(part) for part in e.parts))


def root_variable(e):
    """The variable in which the object of a place lies, where no pointer leads to it."""
    e = inner(e)
    if e.form == "variable":
        return e.var
    if e.form == "member" or (e.form == "index" and is_array(e.parts[0])):
        return root_variable(e.parts[0])
    return None


def taken_in(e, is_value):
    """The variables whose addresses an expression takes; an array that is used as a value turns into a pointer."""
    if e.form == "paren":
        return taken_in(e.parts[0], is_value)
    taken = {root_variable(e)} if is_value and is_array(e) else set()
    if e.form == "address":
        taken.add(root_variable(e.parts[0]))
        return taken | taken_in(e.parts[0], False)
    for at, part in enumerate(e.parts):
        is_selected = at == 0 and (e.form == "member" or (e.form == "index" and is_array(part)))
        taken |= taken_in(part, not is_selected)
    return taken


def taken_variables(program):
    """The variables whose addresses are taken somewhere."""
    taken = set()
    for s, _ in program.statements:
        for e in expressions(s):
            taken |= taken_in(e, e is not s.left)
    return taken - {None}


def named_in(e):
    return {part.var for part in each_expr(e) if part.form == "variable"}
