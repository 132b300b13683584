"""What statements may define, may use and kill, and what functions modify and use."""
from dataclasses import dataclass, field

from locations import ELEMENT, INPUT, Pointing, location_types, part_of, taken_variables


@dataclass
class Effect:
    defines: set = field(default_factory=set)
    uses: set = field(default_factory=set)
    kills: set = field(default_factory=set)


def plain_name(e):
    """The variable of a bare name with `.` selections behind it."""
    while e.form == "member":
        e = e.parts[0]
    return e.var if e.form == "variable" else None


class Effects:
    def __init__(self, program):
        self.program = program
        self.types = location_types(program)
        self.order = {location: number for number, location in enumerate(self.types)}
        self.pointing = Pointing(program)
        self.taken = taken_variables(program)
        self.own = {s.number: self.of_statement(s, f) for s, f in program.statements}
        self.modified = {f: self.seen(f, "defines") for f in program.functions}
        self.used = {f: self.seen(f, "uses") for f in program.functions}

    def of_left(self, e, is_list=False):
        """A store into a left side."""
        places = self.pointing.places(e)
        if is_list:
            places = part_of(places, ELEMENT)
        var = plain_name(e)
        kills = var is not None and (var.owner is None or var not in self.taken)
        return Effect(places, self.pointing.finds(e), set(places) if kills else set())

    def of_statement(self, s, f):
        """All that a statement may define and use; of a call, what stands in it."""
        made = self.of_left(s.left, s.form == "declare" and s.args is not None) if s.left else Effect()
        if s.form == "bump" or (s.form == "assign" and s.op != "="):
            made.uses = made.uses | self.pointing.places(s.left)
        if s.value:
            made.uses = made.uses | self.pointing.reads(s.value)
        for e in (s.args or []) + ([s.amount.count] if s.amount and s.amount.count else []):
            made.uses = made.uses | self.pointing.reads(e)
        if s.form == "fetch":
            made = Effect(made.defines | {INPUT}, made.uses | {INPUT}, made.kills | {INPUT})
        if s.form == "return" and s.value:
            result = {(("result", f.number), ())}
            made.defines, made.kills = result, result
        return made

    def is_outside(self, location):
        """Whether a location is seen outside of the function that touches it."""
        root = location[0]
        if root[0] == "var":
            var = self.program.vars[root[1]]
            return var.owner is None or var in self.taken
        return root[0] in ("input", "site")

    def seen(self, f, which):
        """What the functions that are called from a function, in zero or more calls, define or use outside, in order."""
        called, todo = set(), [f]
        while todo:
            g = todo.pop()
            if g not in called:
                called.add(g)
                todo += [s.function for s, owner in self.program.statements if owner is g and s.form == "invoke"]
        touched = set()
        for s, owner in self.program.statements:
            if owner in called:
                touched |= getattr(self.own[s.number], which)
        return sorted(filter(self.is_outside, touched), key=self.order.get)

    def either(self, f):
        """What a function modifies or uses, in order."""
        return sorted(set(self.modified[f]) | set(self.used[f]), key=self.order.get)


