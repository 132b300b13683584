"""The system graph: vertices in their order, which vertex follows which, and the edges between them."""
from dataclasses import dataclass
from typing import Any

from effects import Effect, Effects
from locations import named_in
from tree import expressions

RESULT = ("result",)
LABELS = ("control", "flow", "call", "in", "out")


def argument(k):
    return ("argument", k)


def at(location):
    return ("at", location)


@dataclass(eq=False)
class Vertex:
    """Kinds: entry, formal-in, formal-out, statement, call, actual-in, actual-out."""
    kind: str
    function: Any
    statement: Any = None
    slot: Any = None
    effect: Any = None
    names: Any = frozenset()
    number: int = -1


class Graph:
    def __init__(self, program):
        self.program = program
        self.effects = Effects(program)
        self.vertices = []
        self.entries, self.formal_ins, self.formal_outs, self.by_statement = {}, {}, {}, {}
        for f in program.functions:
            self.lay_out(f)
        self.edges = set()
        for f in program.functions:
            self.add_control(f)
            self.add_flow(f)
        self.add_calls()

    # vertices

    def add(self, kind, f, effect, statement=None, slot=None, names=frozenset()):
        vertex = Vertex(kind, f, statement, slot, effect, names, len(self.vertices))
        self.vertices.append(vertex)
        return vertex

    def lay_out(self, f):
        effects = self.effects
        self.entries[f] = self.add("entry", f, Effect())
        slots = [(argument(k + 1), {(("var", var.number), ())}) for k, var in enumerate(f.params)]
        slots += [(at(location), {location}) for location in effects.either(f)]
        self.formal_ins[f] = [self.add("formal-in", f, Effect(defines=places), slot=slot) for slot, places in slots]
        for s, owner in self.program.statements:
            if owner is f:
                self.by_statement[s.number] = self.of_call(s, f) if s.form == "invoke" else [self.of_statement(s, f)]
        slots = [(at(location), {location}) for location in effects.modified[f]]
        if f.result is not None and f.name != "main":
            slots.append((RESULT, {(("result", f.number), ())}))
        self.formal_outs[f] = [self.add("formal-out", f, Effect(uses=places), slot=slot) for slot, places in slots]

    def of_statement(self, s, f):
        names = set().union(*(named_in(e) for e in expressions(s)))
        if s.amount and s.amount.size and s.amount.size.name:
            names |= named_in(s.amount.size.name)
        return self.add("statement", f, self.effects.own[s.number], s, names=names)

    def of_call(self, s, f):
        effects, callee = self.effects, s.function
        made = [self.add("call", f, Effect(), s)]
        for k, e in enumerate(s.args):
            made.append(self.add("actual-in", f, Effect(uses=effects.pointing.reads(e)), s, argument(k + 1), named_in(e)))
        for location in effects.either(callee):
            made.append(self.add("actual-in", f, Effect(uses={location}), s, at(location)))
        for location in effects.modified[callee]:
            made.append(self.add("actual-out", f, Effect(defines={location}, kills={location}), s, at(location)))
        if s.left:
            made.append(self.add("actual-out", f, effects.of_left(s.left), s, RESULT, named_in(s.left)))
        return made

    # which vertex follows which

    def follows(self, f):
        """The vertices that directly follow each vertex of a function."""
        pairs = {v: set() for v in self.vertices if v.function is f}
        self.pairs = pairs
        outs = self.formal_outs[f]
        end = outs[0] if outs else None
        self.chain([self.entries[f]] + self.formal_ins[f], self.start(f.body, end))
        self.chain(outs, None)
        self.follow_list(f.body, end)
        return pairs

    def pair(self, v, w):
        if w is not None:
            self.pairs[v].add(w)

    def chain(self, vertices, k):
        for v, w in zip(vertices, vertices[1:] + [k]):
            self.pair(v, w)

    def start(self, statements, k):
        """The vertex at which a list is entered, or k where it has none."""
        for s in statements:
            found = self.start_of(s)
            if found is not None:
                return found
        return k

    def start_of(self, s):
        if s.form == "block":
            return self.start(s.body, None)
        if s.form == "do":
            return self.start(s.body, self.test(s))
        if s.form == "for" and s.init:
            return self.start([s.init], self.test(s))
        return None if s.number is None else self.by_statement[s.number][0]

    def test(self, s):
        return self.by_statement[s.number][0]

    def follow_list(self, statements, k):
        for number, s in enumerate(statements):
            self.follow(s, self.start(statements[number + 1:], k))

    def follow(self, s, k):
        if s.form == "block":
            return self.follow_list(s.body, k)
        if s.number is None:
            return None
        if s.form in ("if", "switch"):
            lists = [s.body, s.other] if s.form == "if" else [arm.body for arm in s.arms]
            for part in lists:
                self.pair(self.test(s), self.start(part, k))
                self.follow_list(part, k)
            has_default = any(label is None for arm in s.arms for label, _ in arm.labels)
            if s.form == "switch" and not has_default:
                self.pair(self.test(s), k)
            return None
        if s.form in ("while", "do"):
            return self.follow_loop(s, s.body, self.test(s), k)
        if s.form == "for":
            self.follow_list([s.init] if s.init else [], self.test(s))
            step = self.start([s.step] if s.step else [], self.test(s))
            self.follow_list([s.step] if s.step else [], self.test(s))
            return self.follow_loop(s, s.body, step, k)
        return self.chain(self.by_statement[s.number], k)

    def follow_loop(self, s, body, after, k):
        """A loop whose body is followed by its test or its step."""
        self.pair(self.test(s), self.start(body, after))
        self.pair(self.test(s), k)
        self.follow_list(body, after)

    # edges

    def edge(self, v, w, label, call=None):
        self.edges.add((v.number, w.number, LABELS.index(label), call.number if call else 0))

    def add_flow(self, f):
        pairs = self.follows(f)
        for v in pairs:
            for location in v.effect.defines:
                self.add_flow_of(pairs, v, location)

    def add_flow_of(self, pairs, v, location):
        """Flow edges from a vertex, along the paths on which nothing kills the location."""
        seen, todo = set(), list(pairs[v])
        while todo:
            w = todo.pop()
            if w in seen:
                continue
            seen.add(w)
            if location in w.effect.uses:
                self.edge(v, w, "flow")
            if location not in w.effect.kills:
                todo += pairs[w]

    def add_control(self, f):
        entry = self.entries[f]
        for formal in self.formal_ins[f] + self.formal_outs[f]:
            self.edge(entry, formal, "control")
        self.control_list(f.body, {entry})

    def control_list(self, statements, controllers):
        for s in statements:
            self.control(s, controllers)

    def control(self, s, controllers):
        if s.form == "block":
            return self.control_list(s.body, controllers)
        if s.number is None:
            return None
        first, *rest = self.by_statement[s.number]
        own = controllers | {first} if s.form in ("while", "do", "for") else controllers
        for v in own:
            self.edge(v, first, "control")
        for actual in rest:
            self.edge(first, actual, "control")
        if s.form == "for":
            self.control_list([s.init] if s.init else [], controllers)
            self.control_list([s.step] if s.step else [], {first})
        for part in [s.body, s.other] + [arm.body for arm in s.arms]:
            self.control_list(part, own if s.form == "do" else {first})
        return None

    def add_calls(self):
        for s, _ in self.program.statements:
            if s.form != "invoke":
                continue
            call, *actuals = self.by_statement[s.number]
            self.edge(call, self.entries[s.function], "call", call)
            for actual in actuals:
                formals = self.formal_ins if actual.kind == "actual-in" else self.formal_outs
                for formal in formals[s.function]:
                    if formal.slot == actual.slot and actual.kind == "actual-in":
                        self.edge(actual, formal, "in", call)
                    elif formal.slot == actual.slot:
                        self.edge(formal, actual, "out", call)

    def criterion(self, line):
        """The numbers of the vertices of the statements on a line: of a call, the call and what takes its result."""
        found = []
        for s, _ in self.program.statements:
            if s.line == line:
                found += [v.number for v in self.by_statement[s.number] if v.kind in ("statement", "call") or
                          (v.kind == "actual-out" and v.slot == RESULT)]
        return found


def fact_words(graph):
    """The number of words that the facts of a graph take: a row for each formal-out."""
    return sum(-(-len(graph.formal_ins[f]) // 64) * len(graph.formal_outs[f]) for f in graph.program.functions)


