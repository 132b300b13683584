"""Reach along paths whose words match, what stands on such paths, true facts, and the completion of a set of vertices.

Sets of vertices are numbers whose bits are the members.
"""
from graph import LABELS


def bits(numbers):
    found = 0
    for number in numbers:
        found |= 1 << number
    return found


def members(found):
    """The numbers in a set, ascending."""
    return [number for number in range(found.bit_length()) if found >> number & 1]


def closed_along(rows):
    """For each vertex what is reached from it in zero or more steps of the rows (Warshall 1962)."""
    rows = [row | 1 << number for number, row in enumerate(rows)]
    for middle, _ in enumerate(rows):
        for number, row in enumerate(rows):
            if row >> middle & 1:
                rows[number] = row | rows[middle]
    return rows


class Words:
    """`matched[a]` has b where a path leads from a to b on which the letters pair by call."""

    def __init__(self, graph):
        self.graph = graph
        size = len(graph.vertices)
        self.plain = [0] * size
        self.opens, self.closes = [], []
        for v, w, label, call in graph.edges:
            if LABELS[label] in ("control", "flow"):
                self.plain[v] |= 1 << w
            else:
                (self.closes if LABELS[label] == "out" else self.opens).append((v, w, call))
        self.matched = self.matching()

    def matching(self):
        """The least relation: an edge without a letter, an open with a match and its close behind it, one match after another."""
        rows, before = closed_along(self.plain), None
        while rows != before:
            before = rows
            steps = list(self.plain)
            for v, inside, call in self.opens:
                for last, w, closed in self.closes:
                    if call == closed and rows[inside] >> last & 1:
                        steps[v] |= 1 << w
            rows = closed_along(steps)
        return rows

    def onward(self, found, edges):
        """What a set leads to by matches and these edges, in any order."""
        before = None
        while found != before:
            before = found
            for v, w, _ in edges:
                if found >> v & 1:
                    found |= 1 << w
            for v in members(found):
                found |= self.matched[v]
        return found

    def forward(self, numbers):
        """The vertices to which matches and closes, and then matches and opens, lead from one of these."""
        return self.onward(self.onward(bits(numbers), self.closes), self.opens)

    def backward(self, found, edges):
        """What leads into a set by matches and these edges, in any order."""
        before = None
        while found != before:
            before = found
            for v, w, _ in edges:
                if found >> w & 1:
                    found |= 1 << v
            found |= bits(v for v, row in enumerate(self.matched) if row & found)
        return found

    def reach(self, numbers):
        """The vertices from which matches and closes, and then matches and opens, lead to one of these."""
        return self.backward(self.backward(bits(numbers), self.opens), self.closes)

    def facts(self):
        """The pairs of a formal-in and a formal-out of one function that a match joins."""
        graph = self.graph
        return [(v, w) for f in graph.program.functions for v in graph.formal_ins[f] for w in graph.formal_outs[f]
                if self.matched[v.number] >> w.number & 1]


def on_paths(steps):
    """For each two vertices that paths of steps join, the vertices on these, by those on each step (Kleene 1956)."""
    rows = [{**row, v: row.get(v, 0) | 1 << v} for v, row in enumerate(steps)]
    for middle, row in enumerate(rows):
        behind = list(row.items())
        for other in rows:
            if middle in other:
                before = other[middle] | row[middle]
                for w, after in behind:
                    other[w] = other.get(w, 0) | before | after
    return rows


class Between:
    """What stands between two lists of vertices: `on[a]` has, for each b to which a match leads from a, what stands on these matches."""

    def __init__(self, words):
        self.words = words
        self.on = self.matches()
        self.rising = self.with_edges(self.words.closes)
        self.falling = self.with_edges(self.words.opens)

    def matches(self):
        """The least sets: those on an edge without a letter, on an open, a match and its close, on one match after another."""
        plain = [{w: 1 << v | 1 << w for w in members(row)} for v, row in enumerate(self.words.plain)]
        rows, before = on_paths(plain), None
        while rows != before:
            before = rows
            steps = [dict(row) for row in plain]
            for v, inside, call in self.words.opens:
                for last, w, closed in self.words.closes:
                    if call == closed and last in rows[inside]:
                        steps[v][w] = steps[v].get(w, 0) | 1 << v | 1 << w | rows[inside][last]
            rows = on_paths(steps)
        return rows

    def with_edges(self, edges):
        """The least sets of paths of matches and these edges."""
        steps = [dict(row) for row in self.on]
        for v, w, _ in edges:
            steps[v][w] = steps[v].get(w, 0) | 1 << v | 1 << w
        return on_paths(steps)

    def chop(self, numbers, others):
        """The vertices on paths of matches and closes, and then of matches and opens, from one of the first to one of the second."""
        found = 0
        for start in numbers:
            for middle, rise in self.rising[start].items():
                for goal in others:
                    if goal in self.falling[middle]:
                        found |= rise | self.falling[middle][goal]
        return found


def completion(graph, found):
    """The least set that holds this one and is closed in six ways."""
    found = set(members(found)) | {graph.entries[f].number for f in graph.program.functions if f.name == "main"}
    before = None
    while len(found) != before:
        before = len(found)
        for v, w, label, _ in graph.edges:
            name = LABELS[label]
            if name in ("control", "flow", "out") and w in found:
                found.add(v)
            if name == "call" and v in found:
                found.add(w)
            if name == "in" and w in found and call_of(graph, v) in found:
                found.add(v)
        for number in list(found):
            found |= named_parameters(graph, graph.vertices[number])
    return found


def call_of(graph, actual):
    """The call vertex of an actual."""
    return graph.by_statement[graph.vertices[actual].statement.number][0].number


def named_parameters(graph, v):
    """The formal-ins of the parameters that a vertex names."""
    params = v.function.params
    return {graph.formal_ins[v.function][params.index(var)].number for var in v.names if var in params}
