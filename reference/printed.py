"""Printed forms of a graph: vertices, edges, and what may point where."""
from graph import LABELS, at


def slot_words(program, slot):
    """A slot as it is printed."""
    if slot[0] != "at":
        return f"#{slot[1]}" if slot[0] == "argument" else "result"
    (root, path) = slot[1]
    words, t = root_words(program, root)
    for part in path:
        if part == "[]":
            words, t = words + "[]", t.of
        else:
            name, t = t.struct.members[part]
            words += "." + name
    return words


def root_words(program, root):
    if root[0] == "var":
        var = program.vars[root[1]]
        return var.name if var.owner is None else f"{var.name}@{var.line}", var.type
    if root[0] == "site":
        s = program.statements[root[1]][0]
        return f"malloc@{s.line}", s.left.type.to
    return ("input" if root[0] == "input" else f"result of {program.functions[root[1]].name}"), None


def vertex_words(program, v):
    words = [str(v.number), v.function.name, v.kind]
    if v.statement:
        words.append(str(v.statement.line))
    if v.kind == "call":
        words.append(v.statement.function.name)
    if v.slot:
        words.append(slot_words(program, v.slot))
    return " ".join(words)


def printed_vertices(graph, numbers):
    """The lines of some vertices, by number."""
    return "".join(vertex_words(graph.program, v) + "\n" for v in graph.vertices if v.number in numbers)


def printed_graph(graph):
    """Vertices by number, and then the edges in their order."""
    text = printed_vertices(graph, range(len(graph.vertices)))
    for v, w, label, call in sorted(graph.edges):
        text += f"{v} -> {w} {LABELS[label]}{f' {call}' if label > 1 else ''}\n"
    return text


def printed_pairs(graph):
    """What may point where, by the printed names, in the order of the locations."""
    order, text = graph.effects.order, ""
    for place in sorted(graph.effects.pointing.pairs, key=order.get):
        for target in sorted(graph.effects.pointing.pairs[place], key=order.get):
            text += f"{slot_words(graph.program, at(place))} -> {slot_words(graph.program, at(target))}\n"
    return text
