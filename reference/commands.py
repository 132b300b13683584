"""What each command writes: slice, lines, trace, run, graph, members, forward, chop, points, facts, effects and big."""
from graph import at, fact_words
from layout import layout
from machine import run, trace
from names import read_program
from printed import printed_graph, printed_pairs, printed_vertices, slot_words
from reach import Words
from slices import Slicer

MOST = 10000000


def slice_(program, lines):
    slicer = Slicer(program)
    return "".join(slicer.text(int(line)) for line in lines)


def ending(program, result, most):
    """The line on the error output of a run that doesn't end."""
    if result.end == "undefined":
        return f"{program.statements[result.statement][0].line}: undefined act in statement {result.statement}\n"
    return f"more than {most} steps\n" if result.end == "more" else ""


def run_(program, text, most=MOST):
    result = run(program, text, most)
    return result.output.decode("latin-1") + ending(program, result, most)


def trace_(program, lines, text, most=MOST):
    result = run(program, text, most)
    numbers = [s.number for s, _ in program.statements if str(s.line) in lines]
    return trace(result.events, numbers) + ending(program, result, most)


def graph_(program):
    return printed_graph(Slicer(program).graph)


def members_(program, line):
    slicer = Slicer(program)
    return printed_vertices(slicer.graph, slicer.members(int(line)))


def forward_(program, line):
    slicer = Slicer(program)
    return printed_vertices(slicer.graph, slicer.forward(int(line)))


def chop_(program, first, second):
    slicer = Slicer(program)
    return printed_vertices(slicer.graph, slicer.chop(int(first), int(second)))


def kept_(program, line):
    """The vertices of the completion, which the slice keeps."""
    slicer = Slicer(program)
    return printed_vertices(slicer.graph, slicer.kept(int(line)))


def lines_(program, lines):
    """The lines that the slice at each line keeps, a row each."""
    slicer = Slicer(program)
    return "".join(slicer.row(int(line)) for line in lines)


def points_(program):
    return printed_pairs(Slicer(program).graph)


def facts_(program):
    """The true facts, a line each."""
    graph = Slicer(program).graph
    return "".join(f"{v.function.name} {slot_words(program, v.slot)} -> {slot_words(program, w.slot)}\n" for v, w in Words(graph).facts())


def effects_(program):
    """What each function modifies and uses."""
    effects, text = Slicer(program).graph.effects, ""
    for f in program.functions:
        for what, found in (("modified", effects.modified[f]), ("used", effects.used[f])):
            text += " ".join([f.name, what] + [slot_words(program, at(location)) for location in found]) + "\n"
    return text


def counts_(program):
    """How large a program is."""
    graph = Slicer(program).graph
    return (f"statements {len(program.statements)} locations {len(graph.effects.order)} vertices {len(graph.vertices)} "
            f"edges {len(graph.edges)} fact words {fact_words(graph)}\n")


def big_text(seed, size):
    """A program of so many functions, each of which may call one before it."""
    state = [seed]

    def draw(m):
        state[0] = (state[0] * 1103515245 + 12345) % 2147483648
        return state[0] // 65536 % m

    lines = ["#include <stdio.h>"] + [f"int g{k};" for k in range(4)]
    for i in range(1, size + 1):
        lines += [f"int f{i}(int a, int b) {{", f"    int t = a + {draw(10)};", f"    g{draw(4)} = t;"]
        if i > 1:
            lines.append(f"    t = f{1 + draw(i - 1)}(t, g{draw(4)});")
        lines += [f"    b = b + g{draw(4)};", f"    return {'b' if draw(2) else 't'};", "}"]
    lines += ["int main(void) {", f"    int r = f{size}(1, 2);", '    printf("%d\\n", r);', "}"]
    return "".join(line + "\n" for line in lines)


def big(seed, size):
    program = read_program(big_text(seed, size).encode())
    slicer = Slicer(program)
    line = program.statements[-1][0].line
    return (f"functions {len(program.functions)} statements {len(program.statements)} vertices {len(slicer.graph.vertices)} "
            f"kept {len(slicer.kept(line))} bytes {len(slicer.text(line))}\n")


def answer(words, texts):
    """What a command writes, over these texts by their names."""
    command, *rest = words
    if command == "big":
        return big(int(rest[0]), int(rest[1]))
    program = read_program(texts[rest[0]])
    others, options = rest[1:], {}
    while len(others) > 1 and others[-2].startswith("--"):
        options[others[-2]] = others[-1]
        others = others[:-2]
    text, most = texts.get(options.get("--input", ""), b""), int(options.get("--steps", MOST))
    if command in ("slice", "lines"):
        return (slice_ if command == "slice" else lines_)(program, others)
    if command == "run":
        return run_(program, text, most)
    if command == "trace":
        return trace_(program, others, text, most)
    with_lines = {"members": members_, "kept": kept_, "forward": forward_, "chop": chop_}
    if command in with_lines:
        return with_lines[command](program, *others)
    if command == "layout":
        return layout(program)
    simple = {"graph": graph_, "points": points_, "facts": facts_, "effects": effects_, "counts": counts_}
    return simple[command](program)
