"""Texts that several scripts of this folder measure the slicer on."""

MAIN = "int main(void) {\n    int x = 1;\n}\n"


def main_of(lines):
    """Main with these statements and declarations, a line each."""
    return "".join(["int main(void) {\n", *(f"    {line}\n" for line in lines), "}\n"])


def declaring(globals_):
    """So many globals."""
    return "".join(f"int g{k};\n" for k in range(globals_))


def shift(size):
    """A function that calls itself and moves so many globals by one: each step of it gives facts of one more move."""
    moves = "".join(f"    g{k} = g{k + 1};\n" for k in range(size - 1))
    return declaring(size) + f"void f(void) {{\n    if (g0 > 0) {{\n        f();\n    }}\n{moves}}}\n" + MAIN


def ladder(size):
    """So many functions of three parameters, each of which updates four globals from them and calls the one before it twice."""
    lines = ["#include <stdio.h>"] + [f"int g{k};" for k in range(4)]
    for k in range(1, size + 1):
        lines += [f"void f{k}(int a, int b, int c) {{", "    g0 = g0 + a;", "    g1 = g1 + b;", "    g2 = g2 + c;", "    g3 = g3 + g0;"]
        lines += [f"    f{k - 1}(b, c, a);", f"    f{k - 1}(c, a, b);"] if k > 1 else []
        lines.append("}")
    lines += ["int main(void) {", "    int x = 1;", f"    f{size}(x, 2, 3);", '    printf("%d\\n", g3);', "}"]
    return "".join(line + "\n" for line in lines)


def web(functions=150, globals_=64):
    """Functions without parameters in one circle of calls: each has eight assignments of a sum of two globals and two calls, one of
    them under an if."""
    heads = [f"void f{k}(void)" for k in range(functions)]
    lines = [f"{head};" for head in heads]
    for k, head in enumerate(heads):
        sums = [(11 * k + 7 * j, 5 * k + 3 * j + 1, 13 * k + 17 * j + 2) for j in range(8)]
        lines += [f"{head} {{"] + [f"    g{a % globals_} = g{b % globals_} + g{c % globals_};" for a, b, c in sums]
        lines += [f"    f{(k + 1) % functions}();", f"    if (g{k % globals_} > 0) {{", f"        f{(k + 37) % functions}();", "    }", "}"]
    return declaring(globals_) + "".join(f"{line}\n" for line in lines) + main_of(["f0();", "g0 = 1;"])


def circle(functions=15, moved=60):
    """Functions that call each other in a circle, each of which moves so many globals of its own by one: each round of the facts gives
    one more step of each move."""
    heads = [f"void f{k}(void)" for k in range(functions)]
    lines = [f"{head};" for head in heads]
    for k, head in enumerate(heads):
        first = k * moved
        lines += [f"{head} {{", f"    if (g{first} > 0) {{", f"        f{(k + 1) % functions}();", "    }"]
        lines += [f"    g{first + j} = g{first + j + 1};" for j in range(moved - 1)] + ["}"]
    return declaring(functions * moved) + "".join(f"{line}\n" for line in lines) + main_of(["int x = 1;"])
