"""Random programs of ordinary C, free of undefined acts and of what depends on an order that C leaves open.

Values stay small: an expression comes with a bound on how large its value can be, and a remainder is taken before it grows too large. In
one full expression no variable is changed twice, or read where it is changed; what touches globals stands in it once. Loops count on
variables of their own, and functions call those above them.
"""
import re

VALUES = 100000
LARGEST = 200000000
HEAD = """#include <stdio.h>
#include <stdlib.h>
#include <stdbool.h>
#include <string.h>
#include <ctype.h>
#define LOW 2
#define SMALL(x) ((x) & 7)
#define LARGER(a, b) ((a) > (b) ? (a) : (b))
enum mode { OFF, ON = 3, AUTO };
typedef struct point { int x, y; int v[3]; } point;
struct line { point a, b; bool is_drawn; };
static int g0 = 1, g1 = LOW, table[8] = { 4, 5, [6] = 9 };
static unsigned gu = 7;
point gp = { 1, 2, { 3 } };
int *at = &table[2];
const char *words[] = { "alpha", "be", "gamma" };
static int grid[3][4] = { { 1, 2 }, { [3] = 5 } };
static const char text[] = "some text";
static int length(const char *s) { int n = 0; while (*s++) n++; return n; }
static point moved(point p, int d) { p.x += d % 100; p.v[1] = d; return p; }
static int weight(point p) { return p.x % 1000 + p.y % 1000 * 2 + p.v[SMALL(p.x) % 3] % 1000; }
static int sum_of(int m[][4], int rows) {
    int s = 0;
    for (int i = 0; i < rows; i++) for (int j = 0; j < 4; j++) s += m[i][j];
    return s % 1000;
}
static int ticks(void) { static int n = 5; static unsigned char c; c += 100; return n++ % 50 + c; }
"""


class Scope:
    """What one full expression has used: names that it changed or read, and whether it touched globals."""

    def __init__(self):
        self.changed = set()
        self.read = set()
        self.is_global = False


class Generator:
    """Makes one program; the names that it may use stand in `vars`, and those that it may only read in `counters`."""

    def __init__(self, r):
        self.r = r
        self.lines = []
        self.depth = 0
        self.names = 0
        self.functions = []
        self.vars = []
        self.counters = []
        self.loops = 0
        self.in_switch = False
        self.left = 0

    # text

    def put(self, words):
        self.lines.append("    " * self.depth + words)

    def fresh(self, stem):
        self.names += 1
        return f"{stem}{self.names}"

    def some(self, *choices):
        return self.r.choice(choices)()

    # expressions: a text and a bound

    def small(self, e, most=1000):
        words, bound = e
        return (words, bound) if bound <= most else (f"({words}) % {most}", most)

    def leaf(self, s):
        names = [v for v in self.vars + self.counters if v not in s.changed]
        kind = self.r.randrange(10)
        if kind < 6 and names:
            name = self.r.choice(names)
            s.read.add(name)
            return name, VALUES
        if kind == 6:
            return self.r.choice([("LOW", 2), ("AUTO", 4), ("'a'", 97), ("sizeof(int) > 3", 1), ("(int)sizeof(point)", 20)])
        if kind == 7 and not s.is_global:
            s.is_global = True
            return self.r.choice([("g0", VALUES), ("table[SMALL(g1)]", VALUES), ("gp.y", VALUES), ("at[1]", VALUES), ("*at", VALUES),
                                  ("(int)(gu % 100)", 100), ("grid[1][g1 & 3]", VALUES), ("gp.v[2]", VALUES)])
        number = self.r.randrange(-9, 60)
        return str(number), abs(number)

    def expr(self, s, depth=3):
        if depth == 0:
            return self.leaf(s)
        kind = self.r.randrange(16)
        if kind < 4:
            return self.leaf(s)
        if kind < 9:
            return self.binary(s, depth)
        if kind == 9:
            a = self.expr(s, depth - 1)
            return f"{self.r.choice(['-', '!', '~', '(char)', '(bool)'])}({a[0]})", a[1] + 129
        if kind == 10:
            parts = [self.expr(s, depth - 1) for _ in range(3)]
            return f"({parts[0][0]} ? {parts[1][0]} : {parts[2][0]})", max(parts[1][1], parts[2][1])
        if kind == 11:
            a, b = self.expr(s, depth - 1), self.expr(s, depth - 1)
            return f"(({a[0]}) {self.r.choice(['&&', '||'])} ({b[0]}))", 1
        return self.effect(s, depth)

    def binary(self, s, depth):
        a, b = self.expr(s, depth - 1), self.expr(s, depth - 1)
        op = self.r.choice(["+", "-", "*", "/", "%", "&", "|", "^", "<", "==", "<<", ">>", ">=", "!="])
        if op == "*":
            a, b = self.small(a, 1000), self.small(b, 100)
            return f"({a[0]}) * ({b[0]})", a[1] * b[1]
        if op in "/%":
            return f"({a[0]}) {op} (SMALL({b[0]}) + 1)" if not self.changes(b[0]) else f"({a[0]}) {op} 3", a[1]
        if op in ("<<", ">>"):
            return f"(({a[0]}) & 255) {op} {self.r.randrange(4)}", 2048
        if op in "&|^":
            return f"(({a[0]}) {op} ({b[0]}))", 2 * max(a[1], b[1]) + 1
        if op in "+-":
            a, b = self.small(a, LARGEST), self.small(b, LARGEST)
            return f"({a[0]}) {op} ({b[0]})", a[1] + b[1]
        return f"(({a[0]}) {op} ({b[0]}))", 1

    @staticmethod
    def changes(words):
        """Whether a text, which a macro may repeat, does something."""
        return "++" in words or "--" in words or re.search(r"[^=!<>]= ", words) or ("f" in words and "(" in words)

    def effect(self, s, depth):
        free = [v for v in self.vars if v not in s.changed and v not in s.read]
        kind = self.r.randrange(7)
        if kind < 2 and free:
            name = self.r.choice(free)
            s.changed.add(name)
            return self.r.choice([(f"{name}++", VALUES), (f"--{name}", VALUES), (f"++{name}", VALUES), (f"{name}--", VALUES)])
        if kind == 2 and free:
            name = self.r.choice(free)
            s.changed.add(name)
            value = self.small(self.expr(s, depth - 1))
            return f"({name} = {value[0]})", 1000
        if kind == 3 and self.functions:
            return self.call(s, depth)
        if kind == 4 and not s.is_global:
            s.is_global = True
            return self.r.choice([("ticks()", 400), ("g0++ % 100", 100), ("(gp = moved(gp, 3)).x % 100", 100), ("moved(gp, 2).v[1]", 10),
                                  ("(*at)++ % 9", 9), ("weight(moved(gp, 1))", 5000), ("sum_of(grid, 2)", 1000)])
        if kind == 5:
            return self.r.choice([("length(\"literal\")", 7), ("\"hex\"[1]", 127), ("length(words[1])", 9), ("(int)strlen(text)", 20),
                                  ("abs(-4)", 4), ("toupper('x')", 127), ("(isdigit('7') != 0)", 1)])
        if kind == 6 and free:
            name = self.r.choice(free)
            s.changed.add(name)
            return f"({name} += 2, {name} % 10)", 10
        return self.leaf(s)

    def call(self, s, depth):
        name, count, is_pure = self.r.choice(self.functions)
        if not is_pure:
            if s.is_global:
                return self.leaf(s)
            s.is_global = True
        args = ", ".join(self.small(self.expr(s, depth - 1))[0] for _ in range(count))
        return f"{name}({args})", 1000

    def full(self, most=1000, depth=3):
        return self.small(self.expr(Scope(), depth), most)[0]

    def test(self):
        """A test whose operands are sequenced, so that each may do what it wants."""
        op = self.r.choice(["&&", "||", "&&", "?", ","])
        a, b = self.full(depth=2), self.full(depth=2)
        if self.r.randrange(3) == 0:
            return a
        if op == "?":
            return f"({a}) ? ({b}) : ({self.full(depth=1)})"
        return f"({a}) {op} ({b})" if op != "," else f"({a}), ({b}) > 3"

    # statements

    def block(self, count):
        self.depth += 1
        known, counters = len(self.vars), len(self.counters)
        for _ in range(count):
            self.statement()
        del self.vars[known:], self.counters[counters:]
        self.depth -= 1

    def statement(self):
        self.left -= 1
        if self.left < 0 or self.depth > 5:
            self.assign()
            return
        self.some(self.assign, self.assign, self.declare, self.if_, self.if_, self.while_, self.for_, self.do_, self.switch_, self.jump,
                  self.show, self.shadow, self.structs, self.evaluate, self.pointers)

    def assign(self):
        if not self.vars:
            self.declare()
            return
        name = self.r.choice(self.vars)
        s = Scope()
        s.changed.add(name)
        value = self.small(self.expr(s), 1000)[0]
        others = [v for v in self.vars if v not in s.changed and v not in s.read]
        if others and self.r.randrange(4) == 0:
            self.put(f"{name} = {self.r.choice(others)} = {value};")
        elif self.r.randrange(4) == 0:
            self.put(f"{name} {self.r.choice(['+=', '-=', '^='])} ({value}) % 16;")
            self.put(f"{name} %= 1000;")
        elif self.r.randrange(5) == 0 and not s.is_global:
            self.put(self.r.choice([f"g0 = {value};", f"table[LOW] = {value};", f"gp.v[1] = {value};", f"grid[2][1] = {value};",
                                    f"gu += {value};", f"*at = {value};"]))
        else:
            self.put(f"{name} = {value};")

    def declare(self):
        name = self.fresh("v")
        kind = self.r.choice(["int", "int", "long", "short", "register int", "const int", "bool", "static int", "enum mode"])
        if kind == "static int":
            self.put(f"static int {name} = {self.r.randrange(9)};")
            self.put(f"{name} = ({name} + 1) % 100;")
        elif kind == "enum mode":
            self.put(f"enum mode {name} = ON;")
        else:
            self.put(f"{kind} {name} = {self.full()};")
        if kind in ("int", "long", "short", "register int", "static int") and kind != "long":
            self.vars.append(name)
        elif kind in ("bool", "const int", "enum mode"):
            self.counters.append(name)

    def if_(self):
        self.put(f"if ({self.test()})" + " {")
        known = len(self.counters)
        self.block(self.r.randrange(1, 4))
        del self.counters[known:]
        if self.r.randrange(2):
            self.put("} else {")
            self.block(self.r.randrange(1, 3))
            del self.counters[known:]
        self.put("}")

    def looped(self, head, tail="}"):
        self.put(head)
        known = len(self.counters)
        self.loops, saved, self.in_switch, inside = self.loops + 1, self.loops, False, self.in_switch
        self.block(self.r.randrange(1, 5))
        self.loops, self.in_switch = saved, inside
        del self.counters[known:]
        self.put(tail)

    def while_(self):
        if self.loops > 1:
            self.assign()
            return
        k = self.fresh("k")
        self.put(f"int {k} = 0;")
        self.counters.append(k)
        kind = self.r.randrange(3)
        if kind == 0:
            c = self.fresh("c")
            self.put(f"int {c};")
            self.looped(f"while (({c} = getchar()) != EOF && {k}++ < 6) {{")
        elif kind == 1:
            self.looped(f"while ({k}++ < {self.r.randrange(1, 6)} && ({self.test()})) {{")
        else:
            self.looped(f"while (1) {{ if (++{k} > {self.r.randrange(1, 5)}) break;")

    def for_(self):
        if self.loops > 1:
            self.assign()
            return
        i = self.fresh("i")
        most = self.r.randrange(1, 6)
        self.counters.append(i)
        kind = self.r.randrange(4)
        if kind == 0:
            self.looped(f"for (int {i} = 0; {i} < {most}; {i}++) {{")
        elif kind == 1:
            j = self.fresh("j")
            self.looped(f"for (int {i} = 0, {j} = 9; {i} < {j} && {i} < {most}; {i}++, {j} -= 2) {{")
        elif kind == 2:
            self.put(f"int {i};")
            self.looped(f"for ({i} = {most}; {i}-- > 0; ) {{")
            self.counters.append(i)
            return
        else:
            self.put(f"int {i} = 0;")
            self.looped(f"for (;; {i} += 1) {{ if ({i} > {most}) break;")
            self.counters.append(i)
            return
        self.counters.remove(i)

    def do_(self):
        if self.loops > 1:
            self.assign()
            return
        k = self.fresh("k")
        self.put(f"int {k} = 0;")
        self.counters.append(k)
        self.looped("do {", f"}} while (++{k} < {self.r.randrange(1, 5)} && ({self.full(depth=2)}) != 3);")

    def switch_(self):
        self.put(f"switch (({self.full(depth=2)}) & 7) {{")
        labels = self.r.sample(range(8), self.r.randrange(1, 5)) + ([None] if self.r.randrange(3) else [])
        self.r.shuffle(labels)
        saved, self.in_switch = self.in_switch, True
        known, counters = len(self.vars), len(self.counters)
        for label in labels:
            self.put("default:" if label is None else f"case {label}:" if label != 3 else "case ON:")
            if self.r.randrange(4) == 0:
                continue
            is_braced = self.r.randrange(2)
            if is_braced:
                self.put("{")
            self.block_of_arm(self.r.randrange(1, 3))
            if self.r.randrange(3):
                self.depth += 1
                self.put("break;")
                self.depth -= 1
            if is_braced:
                self.put("}")
            del self.vars[known:], self.counters[counters:]
        self.put("    ;")
        self.put("}")
        self.in_switch = saved

    def block_of_arm(self, count):
        """Statements of an arm; a declaration stands in braces, so that no jump to a label passes it."""
        self.depth += 1
        self.put("{")
        self.block(count)
        self.put("}")
        self.depth -= 1

    def jump(self):
        test = self.full(depth=2)
        jumps = ["return " + self.full() + ";"] if self.is_value else ["return;"]
        if self.loops:
            jumps += ["continue;", "continue;", "break;"]
        if self.in_switch:
            jumps += ["break;", "break;"]
        self.put(f"if ({test})")
        self.depth += 1
        self.put(self.r.choice(jumps))
        self.depth -= 1

    def show(self):
        s = Scope()
        a = self.expr(s)[0]
        b = self.leaf(s)[0]
        self.put(self.r.choice([f'printf("%d %d\\n", (int)({a}), {b});', f'printf("%s=%d%%\\n", "a", (int)({a}));', f'puts("line");',
                                f"putchar('a' + ((int)({a}) & 15));", 'printf("%c%s\\n", 65, "x" "y");']))

    def shadow(self):
        if not self.vars:
            return
        name = self.r.choice(self.vars)
        self.put(f"{{ int {name} = {self.r.randrange(50)};")
        self.block(2)
        self.put("}")

    def structs(self):
        p, q = self.fresh("p"), self.fresh("q")
        self.put(f"point {p} = {{ {self.full(depth=1)}, .v = {{ 1, {self.full(depth=1)} }} }}, {q};")
        self.put(f"{q} = {p};")
        self.put(self.r.choice([f"{q} = moved({p}, {self.full(depth=1)});", f"{q}.v[2] = weight({p});", f"gp = {q};",
                                f"struct line l{p} = {{ {p}, {{ 1 }}, 5 }}; {q} = l{p}.a; {q}.x += l{p}.is_drawn;",
                                f"{p} = {q} = moved(moved({q}, 1), 2);", f"point *r{p} = &{p}; *r{p} = {q}; r{p}->x++;"]))
        if self.vars:
            self.put(f"{self.r.choice(self.vars)} = (weight({q}) + {p}.v[1] % 1000) % 1000;")

    def evaluate(self):
        self.put(self.r.choice([f"(void)({self.full()});", f"({self.full(depth=2)}) && ({self.full(depth=2)});", "ticks();",
                                f"({self.full(depth=2)}) ? ticks() : ({self.full(depth=1)});", f"{self.full()};"]))

    def pointers(self):
        a, p = self.fresh("a"), self.fresh("p")
        self.put(f"int {a}[4] = {{ {self.full(depth=1)}, {self.full(depth=2)} }}, *{p} = {a};")
        self.put(self.r.choice([f"*{p}++ = 3; *{p} += 1;", f"while ({p} < {a} + 4) *{p}++ %= 10;", f"*++{p} = 7 - *{a};",
                                f"{p} = {a} + 3; do {{ *{p} = 1; }} while ({p}-- > {a} + 1);", f"memset({a}, 0, sizeof {a}); {p}[1]++;",
                                f"for (; {p} != {a} + 4; {p}++) {{ if (*{p} == 2) continue; if (*{p} > 900) break; *{p} = 5; }}"]))
        if self.vars:
            self.put(f"{self.r.choice(self.vars)} = ({a}[0] + {a}[1] + {a}[3]) % 1000;")

    # functions

    def function(self, name):
        count, is_pure = self.r.randrange(0, 3), False
        params = [self.fresh("a") for _ in range(count)]
        self.is_value = self.r.randrange(4) > 0
        self.put(f"static {'int' if self.is_value else 'void'} {name}({', '.join('int ' + p for p in params) or 'void'}) {{")
        self.body(params, self.r.randrange(3, 9))
        self.put("}")
        if self.is_value:
            self.functions.append((name, count, is_pure))

    def body(self, params, count):
        self.vars, self.counters, self.left = list(params), [], 12
        self.depth = 1
        for _ in range(count):
            self.statement()
        if self.is_value:
            self.put(f"return {self.full()};")
        self.depth = 0

    def program(self):
        self.lines = HEAD.split("\n")[:-1]
        for k in range(self.r.randrange(1, 4)):
            self.function(f"f{k}")
        self.is_value = True
        self.put("int main(int argc, char *argv[]) {")
        self.body([], 8)
        self.lines[-1:] = ['    printf("%d %d %d %u %d\\n", g0, table[2], gp.x, gu, grid[2][1]);', "    return g1 & 63;"]
        self.put("}")
        return "\n".join(self.lines) + "\n"


def ordinary_program(r):
    """The text of a random program."""
    return Generator(r).program()
