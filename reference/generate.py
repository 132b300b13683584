"""Random accepted programs of a size and a seed, which mostly end without an undefined act.

A kind is mains (main alone over integers, any control flow), calls (functions, globals, recursion by a counter, getchar) or memory
(pointers, arrays, structs, malloc and free besides). Names are fresh throughout. Loops have counters that nothing else stores into,
and a function calls others with a smaller first argument, so that runs end. Stored values are kept small.
"""
from generate_expr import SPELLINGS, TYPES, ExprGenerator
from integers import BITS, INT


class Generator(ExprGenerator):
    """Writes a main over integers."""

    # statements

    def statements(self, count):
        for _ in range(count):
            if self.left > 0:
                self.left -= 1
                self.statement()

    def simple_forms(self):
        return [(22, self.assign), (12, self.declare), (8, self.compound), (5, self.bump), (9, self.print), (4, self.putchar)]

    def forms(self):
        found = self.simple_forms() + [(1, self.nothing)]
        if self.level < 5:
            found += [(9, self.if_), (3, self.switch), (2, self.block)]
            if self.loops < 3:
                found += [(4, self.while_), (3, self.do), (5, self.for_)]
        return found

    def statement(self):
        forms = self.forms()
        at = self.below(sum(weight for weight, _ in forms))
        for weight, form in forms:
            if at < weight:
                return form()
            at -= weight
        return None

    def place(self):
        found = self.places + self.write_only
        text, t = self.pick(self.places[-8:] if self.chance(50) else found)
        text = self.filled(text)
        return (f"({text})" if self.chance(3) else text), t

    def assign(self):
        if not self.places:
            return self.declare()
        if self.reads_input and self.chance(12):
            return self.put(f"{self.place()[0]} = getchar();")
        return self.put(f"{self.place()[0]} = {self.bounded()[0]};")

    def compound(self):
        if not self.places:
            return self.declare()
        text, _ = self.place()
        op = self.pick(["+=", "-=", "&=", "|=", "^=", "+=", "%=", "/=", ">>=", "*=", "<<="])
        if op in ("%=", "/="):
            return self.put(f"{text} {op} {self.operation('+', self.small(self.leaf(), 7), self.number(1))[0]};")
        if op in (">>=", "*=", "<<="):
            if op == "<<=":
                self.put(f"{text} &= 15;")
            return self.put(f"{text} {op} {self.below(3)};")
        return self.put(f"{text} {op} {self.operation('%', self.expr(1), self.number(13))[0]};")

    def bump_words(self):
        text, op = self.place()[0], self.pick(["++", "--"])
        return op + text if self.chance(40) or text[0] == "*" else text + op

    def bump(self):
        return self.put(self.bump_words() + ";") if self.places else self.declare()

    def declare(self):
        t = self.pick(TYPES)
        names = [self.fresh("v") for _ in range(1 if self.chance(80) else 2)]
        parts = [f"{name} = {self.bounded()[0]}" for name in names]
        if self.chance(12):
            self.put(f"{self.pick(SPELLINGS[t])} {names[0]};")
            self.put(f"{parts[0]};")
            names = names[:1]
        elif self.reads_input and self.chance(12):
            names = names[:1]
            self.put(f"{self.pick(SPELLINGS[t])} {names[0]} = getchar();")
        else:
            self.put(f"{self.pick(SPELLINGS[t])} {', '.join(parts)};")
        self.places += [(name, t) for name in names]

    def print(self):
        parts, args = [], []
        for _ in range(1 if self.chance(80) else 2):
            text, t, _ = self.expr(1)
            letters = ["d", "u", "x"] if BITS[t] == 64 else ["d", "d", "d", "u", "x", "c"]
            parts.append("%" + ("l" if BITS[t] == 64 else "") + self.pick(letters))
            args.append(text)
        self.put(f'printf("{" ".join(parts)}{self.pick([chr(92) + "n", "%%" + chr(92) + "n", ""])}", {", ".join(args)});')

    def putchar(self):
        self.put(f"putchar({self.expr(1)[0]});")

    def nothing(self):
        self.put(";")

    def inside(self, count):
        """A body in braces; what it declares is gone behind it."""
        marks = self.marks()
        self.level += 1
        self.statements(count)
        self.level -= 1
        self.forget(marks)

    def scopes(self):
        """The lists that a block takes back at its end."""
        return [self.places, self.readable, self.counters]

    def marks(self):
        return [len(found) for found in self.scopes()]

    def forget(self, marks):
        for found, mark in zip(self.scopes(), marks):
            del found[mark:]

    def body(self, head, count=None, last=()):
        """A head with its body, in braces, and last lines of the body."""
        self.put(head + " {")
        self.inside(1 + self.below(4) if count is None else count)
        self.level += 1
        for line in last:
            self.put(line)
        self.level -= 1

    def close(self, end="}"):
        self.lines.append("    " * self.level + end)

    def if_(self):
        test = self.test()[0]
        if self.places and self.chance(20):
            self.put(f"if ({test})")
            self.lines.append("    " * (self.level + 1) + f"{self.place()[0]} = {self.bounded()[0]};")
            return
        self.body(f"if ({test})")
        while self.chance(15):
            self.close(f"}} else if ({self.test()[0]}) {{")
            self.inside(1 + self.below(2))
        if self.chance(40):
            self.close("} else {")
            self.inside(self.below(3))
        self.close()

    def block(self):
        self.bare_block(1 + self.below(4))

    def bare_block(self, count):
        self.put("{")
        self.inside(count)
        self.close()

    def counter(self):
        self.loops += 1
        return self.fresh("i"), 1 + self.below(3)

    def counted(self, name, bound):
        self.counters.append((name, bound))

    def while_(self):
        name, bound = self.counter()
        self.put(f"int {name} = 0;")
        self.counted(name, bound)
        rest = f" && {self.test()[0]}" if self.chance(25) else ""
        self.body(f"while ({name} < {bound}{rest})", last=[self.pick([f"{name}++;", f"{name} = {name} + 1;", f"++{name};"])])
        self.close()
        self.end_loop(name)

    def do(self):
        name, bound = self.counter()
        self.put(f"int {name} = 0;")
        self.counted(name, bound)
        self.body("do", last=[self.pick([f"{name}++;", f"{name} += 1;"])])
        self.close(f"}} while ({name} < {bound});")
        self.end_loop(name)

    def end_loop(self, name):
        """Behind its loop a counter is a variable that may be read."""
        self.loops -= 1
        self.counters[:] = [found for found in self.counters if found[0] != name]
        self.readable.append((name, INT))

    def for_(self):
        if self.chance(10):
            return self.for_with_declaration()
        name, bound = self.counter()
        kind = self.below(4)
        if kind:
            self.counted(name, bound)
        if kind == 0:
            self.put(f"int {name};")
            head = f"for ({name} = {bound}; {name}; {name}--)"
        elif kind == 1:
            self.put(f"int {name} = 0;")
            head = f"for (; {name} < {bound}; {name}++)"
        elif kind == 2:
            head = f"for (int {name} = 0; {name} < {bound}; ++{name})"
        else:
            self.put(f"int {name} = 0;")
            return self.for_of(name, bound)
        self.body(head)
        self.close()
        self.end_loop(name)
        if kind == 2:
            self.readable.pop()
        return None

    def init_words(self):
        return f"{self.place()[0]} = {self.bounded()[0]}" if self.places else ""

    def step_words(self):
        return self.bump_words() if self.places else ""

    def for_of(self, name, bound):
        """A for whose init and step aren't those of its counter."""
        self.put(f"for ({self.init_words()}; {name} < {bound}; {self.step_words()}) {{")
        self.inside(1 + self.below(3))
        self.lines.append("    " * (self.level + 1) + f"{name}++;")
        self.close()
        return self.end_loop(name)

    def for_with_declaration(self):
        """A for that declares a variable without a value."""
        name, bound = self.counter()
        own = self.fresh("v")
        self.put(f"int {name} = 0;")
        self.put(f"for (int {own}; {name} < {bound}; {name}++) {{")
        self.lines.append("    " * (self.level + 1) + f"{own} = {self.bounded()[0]};")
        self.places.append((own, INT))
        self.inside(1 + self.below(3))
        self.places.pop()
        self.close()
        return self.end_loop(name)

    def switch(self):
        labels = self.random.sample(range(6), 2 + self.below(3))
        self.put(f"switch ({self.operation('%', self.expr(1), self.number(4))[0]}) {{")
        default_at = self.below(len(labels)) if self.chance(60) else -1
        for number, label in enumerate(labels):
            if number == default_at:
                self.put("default:")
            if number != default_at or self.chance(30):
                self.put(f"case {label}:")
            self.level += 1
            self.arm()
            self.level -= 1
            if number < len(labels) - 1 or self.chance(70):
                self.put("    break;")
        self.close()

    def arm(self):
        """The statements of an arm, none of which declares."""
        for _ in range(1 + self.below(2)):
            if self.chance(20):
                self.bare_block(1)
            elif self.places:
                self.lines.append("    " * self.level + f"{self.place()[0]} = {self.bounded()[0]};")
            else:
                self.lines.append("    " * self.level + ";")

    # items

    def program(self):
        self.lines.append("#include <stdio.h>")
        self.main()
        return self.text()

    def main(self):
        self.put("int main(void) {")
        self.inside_main()
        self.lines.append("}")

    def inside_main(self):
        self.level = 1
        for _ in range(2):
            self.declare()
        while self.left > 0:
            self.statements(1)
        self.print()
        if self.chance(50):
            self.put(f"return {self.leaf()[0]};")
        self.level = 0

