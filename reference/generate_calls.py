"""Random programs with functions, globals and recursion by a counter."""
from dataclasses import dataclass
from typing import Any

from generate import Generator
from generate_expr import SPELLINGS, TYPES
from integers import CHAR, INT


@dataclass
class Signature:
    """A function: its first parameter, not among these, is the counter; types are those of the language's words, or None for void."""
    name: str
    result: Any
    params: list
    is_static: bool


class CallGenerator(Generator):
    """Writes functions that call one another, and a main that calls them."""

    def __init__(self, seed, size):
        super().__init__(seed, size, reads_input=True)
        self.functions = []
        self.current, self.last = None, None

    # calls

    def type_words(self, t, name=""):
        """A type with the name that it declares; compilers keep char and signed char apart, the language doesn't."""
        words = CHAR if t == CHAR else self.pick(SPELLINGS[t])
        return f"{words} {name}" if name else words

    def argument(self, t):
        return self.bounded()[0] if self.chance(40) else self.leaf()[0]

    def call_words(self, f, counter):
        return f"{f.name}({', '.join([counter] + [self.argument(t) for t in f.params])})"

    def called(self, f, counter):
        """A call of a function with a counter, with its result or without it."""
        words = self.call_words(f, counter)
        if f.result is None or self.chance(15):
            return self.put(f"{words};")
        if self.places and self.chance(60):
            return self.put(f"{self.place()[0]} = {words};")
        name, t = self.fresh("v"), self.pick(TYPES)
        self.put(f"{self.type_words(t, name)} = {words};")
        return self.places.append((name, t))

    def call(self):
        """Main calls any function; a function calls those before it, and all of them with a smaller counter."""
        if not self.functions:
            return self.assign()
        if self.current is None:
            if self.last is None or self.chance(50):
                self.last = self.pick(self.functions)
            return self.called(self.last, str(self.below(3)))
        lower = self.functions[:self.functions.index(self.current)]
        if lower and self.chance(35):
            return self.called(self.pick(lower), str(self.below(2)))
        self.put(f"if ({self.pick(['n > 0', '0 < n', 'n'])}) {{")
        marks = self.marks()
        self.level += 1
        self.called(self.pick(self.functions), self.pick(["n - 1", "n - 1", "n / 2"]))
        self.statements(self.below(2))
        self.level -= 1
        self.forget(marks)
        return self.close()

    def plain_call(self):
        """A call of a function before this one, as the init or the step of a for, or nothing."""
        lower = self.functions if self.current is None else self.functions[:self.functions.index(self.current)]
        lower = [f for f in lower if not isinstance(f.result, tuple)]
        if not lower or self.loops > 2:
            return None
        f = self.pick(lower)
        words = self.call_words(f, "0")
        return f"{self.place()[0]} = {words}" if f.result and self.chance(60) else words

    def init_words(self):
        return self.chance(30) and self.plain_call() or super().init_words()

    def step_words(self):
        return self.chance(30) and self.plain_call() or super().step_words()

    def read_loop(self):
        """A loop over the rest of the input."""
        name = self.fresh("c")
        self.put(f"int {name} = getchar();")
        self.readable.append((name, INT))
        self.loops += 1
        self.put(f"while ({name} {self.pick(['!= EOF', '>= 0', '!= -1'])}) {{")
        self.inside(1 + self.below(3))
        self.lines.append("    " * (self.level + 1) + f"{name} = getchar();")
        self.close()
        self.loops -= 1

    def skip(self):
        self.put("getchar();")

    def simple_forms(self):
        forms = super().simple_forms() + [(1, self.skip)]
        if self.loops < 2:
            forms.append((24, self.call))
        if self.loops == 0 and self.level < 3:
            forms.append((2, self.read_loop))
        return forms

    # items

    def signature(self, number):
        result = None if self.chance(25) else self.pick(TYPES)
        return Signature(f"f{number}", result, [self.pick(TYPES) for _ in range(self.below(4))], self.chance(15))

    def head(self, f, names):
        params = ["int" if name is None else f"int {name}" for name in names[:1]]
        params += [self.type_words(t, name or "") for t, name in zip(f.params, names[1:])]
        result = f"void {f.name}" if f.result is None else self.type_words(f.result, f.name)
        return f"{'static ' if f.is_static else ''}{result}({', '.join(params)})"

    def prototype(self, f):
        names = [None if self.chance(30) else self.fresh("q") for _ in range(len(f.params) + 1)]
        self.lines.append(self.head(f, names) + ";")

    def add_parameter(self, name, t):
        self.places.append((name, t))

    def returned(self, t):
        return self.bounded()[0]

    def see_some(self):
        """A function reads and stores into some of the globals, and only stores into others; gives all of them."""
        all_places = list(self.places)
        kinds = [(place, self.below(10)) for place in all_places]
        self.places[:] = [place for place, kind in kinds if kind < 5]
        self.write_only[:] = [place for place, kind in kinds if 5 <= kind < 8]
        return all_places

    def function(self, f, count):
        all_places = self.see_some()
        names = ["n"] + [self.fresh("a") for _ in f.params]
        self.lines.append(self.head(f, names) + " {")
        marks = self.marks()
        self.current, self.level, self.left = f, 1, count
        self.counters.append(("n", 4))
        for name, t in zip(names[1:], f.params):
            self.add_parameter(name, t)
        while self.left > 0:
            self.statements(1)
        if f.result is not None:
            self.put(f"return {self.returned(f.result)};")
        elif self.chance(10):
            self.put("return;")
        self.level, self.current = 0, None
        self.lines.append("}")
        self.forget(marks)
        self.places[:], self.write_only[:] = all_places, []

    def global_(self):
        name, t = self.fresh("g"), self.pick(TYPES)
        init = "" if self.chance(50) else f" = {self.pick(['-', ''])}{self.constant()[0]}"
        self.lines.append(f"{'static ' if self.chance(20) else ''}{self.type_words(t, name)}{init};")
        self.places.append((name, t))

    def begin(self):
        """What stands before the functions."""
        self.lines.append("#include <stdio.h>")
        for _ in range(1 + self.below(4)):
            self.global_()

    def program(self):
        self.begin()
        count = 1 + self.below(4)
        self.functions = [self.signature(number) for number in range(1, count + 1)]
        for f in self.functions:
            self.prototype(f)
        share = self.left // (count + 1) + 1
        for f in self.random.sample(self.functions, count):
            self.function(f, 1 + self.below(2 * share))
        self.left = share + 4
        self.main()
        return self.text()


