"""Random programs with pointers, arrays, structs, malloc and free.

An address has a level, that of the block in which its object lives, so that a pointer is given only what lives at least as long.
"""
from generate_calls import CallGenerator
from generate_expr import ATOM
from integers import CHAR, INT, LONG

PAIR, NODE = "struct pair", "struct node"
POINTED = [INT, INT, INT, LONG, PAIR, PAIR, NODE]
STRUCTS = (PAIR, NODE)


class MemoryGenerator(CallGenerator):
    """Writes functions over integers, pointers, arrays and structs."""

    def __init__(self, seed, size):
        # safe addresses: (text, type, level); pointers that may be stored into, never null: (text, type, level);
        # pointers that may be null
        self.addresses, self.pointers, self.nullable = [], [], []
        super().__init__(seed, size)

    def scopes(self):
        return super().scopes() + [self.addresses, self.pointers, self.nullable]

    # types

    def pointer_type(self):
        return ("pointer", self.pick(POINTED))

    def type_words(self, t, name=""):
        if isinstance(t, tuple):
            return f"{self.type_words(t[1])} *{name}"
        if t in STRUCTS:
            return f"{t} {name}" if name else t
        return super().type_words(t, name)

    # addresses

    def address(self, t, level):
        """An address of an object of a type that lives at least as long as a block of a level, or NULL where there is none."""
        found = [text for text, shape, own in self.addresses if shape == t and own <= level]
        if not found:
            return None
        text = self.filled(self.pick(found[-5:] if self.chance(80) else found))
        if self.chance(4):
            return f"({text})"
        if self.chance(10):
            return f"{self.within(self.test(0), -1)} ? {text} : {self.filled(self.pick(found))}"
        return text

    def add_object(self, name, t, level):
        """An object by its name: its integers as places, and its addresses."""
        self.addresses.append((f"&{name}", t, level))
        if t in STRUCTS:
            self.add_members(name + ".", t, level)
        else:
            self.places.append((name, t))

    def add_members(self, prefix, t, level):
        """The members of a struct whose names begin so."""
        if t == PAIR:
            for member, shape in (("a", INT), ("b", LONG), ("arr[{3}]", INT)):
                self.places.append((prefix + member, shape))
            self.addresses += [(f"&{prefix}a", INT, level), (f"{prefix}arr", INT, level), (f"&{prefix}arr[{{3}}]", INT, level)]
        else:
            self.places += [(prefix + "val", INT), (prefix + "in.a", INT), (prefix + "in.b", LONG)]
            self.addresses += [(f"&{prefix}in", PAIR, level), (f"&{prefix}val", INT, level)]
            self.nullable += [(prefix + "next", NODE), (prefix + "at", INT)]

    def add_pointer(self, name, t, level):
        """A pointer that is never null."""
        self.pointers.append((name, t, level))
        self.addresses.append((name, t, level))
        if t in STRUCTS:
            self.add_members(f"{name}->" if self.chance(80) else f"(*{name}).", t, level)
        else:
            self.places.append((f"*{name}" if self.chance(80) else f"{name}[0]", t))

    def set_members(self, prefix, t):
        """Stores into each member of a struct."""
        lines = [f"{prefix}{member} = {self.bounded()[0]};" for member in (("a", "b") if t == PAIR else ("val", "in.a", "in.b"))]
        if t == PAIR:
            lines += [f"{prefix}arr[{k}] = {self.leaf()[0]};" for k in range(3)]
        else:
            lines.append(f"{prefix}next = {self.address(NODE, 0) or 'NULL' if self.chance(50) else 'NULL'};")
            lines.append(f"{prefix}at = {self.address(INT, 0) or '0' if self.chance(60) else 'NULL'};")
        for line in self.random.sample(lines, len(lines)):
            self.put(line)

    # statements

    def declare_struct(self):
        name, t = self.fresh("s"), self.pick(STRUCTS)
        self.put(f"{t} {name};")
        self.set_members(name + ".", t)
        self.add_object(name, t, self.level)

    def declare_array(self):
        name, length, t = self.fresh("r"), 2 + self.below(3), self.pick([INT, INT, LONG, CHAR])
        kind = self.below(4)
        if kind == 0:
            return self.declare_matrix(name)
        if kind == 1:
            items = [self.bounded()[0] for _ in range(1 + self.below(length))]
            words = self.pick([str(length), f"{length} * 1"])
            self.put(f"{t} {name}[{words}] = {{{', '.join(items)}{self.pick(['', ','])}}};")
        elif kind == 2:
            items = [self.leaf()[0] for _ in range(length)]
            self.put(f"{t} {name}[] = {{{', '.join(items)}}};")
        else:
            counter = self.fresh("i")
            self.put(f"{t} {name}[{length}];")
            self.put(f"for (int {counter} = 0; {counter} < {length}; {counter}++) {{")
            value = self.operation("+", (counter, INT, ATOM), self.leaf())[0]
            self.lines.append("    " * (self.level + 1) + f"{name}[{counter}] = {value};")
            self.close()
        self.places.append((f"{name}[{{{length}}}]", t))
        if self.chance(70):
            found = [name, f"&{name}[{{{length}}}]", f"{name} + {self.below(length)}"]
            self.addresses += [(text, t, self.level) for text in found]
        return None

    def declare_matrix(self, name):
        one, two = self.fresh("i"), self.fresh("i")
        self.put(f"int {name}[2][3];")
        self.put(f"for (int {one} = 0; {one} < 2; {one}++) {{")
        self.lines.append("    " * (self.level + 1) + f"for (int {two} = 0; {two} < 3; {two}++)")
        self.lines.append("    " * (self.level + 2) + f"{name}[{one}][{two}] = {self.bounded()[0]};")
        self.close()
        self.places.append((f"{name}[{{2}}][{{3}}]", INT))
        if self.chance(50):
            self.addresses += [(f"{name}[{{2}}]", INT, self.level), (f"&{name}[{{2}}][{{3}}]", INT, self.level)]

    def declare_object(self):
        """An integer whose address may be taken."""
        name, t = self.fresh("x"), self.pick([INT, INT, LONG])
        self.put(f"{t} {name} = {self.bounded()[0]};")
        self.add_object(name, t, self.level)

    def declare_pointer(self):
        name, t = self.fresh("p"), self.pick(POINTED)
        found = self.address(t, self.level)
        if found is None or self.chance(30):
            return self.allocate()
        if self.chance(70):
            self.put(f"{self.type_words(('pointer', t), name)} = {found};")
        else:
            self.put(f"{self.type_words(('pointer', t), name)};")
            self.put(f"{name} = {found};")
        return self.add_pointer(name, t, self.level)

    def size_words(self, t, name):
        return self.pick([f"sizeof({t})", f"sizeof *{name}", f"sizeof(*{name})"])

    def allocation(self, t, name):
        """A malloc for a pointer of that name, whose first object is stored into behind it."""
        cast = f"({t} *)" if self.chance(25) else ""
        size, count = self.size_words(t, name), self.operation("+", self.small(self.leaf(), 3), self.number(1))
        forms = [size, size, f"{self.within(count, 8)} * {size}", f"{size} * {self.within(count, 9)}"]
        return f"{cast}malloc({self.pick(forms)})"

    def allocate(self):
        name, t = self.fresh("p"), self.pick(POINTED)
        self.put(f"{t} *{name} = {self.allocation(t, name)};")
        self.first_values(name, t)
        return self.add_pointer(name, t, self.level)

    def first_values(self, name, t):
        if t in STRUCTS:
            self.set_members(f"{name}->", t)
        else:
            self.put(f"*{name} = {self.bounded()[0]};")

    def allocate_and_free(self):
        """A block with an object of its own, which is freed at its end."""
        name, t = self.fresh("p"), self.pick(POINTED)
        self.put("{")
        marks = self.marks()
        self.level += 1
        self.put(f"{t} *{name} = {self.allocation(t, name)};")
        self.first_values(name, t)
        self.places.append((f"{name}->{'a' if t == PAIR else 'val'}", INT) if t in STRUCTS else (f"*{name}", t))
        self.statements(1 + self.below(3))
        self.put(f"free({name});")
        self.level -= 1
        self.forget(marks)
        self.close()

    def point_elsewhere(self):
        if not self.pointers:
            return self.declare_pointer()
        name, t, level = self.pick(self.pointers)
        found = self.address(t, level)
        return self.put(f"{self.filled(name)} = {found};") if found else self.assign()

    def behind_null(self):
        """A pointer that may be null is given an address that lives for ever, or is used where it isn't null."""
        if not self.nullable:
            return self.declare_struct()
        name, t = self.pick(self.nullable)
        name = self.filled(name)
        if self.chance(35):
            return self.put(f"{name} = {self.address(t, 0) or 'NULL'};")
        test = self.pick([f"{name} != NULL", name, f"!({name} == 0)", f"NULL != {name}"])
        within = f"{name}->val" if t == NODE else f"*{name}"
        self.put(f"if ({test})" if self.chance(30) else f"if ({test}) {{")
        is_braced = self.lines[-1].endswith("{")
        self.lines.append("    " * (self.level + 1) + self.pick([f"{within} = {self.bounded()[0]};", f"{self.place()[0]} = {within};"
                                                                 if self.places else ";"]))
        return self.close() if is_braced else None

    def choose_object(self):
        """A store into one of two variables, as a test says."""
        one, two, pointer = self.fresh("x"), self.fresh("x"), self.fresh("p")
        self.put(f"int {one} = {self.bounded()[0]}, {two} = {self.bounded()[0]};")
        self.put(f"int *{pointer} = {self.within(self.test(0), -1)} ? &{one} : &{two};")
        self.put(f"*{pointer} = {self.bounded()[0]};")
        self.add_object(one, INT, self.level)
        self.add_object(two, INT, self.level)
        self.add_pointer(pointer, INT, self.level)

    def array_of_pointers(self):
        """An array of pointers with a list, all of which point to something."""
        name, length, t = self.fresh("r"), 2 + self.below(2), self.pick(POINTED)
        items = [self.address(t, self.level) for _ in range(length)]
        if None in items:
            return self.declare_pointer()
        self.put(f"{t} *{name}[{length}] = {{{', '.join(items)}}};")
        return self.add_pointer(f"{name}[{{{length}}}]", t, self.level)

    def allocate_into(self):
        """An allocation whose pointer is stored into a place that isn't a bare name."""
        found = [(name, t) for name, t in self.nullable if name.isidentifier() or "->" in name or "." in name]
        if not found:
            return self.allocate_bytes()
        name, t = self.pick(found)
        name = self.filled(name)
        self.put(f"{name} = malloc(sizeof({t}));")
        return self.first_values(name, t)

    def allocate_bytes(self):
        name, counter = self.fresh("p"), self.fresh("i")
        self.put(f"char *{name} = malloc({self.operation('+', self.small(self.leaf(), 3), self.number(3))[0]});")
        self.put(f"for (int {counter} = 0; {counter} < 3; {counter}++) {{")
        self.lines.append("    " * (self.level + 1) + f"{name}[{counter}] = {self.bounded()[0]};")
        self.close()
        self.places.append((f"{name}[{{3}}]", CHAR))

    def pointer_to_pointer(self):
        if not self.pointers:
            return self.declare_pointer()
        name, t, level = self.pick(self.pointers)
        name = self.filled(name)
        double = self.fresh("d")
        self.put(f"{t} **{double} = &{name};")
        other = self.address(t, level)
        if other and self.chance(60):
            self.put(f"*{double} = {other};")
        if t in STRUCTS:
            self.add_members(f"(*{double})->", t, level)
        else:
            self.places.append((f"**{double}", t))
        return None

    def walk_array(self):
        """A pointer that goes along an array of its own."""
        name, length, pointer = self.fresh("r"), 2 + self.below(3), self.fresh("p")
        self.put(f"int {name}[{length}] = {{{self.bounded()[0]}}};")
        test = self.pick([f"{pointer} < {name} + {length}", f"{pointer} != {name} + {length}", f"{pointer} - {name} < {length}"])
        step = self.pick([f"{pointer}++", f"++{pointer}", f"{pointer} += 1", f"{pointer} = {pointer} + 1", f"{pointer} = 1 + {pointer}"])
        marks = self.marks()
        self.loops += 1
        self.put(f"for (int *{pointer} = {name}; {test}; {step}) {{")
        self.places.append((f"*{pointer}", INT))
        self.inside(1 + self.below(2))
        self.loops -= 1
        self.forget(marks)
        self.close()
        self.places.append((f"{name}[{{{length}}}]", INT))

    def build_list(self):
        """A list of nodes, and a walk along it."""
        head, node, counter, total = (self.fresh(letter) for letter in "hnit")
        self.put(f"struct node *{head} = NULL, *{node};")
        self.put(f"int {counter} = 0;")
        self.put(f"while ({counter} < {1 + self.below(3)}) {{")
        self.level += 1
        self.put(f"{node} = {self.allocation(NODE, node)};")
        self.put(f"{node}->val = {self.pick([counter, self.bounded()[0]])};")
        self.put(f"{node}->at = {self.address(INT, 0) or 'NULL'};")
        self.put(f"{node}->in.a = {self.leaf()[0]}; {node}->in.b = {self.leaf()[0]};")
        self.put(f"{node}->next = {head}; {head} = {node};")
        self.put(f"{counter}++;")
        self.level -= 1
        self.close()
        self.put(f"int {total} = 0;")
        self.put(f"for ({node} = {head}; {node}{self.pick(['', ' != NULL'])}; {node} = {node}->next) {{")
        marks = self.marks()
        self.loops += 1
        self.places += [(f"{node}->val", INT), (f"{node}->in.a", INT), (total, INT)]
        self.nullable.append((f"{node}->at", INT))
        self.inside(1 + self.below(2))
        self.loops -= 1
        self.lines.append("    " * (self.level + 1) + f"{total} += {node}->val % 13;")
        self.forget(marks)
        self.close()
        self.places.append((total, INT))
        self.nullable.append((head, NODE))

    def recursion_by_address(self):
        """A store behind a parameter, and then a call of the function itself with the address of a variable of its own."""
        found = [name for name, t, _ in self.pointers if t == INT and self.current and name in self.parameters]
        if not found:
            return self.call()
        name, result = self.fresh("x"), self.fresh("v")
        self.put(f"*{self.pick(found)} = {self.bounded()[0]};")
        self.put(f"int {name} = {self.bounded()[0]};")
        args = [f"&{name}" if t == ("pointer", INT) else self.argument(t) for t in self.current.params]
        self.put("if (n > 0) {")
        self.lines.append("    " * (self.level + 1) + f"{self.current.name}({', '.join(['n - 1'] + args)});")
        self.close()
        self.put(f"int {result} = {name};")
        self.add_object(name, INT, self.level)
        return self.places.append((result, INT))

    def print_pointers(self):
        if len(self.pointers) < 2:
            return self.print()
        (one, a, _), (two, b, _) = self.pick(self.pointers), self.pick(self.pointers)
        one, two, sign = self.filled(one), self.filled(two), self.pick(["==", "!="])
        if a != b or self.chance(30):
            return self.put(f'printf("%d\\n", {one} {sign} NULL || !{two});')
        return self.put(f'printf("%d\\n", {one} {sign} {two});')

    def simple_forms(self):
        forms = super().simple_forms()
        forms += [(8, self.declare_object), (6, self.declare_pointer), (4, self.point_elsewhere), (4, self.behind_null)]
        forms += [(2, self.print_pointers), (8 if self.current and self.loops == 0 else 0, self.recursion_by_address)]
        if self.level < 4:
            forms += [(3, self.declare_struct), (4, self.declare_array), (2, self.pointer_to_pointer), (2, self.array_of_pointers)]
            forms += [(2, self.allocate_into), (1, self.allocate_bytes), (3, self.choose_object)]
        if self.level < 4 and self.loops < 2:
            forms += [(2, self.walk_array), (1, self.build_list), (2, self.allocate_and_free)]
        return forms

    # functions

    def signature(self, number):
        f = super().signature(number)
        f.params += [("pointer", INT)] * (self.below(3) > 0) + [self.pointer_type() for _ in range(self.below(3))]
        self.random.shuffle(f.params)
        if self.chance(25):
            f.result = self.pointer_type()
        return f

    def argument(self, t):
        if not isinstance(t, tuple):
            return super().argument(t)
        return self.address(t[1], self.level) or self.fresh_argument(t[1])

    def fresh_argument(self, t):
        """An object for a parameter where there is none yet: a global of each type always is."""
        return self.address(t, 0)

    def called(self, f, counter):
        if not isinstance(f.result, tuple):
            return super().called(f, counter)
        words, t = self.call_words(f, counter), f.result[1]
        if self.chance(15):
            return self.put(f"{words};")
        name = self.fresh("p")
        self.put(f"{t} *{name} = {words};")
        return self.add_pointer(name, t, self.level)

    def returned(self, t):
        if not isinstance(t, tuple):
            return super().returned(t)
        found = [name for name, shape, level in self.pointers if shape == t[1] and level <= 1 and name in self.parameters]
        return self.pick(found) if found and self.chance(60) else self.address(t[1], 0)

    def add_parameter(self, name, t):
        if isinstance(t, tuple):
            self.parameters.append(name)
            return self.add_pointer(name, t[1], 1)
        if t in (INT, LONG) and self.chance(40):
            return self.add_object(name, t, 1)
        return super().add_parameter(name, t)

    def function(self, f, count):
        self.parameters = []
        super().function(f, count)

    # items

    def begin(self):
        includes = ["#include <stdio.h>", "#include <stdlib.h>"]
        self.lines += self.random.sample(includes, 2)
        if self.chance(20):
            self.lines.append("struct node;")
        self.lines += ["struct pair {", "    int a;", "    long b;", "    int arr[3];", "};"]
        self.lines += ["struct node {", "    int val;", "    struct node *next;", "    struct pair in;", "    int *at;", "};"]
        for t in (INT, LONG, PAIR, NODE):
            name = self.fresh("g")
            self.lines.append(f"{self.type_words(t, name)};")
            self.add_object(name, t, 0)
        if self.chance(60):
            self.global_pointer()
        if self.chance(50):
            self.global_array()
        if self.chance(60):
            self.global_()

    def global_pointer(self):
        name, t = self.fresh("g"), self.pick([INT, NODE])
        self.lines.append(f"{self.type_words(('pointer', t), name)}{self.pick(['', ' = NULL', ' = 0'])};")
        self.nullable.append((name, t))

    def global_array(self):
        name, length = self.fresh("g"), 2 + self.below(2)
        if self.chance(50):
            self.lines.append(f"struct pair {name}[{length}];")
            self.addresses += [(name, PAIR, 0), (f"&{name}[{{{length}}}]", PAIR, 0)]
            self.places += [(f"{name}[{{{length}}}].a", INT), (f"{name}[{{{length}}}].arr[{{3}}]", INT)]
        else:
            self.lines.append(f"int {name}[{length}] = {{{self.below(9)}, {self.below(9)}}};")
            self.addresses += [(name, INT, 0), (f"&{name}[{{{length}}}]", INT, 0)]
            self.places.append((f"{name}[{{{length}}}]", INT))


