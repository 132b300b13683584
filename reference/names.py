"""Names to numbers, types of expressions, and numbers of statements: the program of a tree.

Most rules of the language are tested on the way; a text that breaks one of these is refused.
"""
from expr_types import INT_TYPE, ExprTypes, constant_value, fits, refuse
from grammar import tree_of
from integers import Undefined, convert, promote
from layout import words_of
from lexer import NotAccepted, literal_bytes, tokens_of
from tree import Array, Expr, Integer, Pointer, StructType, TESTS, bodies, decayed, inner, is_scalar

LIBRARY = ("getchar", "putchar", "printf", "malloc", "free", "NULL", "EOF")


class Resolver(ExprTypes):
    def __init__(self, program):
        self.program = program
        self.scopes = [{}]
        self.structs = {}
        self.functions = {}
        self.current = None
        self.headers = {item.header for item in program.items if item.form == "include"}

    # names and types

    def find(self, name, line):
        for scope in reversed(self.scopes):
            if name in scope:
                return scope[name]
        refuse(line, f"rule 1: {name} isn't in scope")

    def declare(self, var):
        if var.name in LIBRARY:
            refuse(var.line, "rule 4")
        if any(var.name in scope for scope in self.scopes):
            refuse(var.line, f"rules 2 and 3: {var.name}")
        self.scopes[-1][var.name] = var
        var.owner = self.current
        var.number = len(self.program.vars)
        self.program.vars.append(var)

    def resolved(self, t, items=None, line=0):
        """A written type with its struct types and lengths; the length may come from so many items."""
        if isinstance(t, Pointer):
            return Pointer(self.resolved(t.to, line=line))
        if isinstance(t, tuple) and t[0] == "struct":
            return StructType(self.structs.get(t[1]) or refuse(line, f"rule 7: {t[1]}"))
        if isinstance(t, tuple):
            of = self.resolved(t[1], line=line)
            if t[2] is None:
                return Array(of, items, str(items)) if items else refuse(line, "no length")
            self.expr(t[2])
            length = constant_value(t[2])
            return Array(of, length, words_of(t[2])) if length >= 1 else refuse(line, "rule 9")
        return t

    # statements

    def number(self, s):
        s.number = len(self.program.statements)
        self.program.statements.append((s, self.current))

    def body(self, statements):
        self.scopes.append({})
        for s in statements:
            self.statement(s)
        self.scopes.pop()

    def statement(self, s):
        if s.form == "block":
            return self.body(s.body)
        if not (s.form == "declare" and s.value is None and s.args is None):
            self.number(s)
        if s.form == "for":
            self.scopes.append({})
            self.expr_of_for(s)
            self.scopes.pop()
            return None
        self.parts(s)
        if s.form in TESTS:
            for part in bodies(s):
                self.body(part)
        if s.form == "switch":
            self.labels(s)
        return None

    def expr_of_for(self, s):
        if s.init:
            self.statement(s.init)
        self.expr(s.value)
        self.tests(s)
        if s.step:
            self.statement(s.step)
        self.body(s.body)

    def tests(self, s):
        if s.form == "switch" and not isinstance(s.value.type, Integer):
            refuse(s.line, "rule 11")
        if s.form in TESTS and not is_scalar(decayed(s.value.type)):
            refuse(s.line, "rule 12: a test")

    def labels(self, s):
        seen, t = set(), promote(s.value.type.name)
        for arm in s.arms:
            if any(part.declares for part in arm.body):
                refuse(s.line, "rule 23")
            for at, label in enumerate(arm.labels):
                value = None
                if label is not None:
                    self.expr(label)
                    value = convert(constant_value(label), t)
                if value in seen:
                    refuse(s.line, "rule 11")
                seen.add(value)
                arm.labels[at] = (label, value)

    def parts(self, s):
        """Names and types of what stands in a statement itself."""
        if s.declares:
            s.declares.type = self.resolved(s.declares.type, len(s.args or []), s.line)
            self.declare(s.declares)
        for e in ([s.left] if s.left else []) + ([s.value] if s.value else []) + (s.args or []):
            self.expr(e)
        if s.form == "heap":
            self.heap(s)
        if s.left and s.args is None and not is_scalar(s.left.type):
            refuse(s.line, "rule 14")
        self.tests(s)
        self.assigned(s)
        if s.form == "invoke":
            self.call(s)
        if s.form == "print":
            self.printed(s)
        if s.form in ("fetch", "write", "print") and "<stdio.h>" not in self.headers:
            refuse(s.line, "rule 24")
        if s.form in ("heap", "release") and "<stdlib.h>" not in self.headers:
            refuse(s.line, "rule 24")

    def assigned(self, s):
        if s.form in ("declare", "assign") and s.args is None and s.value and s.op == "=" and not fits(s.value, s.left.type):
            refuse(s.line, "rule 13")
        if s.form == "declare" and s.args is not None:
            self.listed(s.line, s.declares.type, s.args)
        if s.form == "assign" and s.op != "=":
            self.operator(Expr("binary", [s.left, s.value], s.line, s.op[:-1]))
        if s.form == "write":
            self.integer(s.value)
        if s.form == "release" and not isinstance(decayed(s.value.type), Pointer):
            refuse(s.line, "rule 21")
        if s.form == "fetch" and s.left and not isinstance(s.left.type, Integer):
            refuse(s.line, "rule 17")
        if s.form == "return":
            t = self.current.result
            if (s.value is None) != (t is None) or (t and not fits(s.value, t)):
                refuse(s.line, "rule 18")

    def listed(self, line, t, items):
        if not isinstance(t, Array) or not is_scalar(t.of) or len(items) > t.length or not all(fits(e, t.of) for e in items):
            refuse(line, "rule 22")

    def heap(self, s):
        t, amount = s.left.type, s.amount
        if not isinstance(t, Pointer):
            refuse(s.line, "rule 20")
        if s.cast:
            s.cast = self.resolved(s.cast, line=s.line)
        size = None
        if amount.size and amount.size.form == "type":
            size = amount.size.type = self.resolved(amount.size.type, line=s.line)
        elif amount.size:
            self.expr(amount.size.name)
            size = decayed(amount.size.name.type).to
        if amount.count:
            self.expr(amount.count)
            self.integer(amount.count)
        if (s.cast or t) != t or (size != t.to if amount.size else t.to not in (Integer("char"), Integer("unsigned char"))):
            refuse(s.line, "rule 20")

    def call(self, s):
        found = self.find(s.name, s.line)
        if isinstance(found, str):
            s.function = found
        else:
            refuse(s.line, "rule 1: a variable is called")

    def printed(self, s):
        values, types, at = literal_bytes(s.format), [], 0
        text = bytes(values).decode("latin-1")
        while at < len(text):
            if text[at] == "%":
                is_long = text[at + 1:at + 2] == "l"
                at += 1 + is_long
                if text[at:at + 1] not in (("d", "u", "x") if is_long else ("d", "u", "x", "c", "%")):
                    refuse(s.line, "rule 19")
                if text[at] != "%":
                    types.append(64 if is_long else 32)
            at += 1
        widths = [64 if promote(self.integer(e)) in ("long", "unsigned long") else 32 for e in s.args]
        if widths != types:
            refuse(s.line, "rule 19")

    # items

    def item(self, item):
        getattr(self, item.form + "_")(item)

    def include_(self, item):
        pass

    def tag_(self, item):
        item.struct = self.structs[item.struct.name]

    def struct_(self, item):
        struct = item.struct
        struct.number = len(self.program.structs)
        self.program.structs.append(struct)
        struct.members = [(name, self.resolved(t, line=item.line)) for name, t in
                          [self.member(declarator) for declarator in struct.members]]

    def member(self, declarator):
        name, t = declarator
        return name, t

    def global_(self, item):
        item.var.type = self.resolved(item.var.type, len(item.args or []), item.line)
        self.declare(item.var)
        for e in ([item.value] if item.value else []) + (item.args or []):
            self.expr(e)
            if inner(e).form != "null":
                constant_value(e)
        if item.args is not None:
            self.listed(item.line, item.var.type, item.args)
        if item.value and not fits(item.value, item.var.type):
            refuse(item.line, "rule 13")

    def prototype_(self, item):
        item.function = self.functions.get(item.function) or refuse(item.line, "rule 6")
        types = [self.resolved(var.type, line=item.line) for var in item.params]
        f = item.function
        if types != [self.resolved(var.type, line=item.line) for var in f.params] or self.resolved(item.result) != self.resolved(f.result):
            refuse(item.line, "rule 6")
        self.into_scope(f.name, item.line)

    def into_scope(self, name, line):
        if name in LIBRARY or not isinstance(self.scopes[0].get(name, name), str):
            refuse(line, "rules 2 and 4")
        self.scopes[0][name] = name

    def define_(self, item):
        f = item.function
        self.into_scope(f.name, item.line)
        self.current = f
        f.result = self.resolved(f.result)
        self.scopes.append({})
        for var in f.params:
            var.type = self.resolved(var.type, line=var.line)
            self.declare(var)
        for s in f.body:
            self.statement(s)
        self.scopes.pop()
        self.current = None
        if f.result and f.name != "main" and not (f.body and f.body[-1].form == "return"):
            refuse(f.line, "rule 18: no return at the end")

    def program_of(self):
        for item in self.program.items:
            if item.form == "struct":
                self.structs[item.struct.name] = item.struct
            if item.form == "define":
                if item.function.name in self.functions:
                    refuse(item.line, "rule 2")
                item.function.number = len(self.program.functions)
                self.functions[item.function.name] = item.function
                self.program.functions.append(item.function)
        main = self.functions.get("main") or refuse(1, "rule 5: no main")
        for item in self.program.items:
            self.item(item)
        if main.params or main.result != INT_TYPE:
            refuse(main.line, "rule 5")
        self.calls()
        return self.program

    def calls(self):
        """Each call with the function that it calls, its arguments and its result."""
        for s, f in self.program.statements:
            if s.form == "return" and not (f.body and f.body[-1] is s):
                refuse(s.line, "left out: return")
            if s.form != "invoke":
                continue
            if s.name not in self.functions or s.name == "main":
                refuse(s.line, "rules 5 and 6")
            s.function = self.functions[s.name]
            if len(s.args) != len(s.function.params) or not all(fits(e, p.type) for e, p in zip(s.args, s.function.params)):
                refuse(s.line, "rule 16")
            t = s.function.result
            if s.left and (t is None or (s.left.type != t if isinstance(t, Pointer) else not isinstance(s.left.type, Integer))):
                refuse(s.line, "rule 17")


def read_program(text):
    """The program of a text; NotAccepted where it has none."""
    try:
        return Resolver(tree_of(tokens_of(text))).program_of()
    except Undefined:
        raise NotAccepted(0, "rule 10: an undefined act") from None
