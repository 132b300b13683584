"""The last pass: items and statements laid out by their lines, and the names that variables get.

`Page` holds what is written. What has a line begins on it; what has none goes on where the page stands. The page never goes back: a
statement whose line lies behind is a fault of this step, and is told.
"""
import library
from c_types import Array, Pointer, Struct, VOID, cells, innermost
from declarations import KEYWORDS, LIBRARY
from formats import with_strings
from tree import Assign, Bump, Call, Declare, Heap, X, fold, is_zero, negated

LEVELS = {"||": 2, "&&": 3, "|": 4, "^": 5, "&": 6, "==": 7, "!=": 7, "<": 8, ">": 8, "<=": 8, ">=": 8, "<<": 9, ">>": 9, "+": 10,
          "-": 10, "*": 11, "/": 11, "%": 11}
CHOICE, UNARY, POSTFIX = 1, 12, 13


class Page:
    """Lines of text; `at` is the number of the one at hand."""

    def __init__(self):
        self.lines = []
        self.now = ""
        self.depth = 0
        self.late = []

    @property
    def at(self):
        return len(self.lines) + 1

    def go(self, line):
        """Goes on to a line, where it isn't behind already."""
        while line is not None and self.at < line:
            self.lines.append(self.now)
            self.now = ""

    def put(self, text, line=None, is_wanted=False):
        self.go(line)
        if is_wanted and line is not None and line < self.at:
            self.late.append(line)
        self.now += ("    " * self.depth if not self.now else " ") + text

    def open(self, text, line=None):
        self.put(text + " {", line)
        self.depth += 1

    def close(self, line=None, text="}"):
        self.depth -= 1
        self.put(text, line)

    def text(self):
        return "\n".join(self.lines + [self.now]) + "\n"


class Printer:
    """Writes items on a page; `in_scope` has the names of the file that are in scope there, `scopes` those of the blocks around."""

    def __init__(self, builder, fresh):
        self.page = Page()
        self.fresh = fresh
        self.is_flat = builder.is_flat
        self.taken = set(LIBRARY) | KEYWORDS
        self.in_scope = set(self.taken)
        self.scopes = []
        self.tags = {}

    # names

    def name_globals(self, items):
        for item in items:
            if item.kind in ("prototype", "function"):
                self.taken.add(item.what.name if item.kind == "prototype" else item.what.entry.name)
            if item.kind == "text":
                self.taken.add(item.what.name)
        for item in items:
            if item.kind == "global":
                item.what.final = item.what.name if item.what.name not in self.taken else self.fresh(item.what.name)
                self.taken.add(item.what.final)

    def declare(self, var):
        """Names a local variable: its own name, where no other one in scope has it."""
        is_free = var.name not in self.in_scope and not any(var.name in scope for scope in self.scopes)
        var.final = var.name if is_free else self.fresh(var.name)
        self.scopes[-1].add(var.final)

    def tag(self, struct):
        if not struct.tag or self.tags.setdefault(struct.tag, struct) is not struct:
            struct.tag = self.fresh(struct.tag or "struct")
            self.tags[struct.tag] = struct
        return struct.tag

    # types

    def base(self, t):
        while isinstance(t, (Pointer, Array)):
            t = t.to if isinstance(t, Pointer) else t.of
        if t == VOID:
            return "void"
        if isinstance(t, Struct):
            return "struct " + self.tag(t)
        return "int" if t.name == "_Bool" else t.name

    def declarator(self, t, words):
        """A type with a name; the stars stand at the name."""
        lengths = ""
        if isinstance(t, Array) and self.is_flat:
            lengths, t = f"[{cells(t)}]", innermost(t)
        while isinstance(t, Array):
            lengths += f"[{t.length}]"
            t = t.of
        stars, base = "", self.base(t)
        while isinstance(t, Pointer):
            stars += "*"
            t = innermost(t.to)
        return (f"{base} {stars}{words}" if words or stars else base) + lengths

    # expressions

    def expr(self, x, level=0):
        text, own = self.expr_at(x)
        return f"({text})" if own < level else text

    def expr_at(self, x):
        """The text of an expression, and how tightly it binds."""
        kind = x.kind
        if kind == "const":
            return x.word, 14
        if kind in ("null", "eof"):
            return kind.upper(), 14
        if kind == "name":
            return x.word.final, 14
        if kind == "unary":
            inner = self.expr(x.parts[0], UNARY)
            return x.word + (" " if inner[0] == x.word and x.word in "+-" else "") + inner, UNARY
        if kind in ("deref", "address"):
            return ("*" if kind == "deref" else "&") + self.expr(x.parts[0], UNARY), UNARY
        if kind == "cast":
            return f"({self.base(x.type)})" + self.expr(x.parts[0], UNARY), UNARY
        if kind == "index":
            return f"{self.expr(x.parts[0], POSTFIX)}[{self.expr(x.parts[1])}]", POSTFIX
        if kind == "member":
            return self.member(x), POSTFIX
        if kind == "choose":
            test, yes, no = x.parts
            return f"{self.expr(test, CHOICE + 1)} ? {self.expr(yes)} : {self.expr(no, CHOICE)}", CHOICE
        if kind == "row":
            return self.row(x)
        return self.operator(x)

    def member(self, x):
        inner = x.parts[0]
        if inner.kind == "deref":
            return f"{self.expr(inner.parts[0], POSTFIX)}->{x.word}"
        return f"{self.expr(inner, POSTFIX)}.{x.word}"

    def row(self, x):
        if fold(x.parts[1]) == 0:
            return self.expr_at(x.parts[0])
        return self.operator(X("binary", x.parts, x.type, "+"))

    def operator(self, x):
        level = LEVELS[x.word]
        a, b = x.parts
        left = self.expr(a, level if a.kind != "binary" or LEVELS[a.word] in (level, 10, 11) or level <= 3 else 12)
        right = self.expr(b, level + 1 if b.kind != "binary" or LEVELS[b.word] in (10, 11) or level <= 3 else 12)
        if x.word in ("&&", "||") and a.kind == "binary" and a.word in ("&&", "||") and a.word != x.word:
            left = f"({self.expr(a)})"
        if x.word == "||" and b.kind == "binary" and b.word == "&&":
            right = f"({self.expr(b)})"
        return f"{left} {x.word} {right}", level

    def right(self, value):
        if isinstance(value, Heap):
            size = f"sizeof({self.declarator(Pointer(value.of), '').replace('*', '', 1).strip()})"
            return f"malloc({size})" if value.count is None else f"malloc({self.expr(value.count, 11)} * {size})"
        return self.call(value) if isinstance(value, Call) else self.expr(value)

    def call(self, call):
        args = [self.expr(arg) for arg in call.args]
        if call.written is not None:
            args.insert(0, with_strings(call.written))
        return f"{call.name}({', '.join(args)})"

    # statements

    def statements(self, found):
        """Statements in a scope of their own."""
        self.scopes.append(set())
        for s in found:
            getattr(self, "put_" + type(s).__name__)(s)
        self.scopes.pop()

    def put_Declare(self, s):
        if s.value is None and s.items is None:
            self.declare(s.var)
            self.page.put(self.declarator(s.var.type, s.var.final) + ";", s.line)
        else:
            self.page.put(self.declaration(s) + ";", s.line, True)

    def declaration(self, s):
        if s.value is not None:
            right = self.right(s.value)
        elif s.items is not None:
            right = "{" + ", ".join(self.expr(x) for x in s.items) + "}"
        self.declare(s.var)
        words = self.declarator(s.var.type, s.var.final)
        return words if s.value is None and s.items is None else f"{words} = {right}"

    def simple(self, s):
        """A simple statement without its semicolon."""
        if isinstance(s, Declare):
            return self.declaration(s)
        if isinstance(s, Assign):
            return f"{self.expr(s.place, UNARY)} {s.op} {self.right(s.value)}"
        if isinstance(s, Bump):
            return self.expr(s.place, POSTFIX) + s.op
        return self.call(s.call)

    def put_simple(self, s):
        self.page.put(self.simple(s) + ";", s.line, True)

    put_Assign = put_Bump = put_Invoke = put_simple

    def put_Return(self, s):
        self.page.put("return;" if s.value is None else f"return {self.right(s.value)};", s.line)

    def put_Block(self, s):
        self.page.put("{", s.line)
        self.page.depth += 1
        self.statements(s.body)
        self.page.close(s.end)

    def put_If(self, s):
        test, then, other, end = s.test, s.then, s.other, s.then_end
        if not then and other:
            test, then, other, end = negated(test), other, [], s.end
        self.page.open(f"if ({self.expr(test)})", s.line)
        self.statements(then)
        if other:
            self.page.close(end, "} else {")
            self.page.depth += 1
            self.statements(other)
            end = s.end
        self.page.close(end)

    def put_Loop(self, s):
        if s.kind == "do":
            self.page.open("do", s.line)
            self.statements(s.body)
            self.page.close(s.end, f"}} while ({self.expr(s.test)});")
            return
        self.scopes.append(set())
        head = f"while ({self.expr(s.test)})" if s.kind == "while" else self.for_head(s)
        self.page.open(head, s.line)
        self.statements(s.body)
        self.scopes.pop()
        self.page.close(s.end)

    def for_head(self, s):
        init = self.simple(s.init[0]) if s.init else ""
        step = " " + self.simple(s.step[0]) if s.step else ""
        return f"for ({init}; {self.expr(s.test)};{step})"

    def put_Switch(self, s):
        self.page.open(f"switch ({self.expr(s.value)})", s.line)
        for arm in s.arms:
            labels = ["default:" if label is None else f"case {self.expr(label)}:" for label in arm.labels]
            self.page.put(" ".join(labels), arm.line)
            self.page.depth += 1
            self.statements(arm.body)
            self.page.put("break;")
            self.page.depth -= 1
        self.page.close(s.end)

    # items

    def item(self, item):
        if item.kind == "global":
            self.in_scope.add(item.what.final)
        elif item.kind == "function":
            self.in_scope.add(item.what.entry.name)
        elif item.kind in ("prototype", "text"):
            self.in_scope.add(item.what.name)
        getattr(self, "item_" + item.kind)(item)

    def item_include(self, item):
        self.page.go(item.line)
        self.page.put(f"#include <{item.what}>")
        self.page.go(item.line + 1)

    def item_struct(self, item):
        members = " ".join(self.declarator(t, member) + ";" for member, t in item.what.members)
        self.page.put(f"struct {self.tag(item.what)} {{ {members} }};", item.line)

    def item_global(self, item):
        value, items = item.more
        words = ("static " if item.what.is_static else "") + self.declarator(item.what.type, item.what.final)
        if value is not None and not is_zero(value):
            words += f" = {self.expr(value)}"
        elif items is not None:
            words += " = {" + ", ".join(self.expr(x) for x in self.shortened(items)) + "}"
        self.page.put(words + ";", item.line)

    @staticmethod
    def shortened(items):
        """The items without the zeros at the end."""
        last = max((at for at, x in enumerate(items) if fold(x) != 0), default=0)
        return items[:last + 1]

    def head(self, entry, params):
        t = entry.type
        if isinstance(t.result, Struct):
            result = VOID
        else:
            result = t.result
        words = self.declarator(result, "") if isinstance(result, Pointer) else self.base(result) + " "
        return f"{'static ' if entry.is_static else ''}{words}{entry.name}({params or 'void'})"

    def item_prototype(self, item):
        t = item.what.type
        params = [Pointer(t.result)] if isinstance(t.result, Struct) else []
        params += [Pointer(of) if isinstance(of, Struct) else of for of in t.params]
        self.page.put(self.head(item.what, ", ".join(self.declarator(of, "") for of in params)) + ";", item.line)

    def item_text(self, item):
        text = item.what
        self.page.put(library.written(text, lambda t: self.declarator(t, ""), self.fresh), item.line)

    def item_function(self, item):
        made = item.what
        self.scopes.append(set())
        for var in made.params:
            self.declare(var)
        params = ", ".join(self.declarator(var.type, var.final) for var in made.params)
        self.page.open(self.head(made.entry, params), item.line)
        self.statements(made.body)
        self.scopes.pop()
        self.page.close(made.end)
