"""The layout of a program, and the line on which each statement starts in it."""
from tree import Array, Integer, Pointer


def words_of(e):
    """An expression as it is written."""
    form = e.form
    if form == "constant" or form == "variable":
        return e.word if form == "constant" or e.var is None else e.var.name
    if form in ("null", "eof"):
        return form.upper()
    parts = [words_of(part) for part in e.parts]
    if form == "paren":
        return f"({parts[0]})"
    if form == "unary":
        operand = e.parts[0]
        is_same = e.word in "+-" and operand.form == "unary" and operand.word == e.word
        return e.word + (" " if is_same else "") + parts[0]
    if form in ("deref", "address"):
        return ("*" if form == "deref" else "&") + parts[0]
    if form == "cast":
        return f"({declared(e.type, '')}){parts[0]}"
    if form == "index":
        return f"{parts[0]}[{parts[1]}]"
    if form in ("member", "arrow"):
        return parts[0] + ("." if form == "member" else "->") + e.word
    if form == "choose":
        return f"{parts[0]} ? {parts[1]} : {parts[2]}"
    return f"{parts[0]} { {'and': '&&', 'or': '||'}.get(form, e.word) } {parts[1]}"


def declared(t, name):
    """A type with the name that it declares, or without one."""
    while isinstance(t, (Array, Pointer)):
        if isinstance(t, Array):
            lengths = ""
            while isinstance(t, Array):
                lengths += f"[{t.words}]"
                t = t.of
            name += lengths
        else:
            name = "*" + name
            t = t.to
    base = "void" if t is None else t.name if isinstance(t, Integer) else f"struct {t.struct.name}"
    return f"{base} {name}" if name else base


def listed(parts):
    return ", ".join(words_of(e) for e in parts)


def size_words(size):
    if size.form == "type":
        return f"sizeof({declared(size.type, '')})"
    return f"sizeof(*{words_of(size.name)})" if size.form == "paren" else f"sizeof *{words_of(size.name)}"


def heap_words(s):
    parts = {"size": lambda: size_words(s.amount.size), "count": lambda: words_of(s.amount.count)}
    cast = f"({declared(s.cast, '')})" if s.cast else ""
    return f"{cast}malloc({' * '.join(parts[part]() for part in s.amount.form.split())})"


def right_words(s):
    """What stands behind the `=` of a statement."""
    if s.form == "invoke":
        return f"{s.function.name}({listed(s.args)})"
    if s.form == "fetch":
        return "getchar()"
    if s.form == "heap":
        return heap_words(s)
    return "{" + listed(s.args) + "}" if s.args is not None else words_of(s.value)


def simple_words(s):
    """A simple statement, a declaration or a return, without its semicolon."""
    if s.declares:
        name = declared(s.declares.type, s.declares.name)
        return name if s.left is None else f"{name} = {right_words(s)}"
    if s.form == "assign":
        return f"{words_of(s.left)} {s.op} {words_of(s.value)}"
    if s.form == "bump":
        return s.op + words_of(s.left) if s.before else words_of(s.left) + s.op
    if s.form in ("invoke", "fetch", "heap"):
        return right_words(s) if s.left is None else f"{words_of(s.left)} = {right_words(s)}"
    if s.form == "print":
        return "printf(" + ", ".join([s.format] + [words_of(e) for e in s.args]) + ")"
    if s.form in ("write", "release"):
        return f"{'putchar' if s.form == 'write' else 'free'}({words_of(s.value)})"
    return "return" if s.value is None else f"return {words_of(s.value)}"


class Page:
    """Lines as they are written, with the line of each statement, counted from 1."""

    def __init__(self):
        self.lines = []
        self.starts = {}

    def put(self, level, words):
        self.lines.append("    " * level + words)

    def start(self, s):
        if s is not None and s.number is not None:
            self.starts[s.number] = len(self.lines) + 1

    def body(self, level, statements):
        for s in statements:
            self.statement(level, s)

    def statement(self, level, s):
        self.start(s)
        compound = getattr(self, s.form + "_", None)
        if compound:
            compound(level, s)
        else:
            self.put(level, simple_words(s) + ";")

    def block_(self, level, s):
        self.put(level, "{")
        self.body(level + 1, s.body)
        self.put(level, "}")

    def if_(self, level, s):
        self.put(level, f"if ({words_of(s.value)}) {{")
        self.body(level + 1, s.body)
        if s.other:
            self.put(level, "} else {")
            self.body(level + 1, s.other)
        self.put(level, "}")

    def while_(self, level, s):
        self.put(level, f"while ({words_of(s.value)}) {{")
        self.body(level + 1, s.body)
        self.put(level, "}")

    def do_(self, level, s):
        self.put(level, "do {")
        self.body(level + 1, s.body)
        self.put(level, f"}} while ({words_of(s.value)});")

    def for_(self, level, s):
        self.start(s.init)
        self.start(s.step)
        init = simple_words(s.init) if s.init else ""
        step = " " + simple_words(s.step) if s.step else ""
        self.put(level, f"for ({init}; {words_of(s.value)};{step}) {{")
        self.body(level + 1, s.body)
        self.put(level, "}")

    def switch_(self, level, s):
        self.put(level, f"switch ({words_of(s.value)}) {{")
        for arm in s.arms:
            for label, _ in arm.labels:
                self.put(level + 1, "default:" if label is None else f"case {words_of(label)}:")
            self.body(level + 2, arm.body)
            self.put(level + 2, "break;")
        self.put(level, "}")

    def item(self, item):
        if item.form == "include":
            self.put(0, f"#include {item.header}")
        elif item.form == "tag":
            self.put(0, f"struct {item.struct.name};")
        elif item.form == "struct":
            self.put(0, f"struct {item.struct.name} {{")
            for name, t in item.struct.members:
                self.put(1, declared(t, name) + ";")
            self.put(0, "};")
        elif item.form == "global":
            self.put(0, global_words(item) + ";")
        elif item.form == "prototype":
            self.put(0, head_words(item.function, item.names, item.is_static) + ";")
        else:
            f = item.function
            self.put(0, head_words(f, [var.name for var in f.params], f.is_static) + " {")
            self.body(1, f.body)
            self.put(0, "}")


def global_words(item):
    words = ("static " if item.var.is_static else "") + declared(item.var.type, item.var.name)
    if item.args is not None:
        return words + " = {" + listed(item.args) + "}"
    return words if item.value is None else f"{words} = {words_of(item.value)}"


def head_words(f, names, is_static):
    params = [declared(var.type, name or "") for var, name in zip(f.params, names)]
    return ("static " if is_static else "") + declared(f.result, f"{f.name}({', '.join(params) or 'void'})")


def page_of(program):
    page = Page()
    for item in program.items:
        page.item(item)
    return page


def layout(program):
    """The text of a program."""
    return "".join(line + "\n" for line in page_of(program).lines)
