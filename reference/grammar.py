"""Statements and items of the grammar, and the tree of a text."""
from expr_grammar import INTEGER_WORDS, ExprParser
from lexer import KEYWORDS, NotAccepted
from tree import Amount, Arm, Expr, Function, Item, Pointer, Program, Size, Statement, Struct, Var

ASSIGNMENTS = ["=", "+=", "-=", "*=", "/=", "%=", "&=", "|=", "^=", "<<=", ">>="]
PLACES = ("variable", "deref", "index", "member", "arrow")


class Parser(ExprParser):
    # what stands in statements

    def call_args(self):
        self.expect("(")
        args = []
        while not self.takes(")"):
            if args:
                self.expect(",")
            args.append(self.take().text if self.token.kind == "string" else self.cond())
        return args

    def sees_malloc(self):
        """Whether malloc stands here, behind a cast or not."""
        at = 0
        if self.sees("("):
            at = 1
            while self.ahead(at).text in ("struct", "*") + INTEGER_WORDS or self.ahead(at - 1).text == "struct":
                at += 1
            if self.ahead(at).text != ")" or self.ahead(at - 1).text != "*":
                return False
            at += 1
        return self.ahead(at).kind == "name" and self.ahead(at).text == "malloc"

    def right_side(self, s):
        """What stands behind a `=`: a call, an allocation or an expression."""
        if self.sees_malloc():
            return self.heap(s)
        if self.token.kind == "name" and self.token.text not in KEYWORDS and self.ahead(1).text == "(" and self.ahead(1).kind == "mark":
            return self.call(s)
        s.form, s.value = ("declare" if s.declares else "assign"), self.cond()
        return s

    def call(self, s):
        line, name = self.token.line, self.name()
        args = self.call_args()
        library = {"getchar": ("fetch", 0), "putchar": ("write", 1), "free": ("release", 1)}
        if name == "printf":
            if s.left or not args or not isinstance(args[0], str):
                self.fail("printf")
            s.form, s.format, s.args = "print", args[0], args[1:]
        elif name in library:
            s.form, count = library[name]
            if len(args) != count or (s.left and name != "getchar"):
                self.fail(name)
            s.value = args[0] if args else None
        else:
            s.form, s.name, s.args = "invoke", name, args
        if any(isinstance(arg, str) for arg in (s.args or [])):
            raise NotAccepted(line, "left out: a string")
        return s

    def heap(self, s):
        if self.takes("("):
            s.cast = self.stars(self.base())
            self.expect(")")
        self.expect("malloc")
        self.expect("(")
        s.form, s.amount = "heap", self.amount()
        self.expect(")")
        return s

    def amount(self):
        if self.sees("sizeof"):
            size = self.size()
            return Amount("size count", size, self.cast()) if self.takes("*") else Amount("size", size)
        count = self.cond()
        if self.takes("*"):
            return Amount("count size", self.size(), count)
        return Amount("count", None, count)

    def size(self):
        self.expect("sizeof")
        if self.takes("*"):
            return Size("star", name=Expr("variable", [], self.token.line, self.name()))
        self.expect("(")
        if self.takes("*"):
            size = Size("paren", name=Expr("variable", [], self.token.line, self.name()))
        else:
            size = Size("type", self.stars(self.base()))
        self.expect(")")
        return size

    def simple(self):
        line = self.token.line
        if self.token.kind == "name" and self.token.text not in KEYWORDS and self.ahead(1).text == "(" and self.ahead(1).kind == "mark":
            return self.call(Statement("invoke", line))
        if self.sees("++", "--"):
            op = self.take().text
            return Statement("bump", line, left=self.place(self.cast()), op=op, before=True)
        left = self.place(self.cast())
        if self.sees("++", "--"):
            if left.form == "deref":
                self.fail("left out")
            return Statement("bump", line, left=left, op=self.take().text)
        if not self.sees(*ASSIGNMENTS):
            self.fail()
        s = Statement("assign", line, left=left, op=self.take().text)
        if s.op == "=":
            return self.right_side(s)
        s.value = self.cond()
        return s

    def place(self, e):
        within = e
        while within.form == "paren":
            within = within.parts[0]
        if within.form not in PLACES:
            self.fail("no place")
        return e

    def list_items(self):
        self.expect("{")
        items = [self.cond()]
        while self.takes(",") and not self.sees("}"):
            items.append(self.cond())
        self.expect("}")
        return items

    def declarations(self):
        """The declarators of a declaration, each a statement of its own."""
        line, base, found = self.token.line, self.base(), []
        while not found or self.takes(","):
            name, t = self.declarator(base)
            var = Var(name, line, t)
            s = Statement("declare", line, declares=var, op="=")
            if self.takes("="):
                s.left = Expr("variable", [], line, name)
                if self.sees("{"):
                    s.args = self.list_items()
                else:
                    self.right_side(s)
            found.append(s)
        return found

    # statements

    def block(self):
        self.expect("{")
        found = []
        while not self.takes("}"):
            found += self.statement()
        return found

    def body(self):
        """The body of an if or a loop, as a list."""
        return self.block() if self.sees("{") else self.statement()

    def statement(self):
        """A statement as a list: none for a lone semicolon, one for each declarator of a declaration."""
        line = self.token.line
        if self.takes(";"):
            return []
        if self.sees("{"):
            return [Statement("block", line, body=self.block())]
        for word in ("if", "while", "do", "for", "switch", "return"):
            if self.takes(word):
                return [getattr(self, word + "_")(line)]
        found = self.declarations() if self.sees_type() else [self.simple()]
        self.expect(";")
        return found

    def test(self):
        self.expect("(")
        e = self.cond()
        self.expect(")")
        return e

    def if_(self, line):
        s = Statement("if", line, value=self.test())
        s.body = self.body()
        s.other = self.body() if self.takes("else") else []
        return s

    def while_(self, line):
        s = Statement("while", line, value=self.test())
        s.body = self.body()
        return s

    def do_(self, line):
        s = Statement("do", line, body=self.body())
        self.expect("while")
        s.value = self.test()
        self.expect(";")
        return s

    def for_(self, line):
        s = Statement("for", line)
        self.expect("(")
        if not self.sees(";"):
            parts = self.declarations() if self.sees_type() else [self.simple()]
            if len(parts) > 1:
                self.fail("two declarators in a for")
            s.init = parts[0]
        self.expect(";")
        s.value = self.cond()
        self.expect(";")
        if not self.sees(")"):
            s.step = self.simple()
        self.expect(")")
        s.body = self.body()
        return s

    def switch_(self, line):
        s = Statement("switch", line, value=self.test())
        self.expect("{")
        while not self.takes("}"):
            if s.arms and not s.arms[-1][1]:
                self.fail("left out: falling through")
            s.arms.append(self.arm())
        s.arms = [arm for arm, breaks in s.arms]
        return s

    def arm(self):
        """An arm, and whether it ends with a break."""
        labels, body, any_statement = [], [], False
        while self.sees("case", "default"):
            label = None if self.take().text == "default" else self.cond()
            labels.append(label)
            self.expect(":")
        if not labels:
            self.fail("no label")
        while not self.sees("case", "default", "break", "}"):
            body += self.statement()
            any_statement = True
        breaks = self.takes("break")
        if breaks:
            self.expect(";")
        if not (any_statement or breaks):
            self.fail("an arm with nothing in it")
        return Arm(labels, body), breaks

    def return_(self, line):
        s = Statement("return", line, value=None if self.sees(";") else self.cond())
        self.expect(";")
        return s

    # items

    def items(self):
        found = []
        while self.token.kind != "end":
            found += self.item()
        return found

    def item(self):
        line = self.token.line
        if self.token.kind == "include":
            return [Item("include", line, header=self.take().text)]
        if self.sees("struct") and self.ahead(2).text == ";":
            self.take()
            struct = Struct(self.name(), line=line)
            self.expect(";")
            return [Item("tag", line, struct=struct)]
        if self.sees("struct") and self.ahead(2).text == "{":
            return [self.struct(line)]
        is_static = self.takes("static")
        base = None if self.takes("void") else self.base()
        start = self.at
        result = self.stars(base)
        if self.token.kind == "name" and self.ahead(1).text == "(":
            return [self.function(line, is_static, result)]
        self.at = start
        return self.globals(line, is_static, base)

    def struct(self, line):
        self.take()
        struct = Struct(self.name(), line=line)
        self.expect("{")
        while not self.takes("}"):
            base = self.base()
            struct.members.append(self.declarator(base))
            while self.takes(","):
                struct.members.append(self.declarator(base))
            self.expect(";")
        self.expect(";")
        return Item("struct", line, struct=struct)

    def globals(self, line, is_static, base):
        found = []
        while not found or self.takes(","):
            name, t = self.declarator(base)
            item = Item("global", line, var=Var(name, line, t, is_static))
            if self.takes("="):
                if self.sees("{"):
                    item.args = self.list_items()
                else:
                    item.value = self.cond()
            found.append(item)
        self.expect(";")
        return found

    def function(self, line, is_static, result):
        name = self.name()
        params = self.params()
        if self.takes(";"):
            names = [var.name for var in params]
            return Item("prototype", line, function=name, names=names, is_static=is_static, params=params, result=result)
        body = self.block()
        return Item("define", line, function=Function(name, line, result, params, body, is_static))

    def params(self):
        self.expect("(")
        if self.takes(")"):
            return []
        if self.sees("void") and self.ahead(1).text == ")":
            self.at += 2
            return []
        found = []
        while not found or self.takes(","):
            line, t = self.token.line, self.stars(self.base())
            name = self.name() if self.token.kind == "name" else None
            if self.takes("["):
                if not self.sees("]"):
                    self.cond()
                self.expect("]")
                t = Pointer(t)
            found.append(Var(name, line, t, is_parameter=True))
        self.expect(")")
        return found


def tree_of(tokens):
    """The tree of the tokens, as a program whose names are still as they are written."""
    return Program(Parser(tokens).items(), [], [], [], [])
