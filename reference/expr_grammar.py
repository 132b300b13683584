"""Tokens, types and expressions of the grammar, with names as they are written: a descent with one token in hand."""
from integers import CHAR, INT, LONG, SHORT, UCHAR, UINT, ULONG, USHORT
from lexer import KEYWORDS, NotAccepted, Token, constant_of
from tree import Expr, Integer, Pointer

LEVELS = [["|"], ["^"], ["&"], ["==", "!="], ["<", ">", "<=", ">="], ["<<", ">>"], ["+", "-"], ["*", "/", "%"]]
INTEGER_WORDS = ("char", "short", "int", "long", "signed", "unsigned")
SPELLINGS = {
    CHAR: ["char", "char signed"], UCHAR: ["char unsigned"],
    SHORT: ["short", "int short", "short signed", "int short signed"], USHORT: ["short unsigned", "int short unsigned"],
    INT: ["int", "signed", "int signed"], UINT: ["unsigned", "int unsigned"],
    LONG: ["long", "int long", "long signed", "int long signed"], ULONG: ["long unsigned", "int long unsigned"],
}
CANONICAL = {words: t for t, spellings in SPELLINGS.items() for words in spellings}


class ExprParser:
    def __init__(self, tokens):
        self.tokens = tokens + [Token("end", "", tokens[-1].line if tokens else 1)]
        self.at = 0

    # tokens

    @property
    def token(self):
        return self.tokens[self.at]

    def ahead(self, count):
        return self.tokens[min(self.at + count, len(self.tokens) - 1)]

    def fail(self, why="syntax"):
        raise NotAccepted(self.token.line, f"{why} at {self.token.text!r}")

    def sees(self, *texts):
        return self.token.kind in ("mark", "name") and self.token.text in texts

    def take(self):
        self.at += 1
        return self.tokens[self.at - 1]

    def takes(self, text):
        if self.sees(text):
            self.at += 1
            return True
        return False

    def expect(self, text):
        if not self.takes(text):
            self.fail(f"no {text}")

    def name(self):
        if self.token.kind != "name" or self.token.text in KEYWORDS:
            self.fail("no name")
        return self.take().text

    # types

    def sees_type(self):
        return self.sees("struct", *INTEGER_WORDS)

    def base(self):
        """The words of a type; a struct is told by its tag."""
        if self.takes("struct"):
            return ("struct", self.name())
        words = []
        while self.sees(*INTEGER_WORDS):
            words.append(self.take().text)
        spelling = " ".join(sorted(words))
        if spelling not in CANONICAL:
            self.fail("no type")
        return Integer(CANONICAL[spelling])

    def stars(self, t):
        while self.takes("*"):
            t = Pointer(t)
        return t

    def declarator(self, base):
        """A name with its type; each length is an expression, or None where it is empty."""
        t = self.stars(base)
        name, lengths = self.name(), []
        while self.takes("["):
            lengths.append(None if self.sees("]") else self.cond())
            self.expect("]")
        for length in reversed(lengths):
            t = ("array", t, length)
        return name, t

    # expressions

    def cond(self):
        test = self.either()
        if not self.sees("?"):
            return test
        line = self.take().line
        yes = self.cond()
        self.expect(":")
        return Expr("choose", [test, yes, self.cond()], line)

    def either(self):
        left = self.both()
        while self.sees("||"):
            line = self.take().line
            left = Expr("or", [left, self.both()], line)
        return left

    def both(self):
        left = self.level(0)
        while self.sees("&&"):
            line = self.take().line
            left = Expr("and", [left, self.level(0)], line)
        return left

    def level(self, at):
        """An expression of a level of binary operators; a `*` before a size ends it."""
        if at == len(LEVELS):
            return self.cast()
        left = self.level(at + 1)
        while self.sees(*LEVELS[at]) and not (self.sees("*") and self.ahead(1).text == "sizeof"):
            op = self.take()
            left = Expr("binary", [left, self.level(at + 1)], op.line, op.text)
        return left

    def cast(self):
        if self.sees("(") and self.ahead(1).text in INTEGER_WORDS:
            line = self.take().line
            t = self.base()
            self.expect(")")
            return Expr("cast", [self.cast()], line, type=t)
        if self.sees("+", "-", "~", "!", "*", "&"):
            op = self.take()
            form = {"*": "deref", "&": "address"}.get(op.text, "unary")
            return Expr(form, [self.cast()], op.line, op.text if form == "unary" else "")
        return self.postfix()

    def postfix(self):
        e = self.primary()
        while self.sees("[", ".", "->"):
            op = self.take()
            if op.text == "[":
                e = Expr("index", [e, self.cond()], op.line)
                self.expect("]")
            else:
                e = Expr("member" if op.text == "." else "arrow", [e], op.line, self.name())
        return e

    def primary(self):
        token = self.token
        if token.kind in ("number", "character"):
            self.take()
            t, value = constant_of(token)
            return Expr("constant", [], token.line, token.text, Integer(t), value)
        if self.takes("("):
            e = Expr("paren", [self.cond()], token.line)
            self.expect(")")
            return e
        name = self.name()
        if self.sees("("):
            self.fail("left out: a call inside an expression")
        if name in ("NULL", "EOF"):
            return Expr(name.lower(), [], token.line)
        return Expr("variable", [], token.line, name)
