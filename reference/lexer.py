"""Tokens of a text."""
import re
from dataclasses import dataclass

from integers import GREATEST, INT, LONG, UINT, ULONG

ESCAPES = {"n": 10, "t": 9, "r": 13, "a": 7, "b": 8, "f": 12, "v": 11, "0": 0, "\\": 92, "'": 39, '"': 34, "?": 63}
MARKS = sorted("""( ) [ ] { } ; , : ? . -> + - * / % & | ^ ~ ! < > <= >= == != << >> && ||
= += -= *= /= %= &= |= ^= <<= >>= ++ -- ...""".split(), key=len, reverse=True)
KEYWORDS = set("""auto break case char const continue default do double else enum extern float for goto if inline int long register
restrict return short signed sizeof static struct switch typedef union unsigned void volatile while _Bool _Complex _Imaginary""".split())

BLANK = re.compile(rb"[ \t\n\v\f\r]+|/\*.*?\*/|//[^\n]*", re.S)
INCLUDE = re.compile(rb"#[ \t]*include[ \t]*<(stdio|stdlib)\.h>")
NAME = re.compile(rb"[A-Za-z_][A-Za-z_0-9]*")
NUMBER = re.compile(rb"[0-9](?:[eEpP][+-]|[A-Za-z0-9_.])*")
CHARACTER = re.compile(rb"'(?:[ -&(-\[\]-~]|\\[ntrabfv0\\'\"?])'")
STRING = re.compile(rb"\"(?:[ !#-\[\]-~]|\\[ntrabfv0\\'\"?])*\"")
CONSTANT = re.compile(r"(0[xX][0-9a-fA-F]+|0[0-7]*|[1-9][0-9]*)([uU]?[lL]?|[lL][uU])")


class NotAccepted(Exception):
    """The text isn't accepted: why, and at which line."""

    def __init__(self, line, why):
        super().__init__(f"{line}: {why}")
        self.line = line


@dataclass
class Token:
    kind: str
    text: str
    line: int


def tokens_of(text):
    """The tokens of the bytes of a text."""
    tokens, at, line = [], 0, 1
    while at < len(text):
        blank = BLANK.match(text, at)
        if blank:
            line += blank.group().count(b"\n")
            at = blank.end()
            continue
        token = token_at(text, at, line)
        tokens.append(token)
        at += len(INCLUDE.match(text, at).group()) if token.kind == "include" else len(token.text)
    return tokens


def token_at(text, at, line):
    """The token that begins at a place."""
    include = INCLUDE.match(text, at)
    if include:
        return Token("include", "<" + include.group(1).decode() + ".h>", line)
    for kind, pattern in (("name", NAME), ("number", NUMBER), ("character", CHARACTER), ("string", STRING)):
        found = pattern.match(text, at)
        if found:
            return Token(kind, found.group().decode(), line)
    for mark in MARKS:
        if text.startswith(mark.encode(), at):
            return Token("mark", mark, line)
    raise NotAccepted(line, "no token begins here")


def literal_bytes(spelling):
    """The bytes of a character constant or a string, from its spelling with quotes."""
    values, at, end = [], 1, len(spelling) - 1
    while at < end:
        if spelling[at] == "\\":
            values.append(ESCAPES[spelling[at + 1]])
            at += 2
        else:
            values.append(ord(spelling[at]))
            at += 1
    return values


def constant_of(token):
    """The type and the value of a constant."""
    if token.kind == "character":
        return INT, literal_bytes(token.text)[0]
    form = CONSTANT.fullmatch(token.text)
    if not form:
        raise NotAccepted(token.line, "no constant")
    digits, suffix = form.group(1), form.group(2).lower()
    is_decimal = digits[0] != "0"
    value = int(digits, 10 if is_decimal else 16 if digits[:2] in ("0x", "0X") else 8)
    types = [INT, UINT, LONG, ULONG]
    if "u" in suffix:
        types = [UINT, ULONG]
    elif is_decimal:
        types = [INT, LONG]
    if "l" in suffix:
        types = [t for t in types if t in (LONG, ULONG)]
    for t in types:
        if value <= GREATEST[t]:
            return t, value
    raise NotAccepted(token.line, "no type holds the constant")
