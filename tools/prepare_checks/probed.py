#!/usr/bin/env python3
"""A text of the language as C that tells values on its error output: probed.py FILE [LINE..]

Each statement that starts on one of the lines tells, each time, 0, its number among those of all these lines from 1 on, and its values; a
pointer tells whether it is null. With no line each statement tells its line, and its number among those of its line. `probed.py --lines`
reads names of files from its input, a line each, and writes for each the lines on which statements start, or why the text isn't accepted.
"""
import os
import sys

sys.path.insert(0, os.path.join(os.path.dirname(os.path.realpath(__file__)), "..", "..", "reference"))

from layout import Page, simple_words, words_of
from lexer import NotAccepted
from names import read_program
from tree import Pointer, decayed

HEAD = ["#include <stdio.h>", "static long probe_of(int line, int rank, long value) {",
        '    fprintf(stderr, "@ %d %d %ld\\n", line, rank, value);', "    return value;", "}"]


class Probed(Page):
    """The layout, with a probe at each statement of the ranks that are given by numbers."""

    def __init__(self, ranks):
        super().__init__()
        self.ranks = ranks

    def wants(self, s):
        return s is not None and s.number in self.ranks

    def probe(self, s, e):
        line, rank = self.ranks[s.number]
        is_pointer = isinstance(decayed(e.type), Pointer)
        return f"probe_of({line}, {rank}, " + (f"({words_of(e)}) != 0)" if is_pointer else f"(long)({words_of(e)}))")

    def test(self, s):
        return self.probe(s, s.value) if self.wants(s) else words_of(s.value)

    def told(self, s):
        """The expressions whose values a simple statement tells when it is done."""
        if s.form in ("write", "release") or (s.form == "return" and s.value):
            return [s.value]
        if s.form == "print":
            return s.args
        return [s.left] if s.left and s.args is None or s.left and s.form == "invoke" else []

    def simple(self, s):
        """A simple statement of a for's head, with its probe behind it."""
        words = simple_words(s)
        if not self.wants(s):
            return words
        probes = [self.probe(s, e) for e in self.told(s)]
        if s.declares:
            return f"{words}, probe_{s.number} = " + ", ".join(probes) if probes and not isinstance(s.declares.type, Pointer) else words
        return ", ".join([words, *probes])

    def statement(self, level, s):
        if getattr(self, s.form + "_", None) or not self.wants(s):
            super().statement(level, s)
            return
        probes = "".join(f" {self.probe(s, e)};" for e in self.told(s))
        if s.form == "return":
            self.put(level, f"{probes} {simple_words(s)};")
        else:
            self.put(level, f"{simple_words(s)};{probes}")

    def if_(self, level, s):
        self.put(level, f"if ({self.test(s)}) {{")
        self.body(level + 1, s.body)
        self.put(level, "} else {")
        self.body(level + 1, s.other)
        self.put(level, "}")

    def while_(self, level, s):
        self.put(level, f"while ({self.test(s)}) {{")
        self.body(level + 1, s.body)
        self.put(level, "}")

    def do_(self, level, s):
        self.put(level, "do {")
        self.body(level + 1, s.body)
        self.put(level, f"}} while ({self.test(s)});")

    def for_(self, level, s):
        init = self.simple(s.init) if s.init else ""
        step = " " + self.simple(s.step) if s.step else ""
        self.put(level, f"for ({init}; {self.test(s)};{step}) {{")
        self.body(level + 1, s.body)
        self.put(level, "}")

    def switch_(self, level, s):
        self.put(level, f"switch ({self.test(s)}) {{")
        for arm in s.arms:
            for label, _ in arm.labels:
                self.put(level + 1, "default:" if label is None else f"case {words_of(label)}:")
            self.body(level + 2, arm.body)
            self.put(level + 2, "break;")
        self.put(level, "}")


def ranks_of(program, lines):
    """By the number of each statement on the lines what it tells in front of its values."""
    found, counts = {}, {}
    for s, _ in program.statements:
        if not lines or s.line in lines:
            line = 0 if lines else s.line
            counts[line] = counts.get(line, 0) + 1
            found[s.number] = (line, counts[line])
    return found


def probed(text, lines):
    program = read_program(text)
    page = Probed(ranks_of(program, lines))
    for item in program.items:
        page.item(item)
    return "\n".join(HEAD + page.lines) + "\n"


def lines_of(path):
    try:
        return " ".join(str(line) for line in sorted({s.line for s, _ in read_program(bytes_of(path)).statements}))
    except NotAccepted as fault:
        return f"! {fault}"


def bytes_of(path):
    with open(path, "rb") as file:
        return file.read()


def main():
    words = sys.argv[1:]
    if words == ["--lines"]:
        for path in sys.stdin:
            print(lines_of(path.rstrip("\n")), flush=True)
    else:
        sys.stdout.write(probed(bytes_of(words[0]), {int(word) for word in words[1:]}))


if __name__ == "__main__":
    main()
