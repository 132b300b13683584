"""The projection of a program to what is kept of it, and the text of a slice."""
from copy import copy

from graph import RESULT, Graph, argument
from layout import page_of
from locations import named_in
from reach import Between, Words, completion, members
from tree import Arm, Program, Statement, each_statement, expressions


class Projection:
    """What stays of a program, where these vertices are kept."""

    def __init__(self, graph, kept):
        self.graph, self.kept = graph, kept
        self.named = self.named_by_kept_text()
        functions = {f: self.function(f) for f in graph.program.functions if self.has(graph.entries[f])}
        for f in functions.values():
            for s in each_statement(f.body):
                s.function = functions.get(s.function)
        items = [self.item(item, functions) for item in graph.program.items]
        self.program = Program([item for item in items if item], [], [], list(functions.values()), [])

    def has(self, v):
        return v.number in self.kept

    def keeps(self, s):
        """Whether a statement is kept: its vertex, or the vertex of its call."""
        return s.number is not None and self.has(self.graph.by_statement[s.number][0])

    def keeps_result(self, s):
        return any(v.slot == RESULT and self.has(v) for v in self.graph.by_statement[s.number])

    def kept_args(self, s):
        kept = {v.slot for v in self.graph.by_statement[s.number] if v.kind == "actual-in" and self.has(v)}
        return [e for k, e in enumerate(s.args) if argument(k + 1) in kept]

    def named_by_kept_text(self):
        """The variables that the words of kept statements name."""
        named = set()
        for s, _ in self.graph.program.statements:
            if not self.keeps(s):
                continue
            found = expressions(s)
            if s.form == "invoke":
                found = self.kept_args(s) + ([s.left] if s.left and self.keeps_result(s) else [])
            if s.amount and s.amount.size and s.amount.size.name:
                found.append(s.amount.size.name)
            named = named.union(*(named_in(e) for e in found))
        return named

    def statements(self, body):
        return [made for s in body for made in self.statement(s)]

    def declaration(self, s):
        """A declaration without its initialiser, where its variable is named."""
        if s.declares is None or s.declares not in self.named:
            return []
        return [Statement("declare", s.line, declares=s.declares)]

    def statement(self, s):
        """What stays of a statement, as a list."""
        if s.form == "block":
            body = self.statements(s.body)
            return [with_parts(s, body=body)] if body else []
        if not self.keeps(s):
            return self.left_of_for(s) if s.form == "for" else self.declaration(s)
        if s.form == "invoke":
            return self.call(s)
        return [with_parts(s, body=self.statements(s.body), other=self.statements(s.other), init=self.one(s.init), step=self.one(s.step),
                           arms=[Arm(arm.labels, self.statements(arm.body)) for arm in s.arms])]

    def one(self, s):
        """What stays of the init or the step of a for."""
        made = self.statement(s) if s else []
        return made[0] if made else None

    def left_of_for(self, s):
        """What a for begins with stays without it, in a block where it declares."""
        init = self.one(s.init)
        if init and init.declares:
            return [Statement("block", s.line, body=[init])]
        return [init] if init else []

    def call(self, s):
        args = self.kept_args(s)
        if s.left is None or self.keeps_result(s):
            return [with_parts(s, args=args)]
        return self.declaration(s) + [with_parts(s, args=args, left=None, declares=None)]

    def function(self, f):
        params = [v for v in self.graph.formal_ins[f] if v.slot[0] == "argument"]
        made = copy(f)
        made.body = self.statements(f.body)
        made.params = [var for var, v in zip(f.params, params) if self.has(v)]
        returns = [s for s in f.body if s.form == "return" and self.keeps(s)]
        if f.name != "main" and not returns:
            made.result = None
        return made

    def item(self, item, functions):
        if item.form == "global":
            return item if item.var in self.named else None
        if item.form not in ("prototype", "define"):
            return item
        if item.function not in functions:
            return None
        made = copy(item)
        made.function = functions[item.function]
        if item.form == "prototype":
            made.names = [name for name, var in zip(item.names, item.function.params) if var in made.function.params]
        return made


def with_parts(s, **parts):
    made = copy(s)
    for name, value in parts.items():
        setattr(made, name, value)
    return made


class Slicer:
    """The slices of a program."""

    def __init__(self, program):
        self.program = program
        self.graph = Graph(program)
        self.words = Words(self.graph)
        self.between = None

    def lines(self):
        """The lines on which statements start."""
        return sorted({s.line for s, _ in self.program.statements})

    def members(self, line):
        return members(self.words.reach(self.graph.criterion(line)))

    def forward(self, line):
        """What the statements of a line reach."""
        return members(self.words.forward(self.graph.criterion(line)))

    def chop(self, first, second):
        """What stands on the ways from the statements of one line to those of another."""
        if self.between is None:
            self.between = Between(self.words)
        return members(self.between.chop(self.graph.criterion(first), self.graph.criterion(second)))

    def kept(self, line):
        return completion(self.graph, self.words.reach(self.graph.criterion(line)))

    def kept_lines(self, line):
        """The lines on which the statements start that the slice at a line keeps."""
        kept = self.kept(line)
        return sorted({s.line for s, _ in self.program.statements if self.graph.by_statement[s.number][0].number in kept})

    def row(self, line):
        """The row that tells them."""
        return f"{line}:" + "".join(f" {kept}" for kept in self.kept_lines(line)) + "\n"

    def statements_on(self, line):
        return [s.number for s, _ in self.program.statements if s.line == line]

    def ranks(self, line, kept):
        """The numbers that the statements of a line have in its slice."""
        numbers = [s.number for s, _ in self.program.statements if self.graph.by_statement[s.number][0].number in kept]
        return [numbers.index(number) for number in self.statements_on(line)]

    def text(self, line):
        return self.text_and_ranks(line)[0]

    def text_and_ranks(self, line):
        """The slice at a line: a header with the lines of its statements, and the layout of what stays."""
        kept = self.kept(line)
        page = page_of(Projection(self.graph, kept).program)
        starts = sorted({page.starts[number] + 1 for number in self.statements_on(line)})
        header = f"/* slice {line}: {' '.join(map(str, starts))} */\n"
        return header + "".join(words + "\n" for words in page.lines), self.ranks(line, kept)


