"""The lines of a file of ordinary C on which a statement starts that does something."""
from pycparser import c_ast

from pipeline import parsed
from preprocess import preprocess

SIMPLE = (c_ast.Assignment, c_ast.FuncCall, c_ast.If, c_ast.While, c_ast.DoWhile, c_ast.For, c_ast.Switch, c_ast.Return, c_ast.Continue)


class Lines:
    def __init__(self, source):
        self.source = source
        self.found = set()

    def first_line(self, node):
        """A declaration starts with its type, and each of its declarators on the line of the whole."""
        lines = [node.coord.line] if node.coord and node.coord.line > 0 else []
        if not isinstance(node, (c_ast.Struct, c_ast.Enum)):
            lines += [self.first_line(child) for _, child in node.children()]
        return min(lines or [10 ** 9])

    def add(self, node):
        file, line = self.source.origin(self.first_line(node) if isinstance(node, c_ast.Decl) else node.coord.line)
        if file == self.source.main:
            self.found.add(line)

    def body(self, node):
        if node is None:
            return
        for part in (node.block_items or []) if isinstance(node, c_ast.Compound) else [node]:
            self.statement(part)

    def statement(self, node):
        if isinstance(node, SIMPLE) or (isinstance(node, c_ast.UnaryOp) and node.op in ("++", "--", "p++", "p--")):
            self.add(node)
        if isinstance(node, c_ast.Decl) and node.init is not None and not {"static", "extern"} & set(node.storage):
            self.add(node)
        if isinstance(node, c_ast.Compound):
            self.body(node)
        for part in ("iftrue", "iffalse", "stmt"):
            self.body(getattr(node, part, None))
        for part in getattr(node, "stmts", None) or []:
            self.statement(part)


def lines_with_statements(path):
    source = preprocess(path)
    lines = Lines(source)
    for node in parsed(source).ext:
        if isinstance(node, c_ast.FuncDef):
            lines.body(node.body)
    return lines.found
