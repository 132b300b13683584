"""Functions and statements: the tree of the parser as statements that still jump; each has its line."""
from pycparser import c_ast

from c_types import INT, Int, Pointer, Struct, VOID, convert, promote
from calls import Calls
from declarations import Declarations, Item
from expressions import Expressions
from faults import Refused
from initialisers import Initialisers
from names import Names
from tree import Arm, Assign, Block, Break, Continue, Declare, If, Loop, Return, Switch, Var, X, const, fold, inner_lists, name


class Function:
    """A function that is laid out: its entry, its parameters as variables, its body, and where its closing brace stands."""

    def __init__(self, entry, params, node):
        self.entry = entry
        self.params = params
        self.node = node
        self.body = []
        self.end = None
        self.result = None


class Builder(Names, Declarations, Initialisers, Expressions, Calls):
    """Reads a parsed file, declaration by declaration, into items and statements."""

    def __init__(self, source, ast, faults, options, is_flat):
        Names.__init__(self, faults)
        self.source = source
        self.ends = options["ends"]
        self.is_loose = options["is_loose"]
        self.used = set(options["words"])
        self.is_flat = is_flat
        self.included = source.included
        self.out = []
        self.line = 1
        self.current = None
        self.reached = set()
        self.main_start = []
        self.strings = []
        self.text_functions = {}
        self.given_tags = set()
        self.written_tags = tags_of(ast)
        self.ast = ast
        self.defined_functions = {node.decl.name for node in ast.ext if isinstance(node, c_ast.FuncDef)}
        self.defined_globals = {node.name: node.init for node in ast.ext
                                if isinstance(node, c_ast.Decl) and ("extern" not in node.storage or node.init)}

    def build(self):
        for header, line in self.included:
            if header in ("stdio.h", "stdlib.h"):
                self.items.append(Item("include", header, line))
        for node in self.ast.ext:
            try:
                self.file_level(node)
            except Refused as fault:
                self.faults.add(fault.node or node, fault.words)
                self.give_up(node)
        if "main" not in self.defined_functions:
            self.faults.add(None, "there is no main: int main(void)")
        return self.items

    def give_up(self, node):
        """A name whose declaration is refused stands for nothing, and what uses it isn't told again."""
        name = node.decl.name if isinstance(node, c_ast.FuncDef) else getattr(node, "name", None)
        if name and name not in self.scopes[-1]:
            self.scopes[-1][name] = ""

    def tried(self, node, act, other):
        """What an act gives, or something else where it is refused, so that what stands behind is looked at too."""
        before = len(self.out)
        try:
            return act()
        except Refused as fault:
            del self.out[before:]
            self.faults.add(fault.node or node, fault.words)
            return other

    # functions

    def function(self, node):
        t = self.type_of(node.decl.type)
        if node.param_decls:
            raise Refused(node.param_decls[0], "a function in the old style: types in the list of its parameters")
        if node.decl.name == "main":
            t = self.main_type(node, t)
        entry = self.entry(node.decl, t)
        if entry.is_defined:
            raise Refused(node, f"{entry.name} is defined twice")
        entry.is_defined = True
        self.current, self.reached, front = entry, reached_names(node.body), self.front
        self.front = []
        self.open()
        made = Function(entry, self.params(node, t), node)
        self.line = None
        made.body = self.list(node.body.block_items or [])
        made.end = self.end_of(node.body)
        self.close()
        line = self.line_of_function(node)
        self.items += [Item(part[0], part[1], line, part[2] if len(part) > 2 else None) for part in self.front]
        self.items.append(Item("function", made, line))
        self.current, self.front = None, front

    def line_of_function(self, node):
        return self.source.line_in_main(min(self.first_line(node.decl), node.coord.line))

    def main_type(self, node, t):
        if t.params and [type(p) for p in t.params] != [Int, Pointer]:
            raise Refused(node, "main with other parameters: int main(void)")
        return type(t)(INT, ())

    def params(self, node, t):
        """The parameters as variables; a struct is behind a pointer, and the place for a struct's result is the first of them."""
        found = []
        if isinstance(t.result, Struct):
            self.result = Var(self.fresh("result"), Pointer(t.result))
            self.result.by_pointer = True
            found.append(self.result)
        params = node.decl.type.args.params if node.decl.type.args else []
        if node.decl.name == "main":
            for param in params:
                if getattr(param, "name", None):
                    self.scopes[-1][param.name] = f"the use of {param.name}: main reads its input by getchar, and has no arguments"
            return found
        for param, of in zip([p for p in params if self.type_of(p.type) != VOID], t.params):
            if param.name is None:
                raise Refused(param, "a parameter without a name: a name")
            var = Var(param.name, Pointer(of) if isinstance(of, Struct) else of)
            var.by_pointer = isinstance(of, Struct)
            var.is_reached = param.name in self.reached
            self.scopes[-1][param.name] = var
            found.append(var)
        return found

    def end_of(self, node):
        """The line of FILE on which a compound statement is closed."""
        end = self.ends.get((node.coord.line, node.coord.column)) if isinstance(node, c_ast.Compound) and node.coord else None
        return self.source.line_in_main(end) if end else None

    # statements

    def list(self, nodes):
        with self.capture() as found:
            for node in nodes:
                self.statement(node)
        return found

    def body(self, node):
        """The body of an if or a loop, in a scope of its own."""
        if node is None:
            return []
        self.open()
        line = self.line
        found = self.list((node.block_items or []) if isinstance(node, c_ast.Compound) else [node])
        self.line = line
        self.close()
        return found

    def statement(self, node):
        before = len(self.out)
        try:
            self.line = self.line_of(node)
            method = getattr(self, "do_" + type(node).__name__, None)
            if method is None:
                self.effect(node)
            else:
                method(node)
        except Refused as fault:
            del self.out[before:]
            self.faults.add(fault.node or node, fault.words)
            if isinstance(node, (c_ast.Decl, c_ast.Typedef)):
                self.give_up(node)

    def do_Decl(self, node):
        self.local(node)

    def do_Typedef(self, node):
        self.local(node)

    def do_DeclList(self, node):
        for decl in node.decls:
            self.local(decl)

    def do_Pragma(self, node):
        pass

    def do_EmptyStatement(self, node):
        pass

    def do_Compound(self, node):
        line = self.line
        self.emit(Block(self.body(node), line, self.end_of(node)))

    def do_If(self, node):
        line = self.line
        test = self.tried(node.cond, lambda: self.test(node.cond), const(0))
        then = self.body(node.iftrue)
        other = self.body(node.iffalse)
        self.emit(If(test, then, other, line, self.end_of(node.iftrue), self.end_of(node.iffalse)))

    def loop_test(self, node):
        """A test, and what has to be done in front of it each time; none where it is always true."""
        with self.capture() as before:
            test = self.tried(node, lambda: self.test(node), const(0))
        value = fold(test) if not before else None
        return before, None if value else test

    def do_While(self, node):
        line = self.line
        before, test = self.loop_test(node.cond)
        self.emit(Loop("while", [], before, test, [], self.body(node.stmt), line, self.end_of(node.stmt)))

    def do_DoWhile(self, node):
        line = self.line
        body = self.body(node.stmt)
        self.line = self.line_of(node.cond)
        before, test = self.loop_test(node.cond)
        self.emit(Loop("do", [], before, test, [], body, line, self.end_of(node.stmt), self.line))

    def do_For(self, node):
        line = self.line
        self.open()
        with self.capture() as init:
            if isinstance(node.init, c_ast.DeclList):
                self.do_DeclList(node.init)
            elif node.init is not None:
                self.effect(node.init)
        before, test = self.loop_test(node.cond) if node.cond is not None else ([], None)
        self.line = self.line_of(node.next) if node.next is not None else line
        step = self.effects(node.next) if node.next is not None else []
        self.line = line
        body = self.body(node.stmt)
        self.close()
        self.emit(Loop("for", init, before, test, step, body, line, self.end_of(node.stmt)))

    def do_Break(self, node):
        self.emit(Break())

    def do_Continue(self, node):
        self.emit(Continue())

    def do_Return(self, node):
        t = self.current.type.result
        if node.expr is None:
            if t != VOID and self.current.name != "main":
                raise Refused(node, "a return without a value: a value")
            self.emit(Return())
        elif t == VOID:
            raise Refused(node, "a return with a value in a function that gives none: return")
        elif isinstance(t, Struct):
            value = self.value(node.expr)
            self.store(name(self.result), value, node)
            self.emit(Return())
        else:
            value = self.right_side(node.expr, t)
            self.emit(Return(value if isinstance(value, X) else self.temp(value, t)))

    def do_Goto(self, node):
        raise Refused(node, "goto: if and while")

    def do_Label(self, node):
        self.faults.add(node, "a label: the statement alone")
        self.statement(node.stmt)

    def do_Case(self, node):
        raise Refused(node, "a label of a switch inside another statement: labels of a switch directly in its braces")

    do_Default = do_Case

    # switches

    def do_Switch(self, node):
        line = self.line
        value = self.tried(node.cond, lambda: self.wants_int(self.value(node.cond), node.cond), const(0))
        self.open()
        arms, nodes = [], (node.stmt.block_items or []) if isinstance(node.stmt, c_ast.Compound) else [node.stmt]
        with self.capture() as found:
            for part in nodes:
                self.arm_part(part, arms, promote(value.type))
        self.close()
        arms, declared = hoisted(arms, found)
        made = Switch(value, arms, line, self.end_of(node.stmt))
        for s in declared:
            s.line = line
        if declared:
            made = Block([*declared, made], line, made.end)
        self.emit(made)

    def label(self, node, t):
        """The constant of a label: as it is written, or its value."""
        try:
            x = self.pure(node.expr)
            value = self.constant(node.expr, "a label that isn't constant: a constant")
        except Refused as fault:
            self.faults.add(fault.node, fault.words)
            return const(0)
        return x if x.kind == "const" else const(convert(value, t), t)

    def arm_part(self, part, arms, t):
        """A label with what stands behind it, or a statement of the arm at hand."""
        if not isinstance(part, (c_ast.Case, c_ast.Default)):
            out, self.out = self.out, arms[-1].body if arms else self.out
            self.statement(part)
            self.out = out
            return
        if not arms or arms[-1].body:
            arms.append(Arm([], [], self.source.line_in_main(part.coord.line)))
        arms[-1].labels.append(None if isinstance(part, c_ast.Default) else self.label(part, t))
        for inner in part.stmts or []:
            self.arm_part(inner, arms, t)


def hoisted(arms, front):
    """The arms of a switch, and the declarations that have to stand in front of it: those before its first label and those of one arm
    whose variable another one names too."""
    declared = [s for s in front if isinstance(s, Declare)]
    for s in declared:
        s.value, s.items = None, None
    for arm in arms:
        others = [other for other in arms if other is not arm]
        for at, s in enumerate(arm.body):
            if isinstance(s, Declare) and any(names(part, s.var) for other in others for part in other.body):
                declared.append(Declare(s.var, None, None, s.line))
                arm.body[at] = replaced(s)
    for arm in arms:
        arm.body = [s for s in arm.body if s is not None]
    return arms, declared


def replaced(s):
    """The assignment of a declaration that has been moved, or None."""
    if s.items is not None:
        raise Refused(None, "an array with a list in one arm of a switch that another arm names: its declaration in front of the switch")
    return None if s.value is None else Assign(name(s.var), "=", s.value, s.line)


def names(s, var):
    """Whether a statement names a variable."""
    parts = []
    for key in ("place", "value", "test", "call"):
        part = getattr(s, key, None)
        parts += part.args if hasattr(part, "args") else [part]
        parts.append(getattr(part, "count", None))
    parts += getattr(s, "items", None) or []
    if any(isinstance(part, X) and named_in(part, var) for part in parts):
        return True
    return any(names(inner, var) for part in inner_lists(s) for inner in part)


def named_in(x, var):
    """Whether an expression names a variable."""
    return (x.kind == "name" and x.word is var) or any(named_in(part, var) for part in x.parts)


def reached_names(node):
    """The names of variables whose address is taken somewhere in a node."""
    found = set()

    def walk(part):
        if isinstance(part, c_ast.UnaryOp) and part.op == "&":
            inner = part.expr
            while isinstance(inner, (c_ast.StructRef, c_ast.ArrayRef)):
                inner = inner.name
            if isinstance(inner, c_ast.ID):
                found.add(inner.name)
        for _, child in part.children():
            walk(child)

    walk(node)
    return found


def tags_of(node):
    """The tags of structs that a file writes."""
    found = {node.name} if isinstance(node, c_ast.Struct) and node.name else set()
    for _, child in node.children():
        found |= tags_of(child)
    return found
