"""Declarations: of files and of blocks. Each becomes an item, a statement, or only a name in scope."""
from pycparser import c_ast

from c_types import CHAR, Array, Function, Pointer, Struct, VOID
from expressions import NeedsRows
from faults import Refused
from names import Entry, Enumerated, Named
from tree import Var, const, name

KEYWORDS = set("""auto break case char const continue default do double else enum extern float for goto if inline int long register
restrict return short signed sizeof static struct switch typedef union unsigned void volatile while _Bool _Complex _Imaginary""".split())
LIBRARY = ("getchar", "putchar", "printf", "malloc", "free", "NULL", "EOF")


class Item:
    """Something at the level of the file: its kind (include, struct, global, prototype, function, text), what it is, and its line."""

    def __init__(self, kind, what, line, more=None):
        self.kind = kind
        self.what = what
        self.line = line
        self.more = more


class Declarations:
    """The part of the builder that reads declarations."""

    def line_of(self, node):
        """The line of FILE on which a node's first token stands."""
        return self.source.line_in_main(self.first_line(node))

    def first_line(self, node):
        coord = getattr(node, "coord", None)
        lines = [coord.line] if coord and coord.line > 0 else []
        if isinstance(node, (c_ast.Struct, c_ast.Enum)):
            return lines[0] if lines else 10 ** 9
        for _, child in node.children():
            if not isinstance(child, c_ast.Compound):
                lines.append(self.first_line(child))
        return min(lines) if lines else 10 ** 9

    def add_item(self, kind, what, node, more=None):
        """An item: at its line, or in front of the function at hand."""
        if self.current is not None:
            self.front.append((kind, what, more) if more is not None else (kind, what))
        else:
            self.items.append(Item(kind, what, self.line_of(node), more))

    # types that are named

    def named_type(self, node):
        t = self.type_of(node.type)
        self.name_structs(node.type, node.name)
        self.scopes[-1][node.name] = Named(t)

    def name_structs(self, inner, stem):
        """Gives a tag to the struct that a declarator defines without one."""
        while isinstance(inner, (c_ast.TypeDecl, c_ast.PtrDecl, c_ast.ArrayDecl)):
            inner = inner.type
        found = self.types.get(id(inner))
        if isinstance(found, Struct) and not found.tag:
            found.tag = self.free_tag(stem)

    def free_tag(self, stem):
        if stem and stem not in self.given_tags and stem not in self.written_tags:
            self.given_tags.add(stem)
            return stem
        return self.fresh(stem or "struct")

    # variables

    def check_variable(self, node, t):
        if t == VOID or isinstance(t, Function):
            raise Refused(node, "a variable of type void")
        if isinstance(t, Array) and t.length is None:
            raise Refused(node, "an array without a length: a length")
        if isinstance(t, Struct) and not t.is_defined:
            raise Refused(node, f"struct {t.tag} isn't defined here: its definition in front")
        self.check_rows(t)

    def check_rows(self, t):
        """A pointer to arrays wants arrays of arrays to be laid out as one."""
        while isinstance(t, (Pointer, Array)):
            if isinstance(t, Pointer) and isinstance(t.to, Array) and not self.is_flat:
                raise NeedsRows
            t = t.to if isinstance(t, Pointer) else t.of

    def local(self, node):
        """A declaration in a block."""
        if isinstance(node, c_ast.Typedef):
            self.named_type(node)
            return
        if isinstance(node, c_ast.Pragma):
            return
        t = self.type_of(node.type)
        self.name_structs(node.type, node.name or "struct")
        if node.name is None:
            return
        if isinstance(t, Function):
            self.prototype(node, t)
            return
        if "extern" in node.storage:
            self.outer(node)
            return
        t = self.completed(t, node.init)
        self.check_variable(node, t)
        if "static" in node.storage:
            self.static_local(node, t)
            return
        var = Var(node.name, t)
        var.is_reached = node.name in self.reached or isinstance(t, Array)
        self.scopes[-1][node.name] = var
        self.begin(node, var, node.init)

    def static_local(self, node, t):
        """A static variable of a function is a global in front of it."""
        var = Var(node.name, t, True, True)
        self.scopes[-1][node.name] = var
        self.front.append(("global", var, self.begin_global(var, node.init)))

    def outer(self, node):
        found = self.scopes[0].get(node.name)
        if not isinstance(found, Var):
            raise Refused(node, f"extern {node.name}, which the file doesn't define in front: its definition above")
        self.scopes[-1][node.name] = found

    def string(self, node, values):
        """A string as a global array of characters in front of the function at hand, or of main."""
        var = Var(self.fresh("string"), Array(CHAR, len(values) + 1), True)
        items = [const(byte - 256 if byte > 127 else byte) for byte in values + b"\0"]
        self.front.append(("global", var, (None, items)))
        if self.current is None:
            self.strings.append(self.front.pop())
        return name(var)

    # the file

    def file_level(self, node):
        if isinstance(node, c_ast.Typedef):
            self.named_type(node)
        elif isinstance(node, c_ast.FuncDef):
            self.function(node)
        elif isinstance(node, c_ast.Decl):
            self.file_declaration(node)
        elif not isinstance(node, c_ast.Pragma):
            raise Refused(node, "something at the level of the file that isn't known")

    def file_declaration(self, node):
        t = self.type_of(node.type)
        self.name_structs(node.type, node.name or "struct")
        if node.name is None:
            return
        if isinstance(t, Function):
            self.prototype(node, t)
            return
        self.global_variable(node, t)

    def global_variable(self, node, t):
        """A global; a file may declare one more than once, and only one declaration has a value."""
        known = self.scopes[0].get(node.name)
        if known is not None and not isinstance(known, Var):
            raise Refused(node, f"{node.name} is declared twice")
        if "extern" in node.storage and node.init is None:
            if node.name not in self.defined_globals:
                raise Refused(node, f"extern {node.name}, which the file doesn't define: its definition")
            if isinstance(t, Array) and t.length is None:
                t = self.completed(t, self.defined_globals[node.name])
        t = self.completed(t, node.init)
        self.check_variable(node, t)
        if known is None:
            known = Var(node.name, t, True, "static" in node.storage)
            self.scopes[0][node.name] = known
            self.items.append(Item("global", known, self.line_of(node), (None, None)))
        if node.init is not None:
            value = self.begin_global(known, node.init)
            item = next(item for item in self.items if item.what is known)
            item.more = value

    def prototype(self, node, t):
        if node.name not in self.defined_functions:
            return
        entry = self.entry(node, t)
        if self.current is not None:
            self.scopes[-1][node.name] = entry
        if not entry.is_declared and not entry.is_defined and node.name != "main":
            entry.is_declared = True
            self.add_item("prototype", entry, node)

    def entry(self, node, t):
        known = self.functions.get(node.name)
        if known is None:
            if isinstance(self.scopes[0].get(node.name), (Var, Named, Enumerated)):
                raise Refused(node, f"{node.name} is declared twice")
            known = Entry(node.name, t, "static" in node.storage)
            self.functions[node.name] = known
        elif known.type != t and node.name != "main":
            if not self.is_open(node) and known.type.params:
                raise Refused(node, f"{node.name} with another type than before: one type")
            known.type = t if t.params else known.type
        known.is_static = known.is_static or "static" in node.storage
        self.scopes[0][node.name] = known
        for part in (*t.params, t.result):
            self.check_rows(part)
        return known

    @staticmethod
    def is_open(node):
        """Whether a declaration tells nothing of the parameters."""
        return node.type.args is None


__all__ = ["Declarations", "Item", "KEYWORDS", "LIBRARY"]
