"""Names in scope, and the types that declarations write.

Ordinary names stand for variables (Var), functions (Entry), constants of enumerations and names of types; tags have scopes of their own.
What a function needs in front of it (structs that it defines, strings, static variables, functions of the text) is kept in `front`.
"""
from dataclasses import dataclass
from typing import Any

from pycparser import c_ast

from c_types import INT, UINT, WORDS, Array, Function, Int, Pointer, Struct, VOID, decayed, is_scalar
from faults import Refused
from tree import fold


@dataclass(eq=False)
class Entry:
    """A function of the file; `own` are the types of its parameters, `result` that of what it gives."""
    name: str
    type: Function
    is_static: bool = False
    is_defined: bool = False
    is_called: bool = False
    is_declared: bool = False
    node: Any = None


@dataclass(eq=False)
class Named:
    """A name of a type."""
    type: Any


@dataclass(eq=False)
class Enumerated:
    """A constant of an enumeration."""
    value: int


class Names:
    """The part of the builder that knows names, and reads types."""

    def __init__(self, faults):
        self.faults = faults
        self.scopes = [{}]
        self.tags = [{}]
        self.functions = {}
        self.items = []
        self.front = []
        self.used = set()
        self.types = {}
        self.outermost = None

    # scopes

    def open(self):
        self.scopes.append({})
        self.tags.append({})

    def close(self):
        self.scopes.pop()
        self.tags.pop()

    def find(self, name):
        for scope in reversed(self.scopes):
            if name in scope:
                return scope[name]
        return None

    def fresh(self, stem):
        """A name that stands nowhere in the file."""
        number = 1
        while f"{stem}_{number}" in self.used:
            number += 1
        self.used.add(f"{stem}_{number}")
        return f"{stem}_{number}"

    # types

    def type_of(self, node):
        """The type that a declarator writes."""
        if isinstance(node, (c_ast.TypeDecl, c_ast.Typename, c_ast.Decl)):
            return self.type_of(node.type)
        if isinstance(node, c_ast.IdentifierType):
            return self.type_of_words(node)
        if isinstance(node, c_ast.PtrDecl):
            to = self.type_of(node.type)
            if isinstance(to, Function):
                raise Refused(node, "a pointer to a function: call functions by their names")
            return Pointer(to)
        if isinstance(node, c_ast.ArrayDecl):
            return self.array_of(node)
        if isinstance(node, c_ast.Struct):
            return self.struct_of(node)
        if isinstance(node, c_ast.Enum):
            return self.enum_of(node)
        if isinstance(node, c_ast.FuncDecl):
            return self.function_of(node)
        if isinstance(node, c_ast.Union):
            raise Refused(node, "a union: a struct with a member for each")
        raise Refused(node, "a declaration of a kind that isn't known")

    def type_of_words(self, node):
        found = self.find(node.names[0]) if len(node.names) == 1 else None
        if isinstance(found, Named):
            return found.type
        if found == "":
            raise Refused(node, "")
        if node.names == ["void"]:
            return VOID
        words = " ".join(sorted(node.names))
        if words not in WORDS:
            what = "a floating type: an integer type" if {"float", "double"} & set(node.names) else f"no type of the language is {words}"
            raise Refused(node, what)
        return WORDS[words]

    def array_of(self, node):
        of = self.type_of(node.type)
        if isinstance(of, Struct) and not of.is_defined:
            raise Refused(node, f"an array of struct {of.tag}, which isn't defined here")
        if node.dim is None:
            return Array(of, None)
        length = self.constant(node.dim, "an array whose length isn't constant: a constant length, or malloc")
        if length < 1:
            raise Refused(node, "an array without elements: a length of 1 or more")
        return Array(of, length)

    def constant(self, node, words):
        """The value of a constant expression of integers."""
        value = fold(self.pure(node))
        if value is None:
            raise Refused(node, words)
        return value

    def function_of(self, node):
        params = []
        for param in (node.args.params if node.args else []):
            if isinstance(param, c_ast.EllipsisParam):
                raise Refused(param, "any number of arguments: so many parameters as there are")
            if isinstance(param, c_ast.ID):
                raise Refused(param, "a function in the old style: types in the list of its parameters")
            params.append(self.param_type(param))
        if params == [VOID]:
            params = []
        return Function(self.type_of(node.type), tuple(params))

    def param_type(self, param):
        """The type of a parameter: an array is a pointer (6.7.5.3)."""
        t = param.type
        if isinstance(t, c_ast.ArrayDecl):
            return Pointer(self.type_of(t.type))
        written = self.type_of(t)
        if isinstance(written, Function):
            raise Refused(param, "a pointer to a function: call functions by their names")
        return Pointer(written.of) if isinstance(written, Array) else written

    def struct_of(self, node):
        """The struct that is named or defined; a definition is moved in front of what it stands in."""
        if node.decls is None:
            return self.tagged(node)
        known = self.tags[-1].get(node.name) if node.name else None
        if id(node) in self.types:
            return self.types[id(node)]
        if known and known.is_defined:
            raise Refused(node, f"struct {node.name} is defined twice")
        struct = known or Struct(node.name or "")
        self.types[id(node)] = struct
        if node.name:
            self.tags[-1][node.name] = struct
        self.outermost = self.outermost or node
        self.add_members(struct, node)
        struct.is_defined = True
        self.add_item("struct", struct, self.outermost)
        self.outermost = None if self.outermost is node else self.outermost
        return struct

    def tagged(self, node):
        for scope in reversed(self.tags):
            if node.name in scope:
                return scope[node.name]
        struct = Struct(node.name)
        self.tags[-1][node.name] = struct
        return struct

    def add_members(self, struct, node):
        for decl in node.decls:
            if not isinstance(decl, c_ast.Decl):
                continue
            if decl.bitsize is not None:
                raise Refused(decl, "a bit-field: a whole member")
            t = self.type_of(decl.type)
            self.name_structs(decl.type, decl.name)
            if decl.name is None:
                raise Refused(decl, "a member without a name: a member with one")
            if isinstance(t, Function) or t == VOID or (isinstance(t, Array) and t.length is None):
                raise Refused(decl, "a member of this type: an integer, a pointer, an array with a length or a struct")
            if isinstance(t, Struct) and not t.is_defined:
                raise Refused(decl, f"struct {t.tag} isn't defined here: its definition in front")
            struct.members.append((decl.name, t))

    def enum_of(self, node):
        """The integer type of an enumeration, as compilers choose it: unsigned where no constant is negative."""
        if id(node) in self.types:
            return self.types[id(node)]
        if node.values is None:
            for scope in reversed(self.tags):
                if node.name in scope:
                    return scope[node.name]
            raise Refused(node, f"enum {node.name} isn't defined here")
        value, is_negative = -1, False
        for enumerator in node.values.enumerators:
            value += 1
            if enumerator.value is not None:
                value = self.constant(enumerator.value, "a constant of an enumeration that isn't constant: a number")
            is_negative = is_negative or value < 0
            self.scopes[-1][enumerator.name] = Enumerated(value)
        self.types[id(node)] = INT if is_negative else UINT
        if node.name:
            self.tags[-1][node.name] = self.types[id(node)]
        return self.types[id(node)]

    # what is asked of types

    def wants_scalar(self, x, node):
        if not is_scalar(decayed(x.type)):
            raise Refused(node, "no integer and no pointer where one is wanted")
        return x

    def wants_int(self, x, node):
        if not isinstance(x.type, Int):
            raise Refused(node, "no integer where one is wanted")
        return x
